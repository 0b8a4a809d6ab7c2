//! One sample.

use crate::refusal::answer;
use crate::{Refusal, ENTRY};

/// Bytes of a window: 7 by 7 samples of two, low byte first.
pub const WINDOW_BYTES: usize = 98;

extern "C" {
    fn cironetop_restore_sample(
        depth: u32,
        row: u32,
        kind: i32,
        v0: i32,
        v1: i32,
        v2: i32,
        h0: i32,
        h1: i32,
        h2: i32,
        set: i32,
        w0: i32,
        w1: i32,
        window: *const u8,
        window_len: usize,
    ) -> i32;
}

/// Restores one sample from its 7 by 7 source window, whose middle is the CDEF sample. Of `row` only
/// its being odd or even counts.
///
/// # Errors
///
/// [`Refusal`] 1, 7, 11, 15.
///
/// ```
/// use cironetop::{restore_sample, Unit, WINDOW_BYTES};
/// // Case B's middle: 100 among zeros across, the same in each of the seven rows.
/// let mut window = [0; WINDOW_BYTES];
/// (0..7).for_each(|row| window[2 * (7 * row + 3)] = 100);
/// let unit = Unit::Wiener { vertical: [3, -7, 15], horizontal: [3, -7, 15] };
/// assert_eq!(restore_sample(8, 0, unit.entry(), &window), Ok(83));
/// ```
pub fn restore_sample(
    depth: u32,
    row: u32,
    entry: [i32; ENTRY],
    window: &[u8],
) -> Result<u32, Refusal> {
    let [kind, v0, v1, v2, h0, h1, h2, set, w0, w1] = entry;
    let (bytes, length) = (window.as_ptr(), window.len());
    // SAFETY: the pointer is the slice's, of that length.
    let found = unsafe {
        cironetop_restore_sample(
            depth, row, kind, v0, v1, v2, h0, h1, h2, set, w0, w1, bytes, length,
        )
    };
    answer(if found < 0 { found.unsigned_abs() } else { 0 }, found.unsigned_abs())
}
