//! The plane upscaler.

use crate::refusal::answer;
use crate::Refusal;

/// One plane's upscaling. Any numbers may stand here: the call tests them.
#[repr(C)]
#[derive(Clone, Copy, Debug, Default, PartialEq, Eq, Hash)]
pub struct Scaling {
    pub plane: u32,
    pub sub_x: u32,
    pub sub_y: u32,
    pub depth: u32,
    /// The frame's width before and after, 1 to 16,384.
    pub frame_width: u32,
    pub upscaled_width: u32,
    pub frame_height: u32,
    /// 0 clear, else set.
    pub use_superres: u32,
    /// The shapes of both planes. The input may have more rows and columns than its plane.
    pub in_rows: u32,
    pub in_cols: u32,
    pub out_rows: u32,
    pub out_cols: u32,
}

extern "C" {
    fn cironetop_upscale_plane(
        s: Scaling,
        input: *const i32,
        input_len: usize,
        output: *mut i32,
        output_len: usize,
    ) -> u32;
}

/// Upscales a plane into `output`; copies it where the flag is clear or the frame widths are equal.
///
/// # Errors
///
/// [`Refusal`] 1, 2, 4, 6, 7, 8, 15.
///
/// ```
/// use cironetop::{upscale_plane, Scaling};
/// let scaling = Scaling {
///     depth: 8,
///     frame_width: 8,
///     upscaled_width: 16,
///     frame_height: 1,
///     use_superres: 1,
///     in_rows: 1,
///     in_cols: 8,
///     out_rows: 1,
///     out_cols: 16,
///     ..Scaling::default()
/// };
/// let mut output = [0; 16];
/// upscale_plane(scaling, &[0, 0, 0, 0, 128, 128, 128, 128], &mut output)?;
/// assert_eq!(output, [0, 0, 0, 3, 4, 0, 0, 29, 99, 141, 137, 124, 125, 129, 129, 128]);
/// # Ok::<(), cironetop::Refusal>(())
/// ```
pub fn upscale_plane(scaling: Scaling, input: &[i32], output: &mut [i32]) -> Result<(), Refusal> {
    let (from, length) = (input.as_ptr(), input.len());
    // SAFETY: each pointer is its slice's, of that length; the borrows keep the mutable one apart.
    let number = unsafe {
        cironetop_upscale_plane(scaling, from, length, output.as_mut_ptr(), output.len())
    };
    answer(number, ())
}
