//! Whole-plane restoration, and the capture of edge rows.

use crate::refusal::answer;
use crate::{Frame, Refusal};

#[repr(C)]
struct Restored {
    number: u32,
    changed: u32,
}

extern "C" {
    fn cironetop_restore_plane(
        f: Frame,
        units: *const i32,
        units_len: usize,
        deblocked: *const i32,
        deblocked_len: usize,
        cdef: *const i32,
        cdef_len: usize,
        out: *mut i32,
        out_len: usize,
        scratch: *mut i32,
        scratch_len: usize,
    ) -> Restored;
    fn cironetop_capture_edges(
        f: Frame,
        deblocked: *const i32,
        deblocked_len: usize,
        edges: *mut i32,
        edges_len: usize,
    ) -> u32;
}

/// Restores a whole plane into `out` and gives the number of samples that differ from CDEF.
///
/// `units` is the plane's table ([`Unit::table`](crate::Unit::table)); `scratch` is at least
/// [`Lengths::scratch`](crate::Lengths::scratch) long, and what it holds afterwards has no meaning.
///
/// # Errors
///
/// [`Refusal`] 1 to 5, 7, 10, 11, 15, 16; with frame type 0, which copies CDEF, not 5, 10, 11, 16.
///
/// Slices that overlap do not get past the compiler:
///
/// ```compile_fail,E0502
/// let (frame, deblocked, mut cdef) = (cironetop::Frame::default(), [0; 7], [0; 7]);
/// let _ = cironetop::restore_plane(frame, &[], &deblocked, &cdef, &mut cdef, &mut []);
/// ```
pub fn restore_plane(
    frame: Frame,
    units: &[i32],
    deblocked: &[i32],
    cdef: &[i32],
    out: &mut [i32],
    scratch: &mut [i32],
) -> Result<u32, Refusal> {
    // SAFETY: each pointer is its slice's, of that length; the borrows keep mutable slices apart.
    let Restored { number, changed } = unsafe {
        cironetop_restore_plane(
            frame,
            units.as_ptr(),
            units.len(),
            deblocked.as_ptr(),
            deblocked.len(),
            cdef.as_ptr(),
            cdef.len(),
            out.as_mut_ptr(),
            out.len(),
            scratch.as_mut_ptr(),
            scratch.len(),
        )
    };
    answer(number, changed)
}

/// Writes the deblocked rows around each boundary between stripes to `edges`, which stripes in place
/// need. Unit size and frame type are not looked at.
///
/// # Errors
///
/// [`Refusal`] 1, 2, 4, 7, 9, 15.
///
/// ```
/// use cironetop::{capture_edges, Frame};
/// let frame = Frame { depth: 8, frame_height: 57, upscaled_width: 1, ..Frame::default() };
/// let deblocked: Vec<i32> = (0..57).collect();
/// let mut edges = vec![0; frame.lengths()?.edges];
/// capture_edges(frame, &deblocked, &mut edges)?;
/// assert_eq!(edges, [54, 55, 56, 56]);
/// # Ok::<(), cironetop::Refusal>(())
/// ```
pub fn capture_edges(frame: Frame, deblocked: &[i32], edges: &mut [i32]) -> Result<(), Refusal> {
    let (from, length) = (deblocked.as_ptr(), deblocked.len());
    // SAFETY: each pointer is its slice's, of that length; the borrows keep the mutable one apart.
    let number =
        unsafe { cironetop_capture_edges(frame, from, length, edges.as_mut_ptr(), edges.len()) };
    answer(number, ())
}
