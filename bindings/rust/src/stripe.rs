//! One stripe in place.

use crate::refusal::answer;
use crate::{Frame, Refusal};

extern "C" {
    fn cironetop_restore_stripe(
        f: Frame,
        stripe: u32,
        units: *const i32,
        units_len: usize,
        edges: *const i32,
        edges_len: usize,
        plane: *mut i32,
        plane_len: usize,
        marks: *mut u8,
        marks_len: usize,
        scratch: *mut i32,
        scratch_len: usize,
        copy: *mut i32,
        copy_len: usize,
    ) -> u32;
}

/// Restores one stripe of a plane that holds CDEF where no mark is set: writes the stripe's rows and
/// sets its mark to 1. Stripes may come in any order, each once.
///
/// `edges` is what [`capture_edges`](crate::capture_edges) gave; `marks` are 0 before the first call;
/// `scratch` and `copy` are at least as long as [`Lengths`](crate::Lengths) says.
///
/// # Errors
///
/// [`Refusal`] 1 to 5, 7, 9 to 16; with frame type 0, which only sets the mark, not 5, 10, 11, 16.
///
/// ```
/// use cironetop::{capture_edges, restore_stripe, Frame, Refusal, Unit};
/// let frame = Frame { depth: 8, frame_height: 57, upscaled_width: 1, unit_size: 64, frame_type: 1, ..Frame::default() };
/// let lengths = frame.lengths()?;
/// let units = Unit::table(&[Unit::Wiener { vertical: [3, -7, 15], horizontal: [3, -7, 15] }]);
/// let mut edges = vec![0; lengths.edges];
/// capture_edges(frame, &[200; 57], &mut edges)?;
///
/// let (mut plane, mut marks) = (vec![0; lengths.plane], vec![0; lengths.marks]);
/// let (mut scratch, mut copy) = (vec![0; lengths.scratch], vec![0; lengths.copy]);
/// for stripe in [1, 0] {
///     restore_stripe(frame, stripe, &units, &edges, &mut plane, &mut marks, &mut scratch, &mut copy)?;
/// }
/// assert_eq!((&plane[53..], &marks[..]), (&[5, 0, 17, 17][..], &[1, 1][..]));
/// let again = restore_stripe(frame, 0, &units, &edges, &mut plane, &mut marks, &mut scratch, &mut copy);
/// assert_eq!(again, Err(Refusal::AlreadyRestored));
/// # Ok::<(), Refusal>(())
/// ```
// The C call's arguments in its order.
#[allow(clippy::too_many_arguments)]
pub fn restore_stripe(
    frame: Frame,
    stripe: u32,
    units: &[i32],
    edges: &[i32],
    plane: &mut [i32],
    marks: &mut [u8],
    scratch: &mut [i32],
    copy: &mut [i32],
) -> Result<(), Refusal> {
    // SAFETY: each pointer is its slice's, of that length; the borrows keep mutable slices apart.
    let number = unsafe {
        cironetop_restore_stripe(
            frame,
            stripe,
            units.as_ptr(),
            units.len(),
            edges.as_ptr(),
            edges.len(),
            plane.as_mut_ptr(),
            plane.len(),
            marks.as_mut_ptr(),
            marks.len(),
            scratch.as_mut_ptr(),
            scratch.len(),
            copy.as_mut_ptr(),
            copy.len(),
        )
    };
    answer(number, ())
}
