//! Whole-plane restoration by the reference.

use crate::context::with_table;
use crate::frame::Frame;
use crate::loop_filter::PlaneBuffer;
use crate::loop_restoration::loop_restoration_frame;

/// The restored plane.
pub fn restore(frame: &Frame, units: &[i32], deblocked: &[i32], cdef: &[i32]) -> Vec<i32> {
    let mut restored = vec![0; cdef.len()];
    restore_into(frame, units, &mut deblocked.to_vec(), &mut cdef.to_vec(), &mut restored);
    restored
}

/// The same without copies: the reference's planes are mutable slices, its sources stay unchanged.
pub fn restore_into(
    frame: &Frame,
    units: &[i32],
    deblocked: &mut [i32],
    cdef: &mut [i32],
    restored: &mut [i32],
) {
    let shape = (frame.height() as u32, frame.width() as u32);
    let deblocked = planes_up_to(frame.plane, shape, deblocked);
    let cdef = planes_up_to(frame.plane, shape, cdef);
    let mut restored = planes_up_to(frame.plane, shape, restored);
    with_table(frame, units, |context| {
        loop_restoration_frame(context, &deblocked, &cdef, &mut restored);
    });
}

/// The planes of a frame by number, those below the wanted one without samples.
pub fn planes_up_to(plane: u32, shape: (u32, u32), samples: &mut [i32]) -> Vec<PlaneBuffer<'_>> {
    let mut planes: Vec<_> = (0..plane).map(|_| PlaneBuffer::empty()).collect();
    planes.push(PlaneBuffer { rows: shape.0, cols: shape.1, samples });
    planes
}

/// Places where the restored plane differs from the CDEF plane.
pub fn changed(cdef: &[i32], restored: &[i32]) -> usize {
    cdef.iter().zip(restored).filter(|(before, after)| before != after).count()
}
