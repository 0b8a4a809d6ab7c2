//! The reference's in-place path, which only its own crate may call: edge rows and stripes.

use crate::context::with_table;
use crate::frame::Frame;
use crate::loop_filter::PlaneBuffer;
use crate::loop_restoration::{plane_stripes, restore_stripe_in_place, StripeBoundaryRows};

/// Stripes of the plane, whatever its frame type: one more than its boundaries.
pub fn stripe_count(frame: &Frame) -> usize {
    let last_row = frame.height() as i32 - 1;
    1 + StripeBoundaryRows::boundary_count(last_row, frame.plane_sub().1 as u8)
}

/// Four rows per boundary, boundary after boundary.
pub fn capture_edges(frame: &Frame, deblocked: &[i32]) -> Vec<i32> {
    let plane = PlaneBuffer {
        rows: frame.height() as u32,
        cols: frame.width() as u32,
        samples: &mut deblocked.to_vec(),
    };
    capture(&plane, frame.height() as i32 - 1, frame.plane_sub().1 as u8)
}

/// Capture from a plane of any shape, as the reference allows it.
pub fn capture(plane: &PlaneBuffer<'_>, last_row: i32, sub_y: u8) -> Vec<i32> {
    StripeBoundaryRows::capture(plane, last_row, sub_y).rows.concat()
}

/// Restores the stripes with the given numbers in the given order, in a plane that holds CDEF.
pub fn restore_stripes(
    frame: &Frame,
    units: &[i32],
    edges: &[i32],
    plane: &mut [i32],
    order: &[usize],
) {
    let edges = boundaries(frame.width(), edges);
    let mut buffer =
        PlaneBuffer { rows: frame.height() as u32, cols: frame.width() as u32, samples: plane };
    let mut copy = Vec::new();
    with_table(frame, units, |context| {
        let stripes = plane_stripes(context, frame.plane as u8);
        // A plane that is not restored has no stripes in the reference.
        for &number in order.iter().filter(|_| !stripes.is_empty()) {
            let stripe = &stripes[number];
            let number = frame.plane as u8;
            restore_stripe_in_place(context, number, stripe, &edges, &mut buffer, 0, &mut copy);
        }
    });
}

fn boundaries(width: usize, edges: &[i32]) -> StripeBoundaryRows {
    StripeBoundaryRows { cols: width, rows: edges.chunks(4 * width).map(<[i32]>::to_vec).collect() }
}
