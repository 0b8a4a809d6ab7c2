//! One restored sample from its 7 by 7 source window, by the reference.
//!
//! The window becomes a plane of its own inside one stripe, so that the fetch gives exactly it.

use crate::context::with_units;
use crate::frame::Frame;
use crate::loop_filter::PlaneBuffer;
use crate::loop_restoration::{box_filter, loop_restore_rect, LrBlockGeometry, SGR_PARAMS};
use crate::units::Unit;

/// Rows and columns of a window; the sample itself stands at (3, 3).
pub const SIDE: usize = 7;
pub const MIDDLE: usize = 3;

pub type Window = [i32; SIDE * SIDE];

/// The restored sample; of `row` only its being odd or even counts.
pub fn restore(depth: u32, row: u32, unit: Unit, window: &Window) -> i32 {
    let (mut source, mut restored) = (*window, *window);
    with_units(&frame(depth), &|_, _| unit, |context| {
        let cdef = [buffer(&mut source)];
        let mut out = [buffer(&mut restored)];
        loop_restore_rect(context, &cdef, &cdef, &mut out, 0, &place(row));
    });
    restored[MIDDLE * SIDE + MIDDLE]
}

/// The outputs of both passes of the self-guided filter; 0 for a pass whose radius is 0.
pub fn pass_outputs(depth: u32, row: u32, set: usize, window: &Window) -> (i32, i32) {
    let mut source = *window;
    let planes = [buffer(&mut source)];
    let [r0, eps0, r1, eps1] = SGR_PARAMS[set];
    let (place, depth) = (place(row), depth as u8);
    let last = |rows: Vec<i32>| rows[rows.len() - 1];
    let first_pass = last(box_filter(&planes, &planes, 0, &place, depth, r0, eps0, 0));
    let second_pass = last(box_filter(&planes, &planes, 0, &place, depth, r1, eps1, 1));
    (first_pass, second_pass)
}

/// The reference counts odd and even from the rectangle's first row, so that an odd row is the
/// second row of a rectangle of two.
fn place(row: u32) -> LrBlockGeometry {
    let odd = row % 2;
    LrBlockGeometry {
        unit_row: 0,
        unit_col: 0,
        x: MIDDLE as u32,
        y: MIDDLE as u32 - odd,
        w: 1,
        h: 1 + odd,
        stripe_start_y: -64,
        stripe_end_y: 64,
        plane_end_x: SIDE as i32 - 1,
        plane_end_y: SIDE as i32 - 1,
    }
}

fn frame(depth: u32) -> Frame {
    Frame {
        plane: 0,
        sub_x: 0,
        sub_y: 0,
        depth,
        frame_height: SIDE as u32,
        upscaled_width: SIDE as u32,
        unit_size: 64,
        frame_type: 3,
    }
}

fn buffer(samples: &mut [i32]) -> PlaneBuffer<'_> {
    PlaneBuffer { rows: SIDE as u32, cols: SIDE as u32, samples }
}
