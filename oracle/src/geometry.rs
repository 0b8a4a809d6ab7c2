//! Counts, rectangles and blocks by the reference.

use crate::context::without_units;
use crate::frame::Frame;
use crate::in_place::stripe_count;
use crate::loop_restoration::{derive_block_geometry, stripe_unit_rects, LrBlockGeometry};

/// Unit row, unit column, x, y, width, height, stripe start and end, last column and row.
pub type Place = [i32; 10];

#[derive(Clone, Copy, Debug, PartialEq, Eq)]
pub struct Counts {
    pub unit_rows: u32,
    pub unit_cols: u32,
    pub stripes: u32,
    pub rectangles: u32,
}

pub fn counts(frame: &Frame) -> Counts {
    Counts {
        unit_rows: frame.unit_rows(),
        unit_cols: frame.unit_cols(),
        stripes: stripe_count(frame) as u32,
        rectangles: rectangles(frame).len() as u32,
    }
}

/// All rectangles of the plane, stripe by stripe, left to right.
pub fn rectangles(frame: &Frame) -> Vec<Place> {
    let plane = frame.plane as u8;
    without_units(frame, |context| stripe_unit_rects(context, plane).iter().map(place).collect())
}

/// The place of a 4 by 4 luma block, given by its block row and column.
pub fn block(frame: &Frame, row: u32, col: u32) -> Place {
    let plane = frame.plane as u8;
    without_units(frame, |context| place(&derive_block_geometry(context, plane, row, col)))
}

fn place(found: &LrBlockGeometry) -> Place {
    [
        found.unit_row as i32,
        found.unit_col as i32,
        found.x as i32,
        found.y as i32,
        found.w as i32,
        found.h as i32,
        found.stripe_start_y,
        found.stripe_end_y,
        found.plane_end_x,
        found.plane_end_y,
    ]
}
