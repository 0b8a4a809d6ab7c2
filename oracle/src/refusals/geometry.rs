//! Counts and rectangles: 2, 4, 5, 13.

use super::conditions::{bad_plane, bad_sides, bad_unit_size, units_along};
use super::restoration::{stripes, width};
use super::{lowest, Test};
use crate::frame::Frame;

pub fn count_number(frame: &Frame) -> u32 {
    lowest(&[
        (2, &|| bad_plane(frame.plane, frame.sub_x, frame.sub_y)),
        (4, &|| bad_sides(frame)),
        (5, &|| bad_unit_size(frame)),
    ])
}

pub fn rectangle_number(frame: &Frame, index: u32) -> u32 {
    let over: Test<'_> = (13, &|| index as usize >= rectangles(frame));
    match count_number(frame) {
        0 => lowest(&[over]),
        number => number,
    }
}

fn rectangles(frame: &Frame) -> usize {
    stripes(frame) * units_along(width(frame), frame.unit_size)
}
