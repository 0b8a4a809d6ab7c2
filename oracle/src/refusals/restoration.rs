//! Whole plane, capture and one stripe, with the lengths that they ask for.

use super::conditions::{
    bad_depth, bad_entry, bad_plane, bad_samples, bad_sides, bad_unit_size, extent, units_along,
};
use super::lowest;
use crate::calls::{CaptureCall, PlaneCall, StripeCall};
use crate::frame::Frame;
use std::ops::Range;

impl PlaneCall {
    pub fn number(&self) -> u32 {
        let frame = &self.frame;
        let typed = frame.frame_type > 0;
        let lengths = [self.deblocked.len(), self.cdef.len(), self.out.len()];
        lowest(&[
            (1, &|| bad_depth(frame.depth)),
            (2, &|| bad_plane(frame.plane, frame.sub_x, frame.sub_y)),
            (3, &|| frame.frame_type > 3),
            (4, &|| bad_sides(frame)),
            (5, &|| typed && bad_unit_size(frame)),
            (7, &|| lengths.iter().any(|&length| length != samples(frame))),
            (10, &|| typed && self.units.len() != 10 * units(frame)),
            (11, &|| typed && self.units.chunks(10).any(bad_entry)),
            (15, &|| bad_samples(frame.depth, &self.deblocked)),
            (15, &|| bad_samples(frame.depth, &self.cdef)),
            (16, &|| typed && self.scratch.len() < scratch_need(frame)),
        ])
    }
}

impl CaptureCall {
    pub fn number(&self) -> u32 {
        let frame = &self.frame;
        lowest(&[
            (1, &|| bad_depth(frame.depth)),
            (2, &|| bad_plane(frame.plane, frame.sub_x, frame.sub_y)),
            (4, &|| bad_sides(frame)),
            (7, &|| self.deblocked.len() != samples(frame)),
            (9, &|| self.edges.len() != edge_rows(frame) * width(frame)),
            (15, &|| bad_samples(frame.depth, &self.deblocked)),
        ])
    }
}

impl StripeCall {
    pub fn number(&self) -> u32 {
        let frame = &self.frame;
        let typed = frame.frame_type > 0;
        lowest(&[
            (1, &|| bad_depth(frame.depth)),
            (2, &|| bad_plane(frame.plane, frame.sub_x, frame.sub_y)),
            (3, &|| frame.frame_type > 3),
            (4, &|| bad_sides(frame)),
            (5, &|| typed && bad_unit_size(frame)),
            (7, &|| self.plane.len() != samples(frame)),
            (9, &|| self.edges.len() != edge_rows(frame) * width(frame)),
            (10, &|| typed && self.units.len() != 10 * units(frame)),
            (11, &|| typed && self.units.chunks(10).any(bad_entry)),
            (12, &|| self.marks.len() != stripes(frame) || self.marks.iter().any(|&mark| mark > 1)),
            (13, &|| self.stripe as usize >= stripes(frame)),
            (14, &|| self.marks[self.stripe as usize] == 1),
            (15, &|| self.read().any(|part| bad_samples(frame.depth, part))),
            (16, &|| typed && self.scratch.len() < scratch_need(frame)),
            (16, &|| typed && self.copy.len() < copy_need(frame)),
        ])
    }

    /// What a stripe call reads: its own rows, its `above` and its `below` part.
    fn read(&self) -> impl Iterator<Item = &[i32]> {
        let (frame, s, w) = (&self.frame, self.stripe as usize, width(&self.frame));
        let own = own_rows(frame, s);
        let above = if s > 0 { (s - 1) * 4 * w..(s - 1) * 4 * w + 2 * w } else { 0..0 };
        let below = if s + 1 < stripes(frame) { s * 4 * w + 2 * w..(s + 1) * 4 * w } else { 0..0 };
        let own = &self.plane[own.start * w..own.end * w];
        [own, &self.edges[above], &self.edges[below]].into_iter()
    }
}

pub fn width(frame: &Frame) -> usize {
    extent(frame.plane, frame.sub_x, frame.upscaled_width)
}

fn height(frame: &Frame) -> usize {
    extent(frame.plane, frame.sub_y, frame.frame_height)
}

fn samples(frame: &Frame) -> usize {
    width(frame) * height(frame)
}

fn units(frame: &Frame) -> usize {
    units_along(height(frame), frame.unit_size) * units_along(width(frame), frame.unit_size)
}

/// The first row of a stripe, which for stripe 0 lies above the plane.
fn first_row(frame: &Frame, stripe: usize) -> i64 {
    let luma = 64 * stripe as i64 - 8;
    if frame.plane > 0 && frame.sub_y == 1 {
        luma >> 1
    } else {
        luma
    }
}

/// Stripes that start in the plane.
pub fn stripes(frame: &Frame) -> usize {
    let last = height(frame) as i64 - 1;
    (0..).take_while(|&stripe| first_row(frame, stripe) <= last).count()
}

/// The rows of a stripe, cut to the plane.
pub fn own_rows(frame: &Frame, stripe: usize) -> Range<usize> {
    let first = first_row(frame, stripe).max(0) as usize;
    first..(first_row(frame, stripe + 1) as usize).min(height(frame))
}

/// Rows of the edge-row slice: four a boundary.
pub fn edge_rows(frame: &Frame) -> usize {
    4 * (stripes(frame) - 1)
}

fn stripe_height(frame: &Frame) -> usize {
    let full = if frame.plane > 0 && frame.sub_y == 1 { 32 } else { 64 };
    height(frame).min(full)
}

pub fn scratch_need(frame: &Frame) -> usize {
    6 * (width(frame).min(383) + 8) * (stripe_height(frame) + 8)
}

pub fn copy_need(frame: &Frame) -> usize {
    width(frame) * stripe_height(frame)
}
