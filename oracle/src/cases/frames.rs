//! Frame numbers inside the domain.

use crate::frame::{legal_unit_sizes, plane_sub, Frame, DEPTHS, LARGEST_SIDE, SUBSAMPLINGS};
use crate::rng::Rng;

/// Frame sides at the ends of the domain.
pub const SIZES_OF_NOTE: [(u32, u32); 4] =
    [(1, 1), (1, LARGEST_SIDE), (LARGEST_SIDE, 1), (LARGEST_SIDE, LARGEST_SIDE)];

/// A frame whose plane is `width` by `height`; all else is any legal choice.
pub fn frame_around(rng: &mut Rng, width: u32, height: u32) -> Frame {
    let mut frame = frame_in_domain(rng, 1, 1);
    let (sub_x, sub_y) = frame.plane_sub();
    frame.upscaled_width = side_around(rng, width, sub_x);
    frame.frame_height = side_around(rng, height, sub_y);
    frame
}

/// A frame whose plane ends around the edge of a unit and of a stripe, of some thousand samples;
/// now and then a larger one.
pub fn frame_at_edges(rng: &mut Rng) -> Frame {
    let mut frame = frame_in_domain(rng, 1, 1);
    let (sub_x, sub_y) = frame.plane_sub();
    let most = if rng.one_in(40) { 40_000 } else { 6_000 };
    let height = (rng.pick(&ROWS_OF_NOTE) >> (sub_y * rng.below(2))).max(1);
    let width = around_units(rng, frame.unit_size).min(most / height);
    frame.upscaled_width = side_around(rng, width, sub_x);
    frame.frame_height = side_around(rng, height, sub_y);
    frame
}

/// Heights at which a stripe, or half of one, starts or ends.
const ROWS_OF_NOTE: [u32; 24] = [
    1, 2, 7, 8, 9, 27, 28, 29, 54, 55, 56, 57, 58, 63, 64, 65, 95, 96, 119, 120, 121, 122, 184, 185,
];

/// A width near a place where one more unit starts, or a small one.
fn around_units(rng: &mut Rng, size: u32) -> u32 {
    let whole = size * rng.below(4) + size / 2 * rng.below(2);
    match rng.below(3) {
        0 => 1 + rng.below(40),
        1 => (whole + rng.below(3)).saturating_sub(1).max(1),
        _ => 1 + rng.below(4 * size),
    }
}

/// A frame of the given sides; all else is any legal choice, the frame type 1 to 3.
pub fn frame_in_domain(rng: &mut Rng, upscaled_width: u32, frame_height: u32) -> Frame {
    let plane = rng.below(3);
    let sub = rng.pick(&SUBSAMPLINGS);
    Frame {
        plane,
        sub_x: sub.0,
        sub_y: sub.1,
        depth: rng.pick(&DEPTHS),
        frame_height,
        upscaled_width,
        unit_size: unit_size(rng, plane, sub),
        frame_type: 1 + rng.below(3),
    }
}

/// Small units come up more often: with them a small plane has several.
fn unit_size(rng: &mut Rng, plane: u32, sub: (u32, u32)) -> u32 {
    let sizes = legal_unit_sizes(plane, plane_sub(plane, sub));
    if rng.one_in(2) {
        sizes[0]
    } else {
        rng.pick(sizes)
    }
}

/// One of the frame sides that give this side of the plane.
fn side_around(rng: &mut Rng, extent: u32, sub: u32) -> u32 {
    if sub == 0 {
        extent
    } else {
        2 * extent - rng.below(2)
    }
}
