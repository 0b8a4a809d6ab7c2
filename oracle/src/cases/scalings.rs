//! Upscaling cases that the reference accepts.

use crate::frame::{plane_sub, DEPTHS, SUBSAMPLINGS};
use crate::patterns;
use crate::rng::Rng;
use crate::upscale::Scaling;

pub struct UpscaleCase {
    pub scaling: Scaling,
    pub input: Vec<i32>,
}

/// Plane widths with a tale: value I; beyond twice; odd ones; a negative odd error; no wrap of the
/// start; the smallest.
pub fn widths_of_note() -> [(u32, u32); 8] {
    [(8, 16), (9, 29), (22, 29), (79, 89), (60, 61), (1, 2), (3, 4), (15, 16)]
}

/// Upscales a plane from width `d` to `u`, with columns and rows past the plane now and then.
pub fn upscale_case(rng: &mut Rng, d: u32, u: u32, height: u32) -> UpscaleCase {
    let mut scaling = shapeless(rng);
    let (sub_x, sub_y) = plane_sub(scaling.plane, (scaling.sub_x, scaling.sub_y));
    scaling.use_superres = 1;
    scaling.frame_width = (d << sub_x) - narrower(rng, sub_x);
    scaling.upscaled_width = (u << sub_x) - narrower(rng, sub_x);
    scaling.frame_height = (height << sub_y) - narrower(rng, sub_y);
    scaling.in_rows = height + rng.pick(&[0, 0, 0, 1, 2]);
    scaling.in_cols = d + rng.pick(&[0, 1, 7, 12]);
    scaling.out_rows = height;
    scaling.out_cols = u;
    filled(rng, scaling)
}

/// Upscales two rows from width `d` to `u` at the given subsampling across, with that many columns
/// past the plane.
pub fn padded_case(rng: &mut Rng, sub_x: u32, (d, u): (u32, u32), padding: u32) -> UpscaleCase {
    let mut scaling = shapeless(rng);
    scaling.plane = if sub_x == 1 { 1 + rng.below(2) } else { rng.below(3) };
    (scaling.sub_x, scaling.sub_y) = (sub_x, sub_x * rng.below(2));
    scaling.use_superres = 1;
    scaling.frame_width = (d << sub_x) - narrower(rng, sub_x);
    scaling.upscaled_width = (u << sub_x) - narrower(rng, sub_x);
    scaling.frame_height = 2;
    let (_, _, height) = scaling.plane_sides();
    (scaling.in_rows, scaling.in_cols) = (height, d + padding);
    (scaling.out_rows, scaling.out_cols) = (height, u);
    filled(rng, scaling)
}

/// Any two frame widths with the flag set: the plane may grow, stay or shrink.
pub fn frame_widths_case(rng: &mut Rng, sub_x: u32, widths: (u32, u32)) -> UpscaleCase {
    let mut scaling = shapeless(rng);
    scaling.plane = sub_x * (1 + rng.below(2));
    (scaling.sub_x, scaling.sub_y) = (sub_x, 0);
    scaling.use_superres = 1 + rng.below(2) * (u32::MAX - 1);
    (scaling.frame_width, scaling.upscaled_width) = widths;
    scaling.frame_height = 1;
    let (d, u, height) = scaling.plane_sides();
    (scaling.in_rows, scaling.in_cols) = (height, d);
    (scaling.out_rows, scaling.out_cols) = (height, u);
    filled(rng, scaling)
}

/// A copy: the flag is clear, or the frame widths are equal. Only the two shapes have to agree.
pub fn copy_case(rng: &mut Rng, rows: u32, cols: u32) -> UpscaleCase {
    let mut scaling = shapeless(rng);
    scaling.frame_width = 1 + rng.below(200);
    scaling.frame_height = 1 + rng.below(200);
    if rng.one_in(2) {
        scaling.use_superres = 1;
        scaling.upscaled_width = scaling.frame_width;
    } else {
        scaling.upscaled_width = 1 + rng.below(200);
    }
    (scaling.in_rows, scaling.in_cols) = (rows, cols);
    (scaling.out_rows, scaling.out_cols) = (rows, cols);
    filled(rng, scaling)
}

/// Plane, subsampling and depth; the sides are still to come.
fn shapeless(rng: &mut Rng) -> Scaling {
    let (sub_x, sub_y) = rng.pick(&SUBSAMPLINGS);
    Scaling {
        plane: rng.below(3),
        sub_x,
        sub_y,
        depth: rng.pick(&DEPTHS),
        frame_width: 0,
        upscaled_width: 0,
        frame_height: 0,
        use_superres: 0,
        in_rows: 0,
        in_cols: 0,
        out_rows: 0,
        out_cols: 0,
    }
}

/// A subsampled side of the frame may be one short of twice the plane's.
fn narrower(rng: &mut Rng, sub: u32) -> u32 {
    sub * rng.below(2)
}

fn filled(rng: &mut Rng, scaling: Scaling) -> UpscaleCase {
    let pattern = patterns::any(rng);
    let (cols, rows) = (scaling.in_cols as usize, scaling.in_rows as usize);
    let input = patterns::fill(rng, pattern, cols, rows, scaling.largest());
    UpscaleCase { scaling, input }
}
