//! Upscale calls made wrong.

use super::{numbers, several};
use crate::calls::UpscaleCall;
use crate::rng::Rng;
use crate::upscale::Scaling;

pub fn damage_scaling(rng: &mut Rng, call: &mut UpscaleCall) {
    // Rows as they were: a damaged number is no length to allocate.
    let (in_cols, out_cols) = (call.scaling.in_cols as usize, call.scaling.out_cols as usize);
    for _ in 0..several(rng) {
        let bad = numbers::sample(rng, call.scaling.depth);
        match rng.below(12) {
            0..=3 => damage_numbers(rng, &mut call.scaling),
            4 | 5 => damage_widths(rng, &mut call.scaling),
            6 | 7 => damage_shape(rng, call),
            8 => numbers::resize(rng, &mut call.input, in_cols, 0),
            9 => numbers::resize(rng, &mut call.output, out_cols, 0),
            _ => numbers::replace(rng, &mut call.input, bad),
        }
    }
}

fn damage_numbers(rng: &mut Rng, s: &mut Scaling) {
    match rng.below(8) {
        0 => s.depth = numbers::depth(rng),
        1 => s.plane = numbers::small(rng),
        2 => s.sub_x = numbers::small(rng),
        3 => s.sub_y = numbers::small(rng),
        4 => s.frame_height = numbers::side(rng),
        5 => s.frame_width = numbers::side(rng),
        6 => s.upscaled_width = numbers::side(rng),
        _ => s.use_superres = numbers::small(rng),
    }
}

/// Widths that shrink, that are equal, or that are one apart: planes that need not grow.
fn damage_widths(rng: &mut Rng, s: &mut Scaling) {
    match rng.below(4) {
        0 => std::mem::swap(&mut s.frame_width, &mut s.upscaled_width),
        1 => s.frame_width = s.upscaled_width,
        2 => s.frame_width = s.upscaled_width.saturating_sub(1),
        _ => s.upscaled_width = s.frame_width.saturating_add(1),
    }
}

/// A shape that the slices fit and the frame does not, or that they do not fit either.
fn damage_shape(rng: &mut Rng, call: &mut UpscaleCall) {
    let s = &mut call.scaling;
    let side = match rng.below(4) {
        0 => &mut s.in_rows,
        1 => &mut s.in_cols,
        2 => &mut s.out_rows,
        _ => &mut s.out_cols,
    };
    *side = match rng.below(6) {
        0 | 1 => side.saturating_sub(1),
        2 | 3 => side.saturating_add(1),
        4 => numbers::side(rng),
        _ => 0,
    };
    if rng.one_in(2) {
        fit(&mut call.input, s.in_rows, s.in_cols);
        fit(&mut call.output, s.out_rows, s.out_cols);
    }
}

/// Slices stay small: a shape that asks for more keeps a slice that does not fit.
fn fit(slice: &mut Vec<i32>, rows: u32, cols: u32) {
    let length = u64::from(rows) * u64::from(cols);
    if length <= 1 << 16 {
        slice.resize(length as usize, 0);
    }
}
