//! Wrong numbers, and slices of another length.

use crate::rng::Rng;

pub fn depth(rng: &mut Rng) -> u32 {
    let other = rng.draw() as u32;
    rng.pick(&[0, 1, 7, 9, 11, 13, 14, 16, 32, 64, 255, 256 + 8, 65_536 + 10, u32::MAX, other])
}

pub fn side(rng: &mut Rng) -> u32 {
    let other = rng.draw() as u32;
    rng.pick(&[0, 0, 16_385, 16_386, 32_768, 65_535, 65_536, 1 << 31, u32::MAX, other])
}

/// A number at or past the end of a small range.
pub fn small(rng: &mut Rng) -> u32 {
    let other = rng.draw() as u32;
    rng.pick(&[0, 1, 2, 3, 4, 5, 255, 256, 257, 65_536, u32::MAX - 1, u32::MAX, other])
}

pub fn unit_size(rng: &mut Rng) -> u32 {
    let other = rng.draw() as u32;
    rng.pick(&[
        0,
        1,
        16,
        31,
        32,
        33,
        63,
        65,
        96,
        127,
        129,
        192,
        255,
        257,
        512,
        1 << 16,
        u32::MAX,
        other,
    ])
}

/// A sample out of range: just past an end, far out, or with only high bits set.
pub fn sample(rng: &mut Rng, depth: u32) -> i32 {
    let past = 1_i32.checked_shl(depth).unwrap_or(0);
    rng.pick(&[-1, -1, past, past, past + 1, 65_535, 65_536, 1 << 24, i32::MAX, i32::MIN, -256])
}

/// Another length: one off, a step off, none, double.
pub fn resize<T: Copy>(rng: &mut Rng, slice: &mut Vec<T>, step: usize, fill: T) {
    let length = slice.len();
    let other = match rng.below(6) {
        0 => length + 1,
        1 => length.saturating_sub(1),
        2 => length + step,
        3 => length.saturating_sub(step),
        4 => 0,
        _ => 2 * length,
    };
    slice.resize(other, fill);
}

/// Shorter, so that it no longer suffices; now and then longer, which is no damage.
pub fn shorten<T: Copy>(rng: &mut Rng, slice: &mut Vec<T>, fill: T) {
    let length = slice.len();
    let other = match rng.below(5) {
        0 => 0,
        1 => length / 2,
        2 => length + 1,
        _ => length.saturating_sub(1),
    };
    slice.resize(other, fill);
}

/// One number of a slice, if it has one, replaced.
pub fn replace<T>(rng: &mut Rng, slice: &mut [T], other: T) {
    if !slice.is_empty() {
        let anywhere = rng.below(slice.len() as u32) as usize;
        let place = rng.pick(&[0, slice.len() - 1, anywhere, anywhere]);
        slice[place] = other;
    }
}
