//! Calls of restoration made wrong: whole plane, capture, one stripe.

use super::frames::damage_frame;
use super::{numbers, several};
use crate::calls::{CaptureCall, PlaneCall, StripeCall};
use crate::rng::Rng;
use crate::units::{ENTRY, RANGES};

pub fn damage_plane(rng: &mut Rng, call: &mut PlaneCall) {
    let width = call.frame.width();
    for _ in 0..several(rng) {
        let bad = numbers::sample(rng, call.frame.depth);
        match rng.below(12) {
            0..=4 => damage_frame(rng, &mut call.frame),
            5 => numbers::resize(rng, &mut call.deblocked, width, 0),
            6 => numbers::resize(rng, &mut call.cdef, width, 0),
            7 => numbers::resize(rng, &mut call.out, width, 0),
            8 => damage_units(rng, &mut call.units),
            9 => numbers::replace(rng, &mut call.deblocked, bad),
            10 => numbers::replace(rng, &mut call.cdef, bad),
            _ => numbers::shorten(rng, &mut call.scratch, 7),
        }
    }
}

pub fn damage_capture(rng: &mut Rng, call: &mut CaptureCall) {
    let width = call.frame.width();
    for _ in 0..several(rng) {
        let bad = numbers::sample(rng, call.frame.depth);
        match rng.below(7) {
            0..=3 => damage_frame(rng, &mut call.frame),
            4 => numbers::resize(rng, &mut call.deblocked, width, 0),
            5 => numbers::resize(rng, &mut call.edges, 4 * width, 0),
            _ => numbers::replace(rng, &mut call.deblocked, bad),
        }
    }
}

pub fn damage_stripe(rng: &mut Rng, call: &mut StripeCall) {
    let width = call.frame.width();
    for _ in 0..several(rng) {
        let bad = numbers::sample(rng, call.frame.depth);
        match rng.below(16) {
            0..=4 => damage_frame(rng, &mut call.frame),
            5 => numbers::resize(rng, &mut call.plane, width, 0),
            6 => numbers::resize(rng, &mut call.edges, 4 * width, 0),
            7 => damage_units(rng, &mut call.units),
            8 => numbers::resize(rng, &mut call.marks, 2, 0),
            9 => damage_marks(rng, call),
            10 => call.stripe = beyond(rng, call.marks.len() as u32),
            11 => mark_own(call),
            12 => numbers::replace(rng, &mut call.plane, bad),
            13 => numbers::replace(rng, &mut call.edges, bad),
            14 => numbers::shorten(rng, &mut call.scratch, 7),
            _ => numbers::shorten(rng, &mut call.copy, 7),
        }
    }
}

/// A table of another length, or an entry with a number past its range. That number is legal
/// where the entry's type does not use it.
fn damage_units(rng: &mut Rng, units: &mut Vec<i32>) {
    if rng.one_in(3) || units.len() < ENTRY {
        return numbers::resize(rng, units, ENTRY, 0);
    }
    let first = ENTRY * rng.below((units.len() / ENTRY) as u32) as usize;
    let (number, other) = wrong_entry(rng);
    units[first + number] = other;
}

/// A place in an entry, and a number that is not legal there.
pub fn wrong_entry(rng: &mut Rng) -> (usize, i32) {
    let number = rng.below(ENTRY as u32) as usize;
    let (low, high) = if number == 0 { (0, 2) } else { RANGES[number - 1] };
    let far = rng.pick(&[i32::MIN, i32::MAX, -32_768, 65_536, 1 << 30]);
    (number, rng.pick(&[low - 1, high + 1, far]))
}

fn damage_marks(rng: &mut Rng, call: &mut StripeCall) {
    let mark = rng.pick(&[2, 3, 127, 128, 255]);
    numbers::replace(rng, &mut call.marks, mark);
}

fn beyond(rng: &mut Rng, stripes: u32) -> u32 {
    rng.pick(&[stripes, stripes, stripes + 1, 257, 1 << 26, 1 << 31, u32::MAX])
}

fn mark_own(call: &mut StripeCall) {
    if let Some(mark) = call.marks.get_mut(call.stripe as usize) {
        *mark = 1;
    }
}
