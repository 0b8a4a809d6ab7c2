//! One-sample calls made wrong.

use super::restoration::wrong_entry;
use super::{numbers, several};
use crate::calls::SampleCall;
use crate::rng::Rng;

pub fn damage_sample(rng: &mut Rng, call: &mut SampleCall) {
    for _ in 0..several(rng) {
        match rng.below(5) {
            0 => call.depth = numbers::depth(rng),
            1 => numbers::resize(rng, &mut call.window, 2, 0),
            2 | 3 => {
                let (number, other) = wrong_entry(rng);
                call.unit[number] = other;
            }
            _ => too_large(rng, call),
        }
    }
}

/// A sample with a bit past the depth: the lowest such bit, any one, or all.
fn too_large(rng: &mut Rng, call: &mut SampleCall) {
    let pairs = (call.window.len() / 2) as u32;
    if pairs > 0 {
        let place = 2 * rng.below(pairs) as usize + 1;
        let bit = rng.between(0, 7);
        let high = rng.pick(&[1 << bit, 1, 4, 16, 255]);
        call.window[place] = high;
    }
}
