//! One-sample cases.

use crate::frame::{largest_sample, DEPTHS};
use crate::one_sample::{Window, SIDE};
use crate::patterns::{self, Pattern};
use crate::rng::Rng;
use crate::units::{self, Unit, NONE, SELF_GUIDED, WIENER};

pub struct SampleCase {
    pub depth: u32,
    pub row: u32,
    pub unit: Unit,
    pub window: Window,
}

/// Case `index` of a list that goes through depths, odd and even rows, types and sets in turn.
pub fn sample_case(rng: &mut Rng, index: usize) -> SampleCase {
    let depth = DEPTHS[index % 3];
    let row = 2 * rng.below(8192) + (index as u32 / 3) % 2;
    let kind = match (index / 6) % 16 {
        0 => NONE,
        1..=5 => WIENER,
        _ => SELF_GUIDED,
    };
    let mut unit = units::unit(rng, kind);
    if kind == SELF_GUIDED {
        unit[7] = ((index / 96) % 16) as i32;
    }
    let pattern =
        if kind == SELF_GUIDED && rng.one_in(2) { Pattern::Noise } else { patterns::any(rng) };
    let samples = patterns::fill(rng, pattern, SIDE, SIDE, largest_sample(depth));
    let window = samples.try_into().expect("a window is 49 samples");
    SampleCase { depth, row, unit, window }
}
