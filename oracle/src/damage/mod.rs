//! Damaged calls: legal arguments of which some are made wrong, or only unusual.
//!
//! What number such a call has is not known here: `refusals` says it.

mod frames;
mod numbers;
mod restoration;
mod samples;
mod scalings;

pub use frames::damage_frame;
pub use restoration::{damage_capture, damage_plane, damage_stripe};
pub use samples::damage_sample;
pub use scalings::damage_scaling;

use crate::rng::Rng;

/// One thing made wrong, or two or three: the lowest number has to be found among several.
fn several(rng: &mut Rng) -> u32 {
    rng.pick(&[1, 1, 1, 2, 2, 3])
}
