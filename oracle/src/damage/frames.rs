//! Frame numbers made wrong.

use super::numbers;
use crate::frame::Frame;
use crate::rng::Rng;

/// One frame number made wrong, or only another.
pub fn damage_frame(rng: &mut Rng, frame: &mut Frame) {
    match rng.below(8) {
        0 => frame.depth = numbers::depth(rng),
        1 => frame.plane = numbers::small(rng),
        2 => frame.sub_x = numbers::small(rng),
        3 => frame.sub_y = numbers::small(rng),
        4 => frame.frame_type = numbers::small(rng),
        5 => frame.frame_height = numbers::side(rng),
        6 => frame.upscaled_width = numbers::side(rng),
        _ => frame.unit_size = numbers::unit_size(rng),
    }
}
