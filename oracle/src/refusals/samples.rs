//! One sample: 1, 7, 11, 15.

use super::conditions::{bad_depth, bad_entry};
use super::lowest;
use crate::calls::SampleCall;

impl SampleCall {
    pub fn number(&self) -> u32 {
        lowest(&[
            (1, &|| bad_depth(self.depth)),
            (7, &|| self.window.len() != 98),
            (11, &|| bad_entry(&self.unit)),
            (15, &|| self.window.chunks(2).any(|pair| word(pair) >= 1 << self.depth)),
        ])
    }
}

/// Low byte first.
fn word(pair: &[u8]) -> u32 {
    u32::from(pair[0]) + 256 * u32::from(pair[1])
}
