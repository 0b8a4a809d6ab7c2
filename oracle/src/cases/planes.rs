//! Whole planes with their unit tables, and orders of stripes.

use crate::frame::Frame;
use crate::patterns;
use crate::rng::Rng;
use crate::units::{self, OuterTaps};

pub struct PlaneCase {
    pub frame: Frame,
    pub units: Vec<i32>,
    pub deblocked: Vec<i32>,
    pub cdef: Vec<i32>,
}

/// Units and both planes for a frame. On planes 1 and 2 half of the tables keep the first Wiener
/// coefficients at 0, as the standard codes them there.
pub fn plane_case(rng: &mut Rng, frame: Frame) -> PlaneCase {
    let zero = frame.plane > 0 && rng.one_in(2);
    let outer = if zero { OuterTaps::Zero } else { OuterTaps::Any };
    let units = units::table(rng, frame.units(), outer);
    let (deblocked, cdef) = both_planes(rng, &frame);
    PlaneCase { frame, units, deblocked, cdef }
}

/// Frame type 0, with which unit size and units are not looked at.
pub fn unrestored_case(rng: &mut Rng, mut frame: Frame) -> PlaneCase {
    frame.frame_type = 0;
    frame.unit_size = rng.pick(&[0, 1, 63, 64, 65_535]);
    let length = rng.pick(&[0, 9, 10, 30]);
    let units = (0..length).map(|_| rng.between(-32_768, 32_767)).collect();
    let (deblocked, cdef) = both_planes(rng, &frame);
    PlaneCase { frame, units, deblocked, cdef }
}

fn both_planes(rng: &mut Rng, frame: &Frame) -> (Vec<i32>, Vec<i32>) {
    let (width, height, largest) = (frame.width(), frame.height(), frame.largest());
    let pattern = patterns::any(rng);
    let deblocked = patterns::fill(rng, pattern, width, height, largest);
    let cdef = patterns::related(rng, &deblocked, width, largest);
    (deblocked, cdef)
}

/// Stripe numbers in any order, now and then only some of them.
pub fn stripe_order(rng: &mut Rng, stripes: usize) -> Vec<usize> {
    let mut order: Vec<usize> = (0..stripes).collect();
    rng.shuffle(&mut order);
    if rng.one_in(4) {
        order.truncate(rng.below(stripes as u32 + 1) as usize);
    }
    order
}
