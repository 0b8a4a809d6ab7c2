//! Calls with something wrong in them, on small planes: every number, the lowest of several.

use crate::held::{captured, restored};
use oracle::calls::{CaptureCall, StripeCall};
use oracle::cases::{frame_around, plane_case, unrestored_case, PlaneCase};
use oracle::damage::{damage_capture, damage_stripe};
use oracle::in_place;
use oracle::report::{Options, Report};
use oracle::rng::Rng;

fn small_case(rng: &mut Rng) -> PlaneCase {
    let (width, height) = (1 + rng.below(12), 1 + rng.below(140));
    let frame = frame_around(rng, width, height);
    if rng.one_in(8) {
        unrestored_case(rng, frame)
    } else {
        plane_case(rng, frame)
    }
}

pub fn damaged_captures(options: &Options, report: &mut Report) {
    for index in options.cases(2_000, 20_000) {
        let mut rng = Rng::for_case("compare damaged captures", index);
        let case = small_case(&mut rng);
        let mut call = CaptureCall::new(&mut rng, &case);
        damage_capture(&mut rng, &mut call);
        captured(report, call, &format!("damaged capture {index}"));
        report.count("damaged captures", 1);
    }
}

pub fn damaged_stripes(options: &Options, report: &mut Report) {
    for index in options.cases(4_000, 50_000) {
        let mut rng = Rng::for_case("compare damaged stripes", index);
        let case = small_case(&mut rng);
        let edges = in_place::capture_edges(&case.frame, &case.deblocked);
        let mut call = StripeCall::new(&mut rng, &case, edges);
        call.stripe = rng.below(call.marks.len() as u32);
        damage_stripe(&mut rng, &mut call);
        restored(report, call, &format!("damaged stripe {index}"));
        report.count("damaged stripe calls", 1);
    }
}
