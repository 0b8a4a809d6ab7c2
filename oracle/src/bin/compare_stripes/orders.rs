//! Stripes in any order, refused calls among them: each restored one is the whole-plane call's.

use crate::held::{captured, restored};
use oracle::calls::{CaptureCall, PlaneCall, StripeCall};
use oracle::cases::{frame_at_edges, plane_case, stripe_order, unrestored_case, PlaneCase};
use oracle::damage::damage_stripe;
use oracle::host::restore_plane;
use oracle::refusals::{own_rows, stripes};
use oracle::report::{Options, Report};
use oracle::rng::Rng;
use oracle::vectors;

pub fn in_any_order(options: &Options, report: &mut Report) {
    for index in options.cases(300, 20_000) {
        let mut rng = Rng::for_case("compare stripes", index);
        let frame = frame_at_edges(&mut rng);
        let case = if rng.one_in(12) {
            unrestored_case(&mut rng, frame)
        } else {
            plane_case(&mut rng, frame)
        };
        plane(&mut rng, report, &case, &format!("plane {index}"));
        report.count("planes", 1);
    }
}

pub fn decoders_planes(options: &Options, report: &mut Report) {
    let mut index = 0;
    vectors::restorations(report, |report, name, picture| {
        index += 1;
        if options.takes(index, 9) {
            let mut rng = Rng::for_case("compare decoders' stripes", index);
            plane(&mut rng, report, &picture.case, name);
            report.count("decoders' planes", 1);
        }
    });
}

fn plane(rng: &mut Rng, report: &mut Report, case: &PlaneCase, place: &str) {
    let capture = CaptureCall::new(rng, case);
    let edges = captured(report, capture, place);
    let mut call = StripeCall::new(rng, case, edges);
    let order = stripe_order(rng, stripes(&case.frame));
    for &stripe in &order {
        call.stripe = stripe as u32;
        if rng.one_in(4) {
            refused(rng, report, &call, place);
        }
        call = restored(report, call, place);
        report.count("stripes", 1);
    }
    as_the_whole_plane(rng, report, case, &call, &order, place);
}

/// A call of the same state with something wrong in it changes nothing; one that is not wrong in
/// what it looks at is not made.
pub fn refused(rng: &mut Rng, report: &mut Report, call: &StripeCall, place: &str) {
    let mut wrong = call.clone();
    damage_stripe(rng, &mut wrong);
    if wrong.number() != 0 {
        restored(report, wrong, place);
        report.count("refused calls between", 1);
    }
}

fn as_the_whole_plane(
    rng: &mut Rng,
    report: &mut Report,
    case: &PlaneCase,
    call: &StripeCall,
    order: &[usize],
    place: &str,
) {
    let mut whole = PlaneCall::new(rng, case);
    let number = restore_plane(&mut whole).number;
    report.same(&number, &0, || format!("{place}: whole plane: {number}, not 0"));
    let width = case.frame.width();
    for &stripe in order {
        let rows = own_rows(&case.frame, stripe);
        let part = rows.start * width..rows.end * width;
        report.same(&&call.plane[part.clone()], &&whole.out[part], || {
            format!("{place}: {:?}: stripe {stripe} and the whole plane", case.frame)
        });
    }
}
