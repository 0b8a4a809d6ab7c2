//! One call held to what document 01 and the reference say: number, and every lent slice.

use oracle::calls::{CaptureCall, StripeCall};
use oracle::host::{capture_edges, restore_stripe};
use oracle::in_place;
use oracle::report::Report;

/// The captured edge rows.
pub fn captured(report: &mut Report, call: CaptureCall, place: &str) -> Vec<i32> {
    let number = call.number();
    let mut found = call.clone();
    let answer = capture_edges(&mut found);
    let mut kept = call;
    if number == 0 {
        kept.edges = in_place::capture_edges(&kept.frame, &kept.deblocked);
    }
    report.same(&answer, &number, || format!("{place}: capture: {answer}, not {number}"));
    report.same(&found, &kept, || format!("{place}: {:?}: edge rows after {number}", kept.frame));
    report.saw("capture", number);
    found.edges
}

/// The call's slices afterwards.
pub fn restored(report: &mut Report, call: StripeCall, place: &str) -> StripeCall {
    let number = call.number();
    let mut found = call.clone();
    let answer = restore_stripe(&mut found);
    let mut kept = call;
    if number == 0 {
        by_the_reference(&mut kept);
        kept.scratch.clone_from(&found.scratch);
        kept.copy.clone_from(&found.copy);
    }
    let at = |what: &str| format!("{place}: {:?}, stripe {}: {what}", kept.frame, kept.stripe);
    report.same(&answer, &number, || at(&format!("{answer}, not {number}")));
    report.same(&found, &kept, || at(&format!("slices after {number}")));
    report.saw("stripe", number);
    found
}

/// The stripe's rows and its mark; with frame type 0 the mark alone.
fn by_the_reference(call: &mut StripeCall) {
    let stripe = call.stripe as usize;
    if call.frame.frame_type > 0 {
        let (units, edges) = (&call.units, &call.edges);
        in_place::restore_stripes(&call.frame, units, edges, &mut call.plane, &[stripe]);
    }
    call.marks[stripe] = 1;
}
