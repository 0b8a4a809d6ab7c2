//! Whole-plane calls of the library against the reference, document 01's table and real decoders.

use oracle::calls::PlaneCall;
use oracle::cases::{frame_around, frame_at_edges, plane_case, unrestored_case};
use oracle::damage::damage_plane;
use oracle::frame::LARGEST_SIDE;
use oracle::host::{restore_plane, Restored};
use oracle::refusals::OF_PLANE;
use oracle::report::{compare, Options, Report};
use oracle::rng::Rng;
use oracle::vectors;
use oracle::whole_plane::{self, changed};
use std::process::ExitCode;

fn main() -> ExitCode {
    compare("compare_planes", |options, report| {
        planes_of_note(options, report);
        random_planes(options, report);
        damaged_calls(options, report);
        decoders_planes(report);
        report.saw_all("whole plane", OF_PLANE);
    })
}

/// Holds the answer and every lent slice to what document 01 and the reference say.
fn held(report: &mut Report, call: PlaneCall, expected: Option<Vec<i32>>, place: &str) {
    let number = call.number();
    let mut found = call.clone();
    let answer = restore_plane(&mut found);
    let mut kept = call;
    let mut count = 0;
    if number == 0 {
        kept.out = expected.unwrap_or_else(|| restored(&kept));
        kept.scratch.clone_from(&found.scratch);
        count = changed(&kept.cdef, &kept.out) as u32;
    }
    let right = Restored { number, changed: count };
    report
        .same(&answer, &right, || format!("{place}: {:?}: {answer:?}, not {right:?}", kept.frame));
    report.same(&found, &kept, || format!("{place}: {:?}: slices after {right:?}", kept.frame));
    report.saw("whole plane", number);
}

/// The reference's plane; with frame type 0, CDEF.
fn restored(call: &PlaneCall) -> Vec<i32> {
    if call.frame.frame_type == 0 {
        return call.cdef.clone();
    }
    whole_plane::restore(&call.frame, &call.units, &call.deblocked, &call.cdef)
}

/// The smallest plane and the longest rows and columns.
fn planes_of_note(options: &Options, report: &mut Report) {
    let sides = [(1, 1), (LARGEST_SIDE, 1), (1, LARGEST_SIDE), (LARGEST_SIDE / 2, 2), (383, 57)];
    for index in options.cases(5, 100) {
        let mut rng = Rng::for_case("compare planes of note", index);
        let (width, height) = sides[index % sides.len()];
        let mut frame =
            frame_around(&mut rng, width.min(LARGEST_SIDE / 2), height.min(LARGEST_SIDE / 2));
        if frame.plane_sub() == (0, 0) {
            (frame.upscaled_width, frame.frame_height) = (width, height);
        }
        let case = plane_case(&mut rng, frame);
        held(report, PlaneCall::new(&mut rng, &case), None, &format!("of note {index}"));
        report.count("planes of note", 1);
    }
}

fn random_planes(options: &Options, report: &mut Report) {
    for index in options.cases(300, 20_000) {
        let mut rng = Rng::for_case("compare planes", index);
        let frame = frame_at_edges(&mut rng);
        let case = if rng.one_in(12) {
            unrestored_case(&mut rng, frame)
        } else {
            plane_case(&mut rng, frame)
        };
        held(report, PlaneCall::new(&mut rng, &case), None, &format!("plane {index}"));
        report.count("planes", 1);
    }
}

fn damaged_calls(options: &Options, report: &mut Report) {
    for index in options.cases(3_000, 50_000) {
        let mut rng = Rng::for_case("compare damaged planes", index);
        let (width, height) = (1 + rng.below(20), 1 + rng.below(70));
        let frame = frame_around(&mut rng, width, height);
        let case = if rng.one_in(8) {
            unrestored_case(&mut rng, frame)
        } else {
            plane_case(&mut rng, frame)
        };
        let mut call = PlaneCall::new(&mut rng, &case);
        damage_plane(&mut rng, &mut call);
        held(report, call, None, &format!("damaged {index}"));
        report.count("damaged calls", 1);
    }
}

fn decoders_planes(report: &mut Report) {
    let mut rng = Rng::for_case("compare decoders' planes", 0);
    vectors::restorations(report, |report, name, picture| {
        let call = PlaneCall::new(&mut rng, &picture.case);
        held(report, call, Some(picture.restored), name);
        report.count("decoders' planes", 1);
    });
}
