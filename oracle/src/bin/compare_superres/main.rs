//! Upscale calls of the library against the reference, document 01's table and real decoders.

use oracle::calls::UpscaleCall;
use oracle::cases::{copy_case, frame_widths_case, padded_case, upscale_case, UpscaleCase};
use oracle::damage::damage_scaling;
use oracle::frame::LARGEST_SIDE;
use oracle::host::upscale_plane;
use oracle::refusals::OF_UPSCALE;
use oracle::report::{compare, Options, Report};
use oracle::rng::Rng;
use oracle::upscale::{upscale, Scaling};
use oracle::vectors;
use std::process::ExitCode;

/// Every pair of plane widths up to here is upscaled.
const WIDEST: u32 = 200;
const PADDINGS: [u32; 4] = [0, 1, 7, 12];

fn main() -> ExitCode {
    compare("compare_superres", |options, report| {
        all_pairs(options, report);
        all_frame_widths(options, report);
        wide_planes(options, report);
        random_planes(options, report);
        copies(options, report);
        damaged_calls(options, report);
        decoders_planes(report);
        report.saw_all("upscale", OF_UPSCALE);
    })
}

/// Holds the number and both slices to what document 01 and the reference say.
fn held(report: &mut Report, call: UpscaleCall, expected: Option<Vec<i32>>, place: &str) {
    let number = call.number();
    let mut found = call.clone();
    let answer = upscale_plane(&mut found);
    let mut kept = call;
    if number == 0 {
        kept.output = expected.unwrap_or_else(|| upscaled(report, &kept));
    }
    let scaling = kept.scaling;
    report.same(&answer, &number, || format!("{place}: {scaling:?}: {answer}, not {number}"));
    report.same(&found, &kept, || format!("{place}: {scaling:?}: slices after {number}"));
    report.saw("upscale", number);
}

/// A copy is the input; else the reference has to accept what document 01 accepts.
fn upscaled(report: &mut Report, call: &UpscaleCall) -> Vec<i32> {
    if call.scaling.is_copy() {
        return call.input.clone();
    }
    upscale(&call.scaling, &call.input).unwrap_or_else(|error| {
        report.differs(&format!("the reference says {error:?} of {:?}", call.scaling));
        Vec::new()
    })
}

fn case_held(report: &mut Report, rng: &mut Rng, case: UpscaleCase, place: &str) {
    let call = UpscaleCall::new(rng, case.scaling, case.input);
    held(report, call, None, place);
}

/// Every two plane widths that grow, with and without subsampling, with columns past the plane.
fn all_pairs(options: &Options, report: &mut Report) {
    let pairs = (2..=WIDEST).flat_map(|u| (1..u).map(move |d| (d, u)));
    for (index, (d, u)) in pairs.enumerate().filter(|(index, _)| options.takes(*index, 29)) {
        let mut rng = Rng::for_case("compare pairs", index);
        for sub_x in 0..2 {
            for padding in PADDINGS {
                let case = padded_case(&mut rng, sub_x, (d, u), padding);
                case_held(report, &mut rng, case, &format!("widths {d} to {u}"));
                report.count("plane widths", 1);
            }
        }
    }
}

/// Every two frame widths: refused where they or the plane do not grow, copied where equal.
fn all_frame_widths(options: &Options, report: &mut Report) {
    let pairs = (1..=WIDEST).flat_map(|u| (1..=WIDEST).map(move |d| (d, u)));
    for (index, (d, u)) in pairs.enumerate().filter(|(index, _)| options.takes(*index, 29)) {
        let mut rng = Rng::for_case("compare frame widths", index);
        for sub_x in 0..2 {
            let case = frame_widths_case(&mut rng, sub_x, (d, u));
            case_held(report, &mut rng, case, &format!("frame widths {d} to {u}"));
            report.count("frame widths", 1);
        }
    }
}

/// Wide planes, to the end of the domain.
fn wide_planes(options: &Options, report: &mut Report) {
    let most = LARGEST_SIDE;
    let noted =
        [(most - 1, most), (1, most), (most / 2, most), (most / 2 + 1, most), (8_191, 8_192)];
    for index in options.cases(30, 3_000) {
        let mut rng = Rng::for_case("compare wide planes", index);
        let u = WIDEST + 1 + rng.below(most - WIDEST);
        let any = (1 + rng.below(u - 1), u);
        let (d, u) = noted.get(index).copied().unwrap_or(any);
        let sub_x = u32::from(u <= most / 2 && rng.one_in(2));
        let padding = rng.pick(&PADDINGS).min(most + 8 - d);
        let case = padded_case(&mut rng, sub_x, (d, u), padding);
        case_held(report, &mut rng, case, &format!("wide {index}: {d} to {u}"));
        report.count("wide planes", 1);
    }
}

/// Planes of several rows, with rows past the plane.
fn random_planes(options: &Options, report: &mut Report) {
    for index in options.cases(100, 5_000) {
        let mut rng = Rng::for_case("compare upscaled planes", index);
        let u = 2 + rng.below(150);
        let (d, height) = (1 + rng.below(u - 1), 1 + rng.below(40));
        let case = upscale_case(&mut rng, d, u, height);
        case_held(report, &mut rng, case, &format!("plane {index}"));
        report.count("planes", 1);
    }
}

/// Only the two shapes have to agree: also with no rows or no columns.
fn copies(options: &Options, report: &mut Report) {
    for index in options.cases(200, 5_000) {
        let mut rng = Rng::for_case("compare copies", index);
        let (rows, cols) = (rng.below(40), rng.below(60));
        let case = copy_case(&mut rng, rows, cols);
        case_held(report, &mut rng, case, &format!("copy {index}"));
        report.count("copies", 1);
    }
}

fn damaged_calls(options: &Options, report: &mut Report) {
    for index in options.cases(5_000, 100_000) {
        let mut rng = Rng::for_case("compare damaged scalings", index);
        let u = 2 + rng.below(40);
        let (d, height) = (1 + rng.below(u - 1), 1 + rng.below(6));
        let case = if rng.one_in(4) {
            copy_case(&mut rng, height, u)
        } else {
            upscale_case(&mut rng, d, u, height)
        };
        let mut call = UpscaleCall::new(&mut rng, case.scaling, case.input);
        damage_scaling(&mut rng, &mut call);
        held(report, call, None, &format!("damaged {index}"));
        report.count("damaged calls", 1);
    }
}

fn decoders_planes(report: &mut Report) {
    let mut rng = Rng::for_case("compare decoders' upscaled planes", 0);
    vectors::upscalings(report, |report, name, picture| {
        let scaling: Scaling = picture.scaling;
        let call = UpscaleCall::new(&mut rng, scaling, picture.input);
        held(report, call, Some(picture.expected), name);
        report.count("decoders' planes", 1);
    });
}
