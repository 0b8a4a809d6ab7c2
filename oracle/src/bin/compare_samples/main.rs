//! One-sample calls of the library against the reference, document 01's table and real decoders.

mod extremes;

use oracle::calls::SampleCall;
use oracle::cases::{sample_case, SampleCase};
use oracle::damage::damage_sample;
use oracle::host::restore_sample;
use oracle::one_sample;
use oracle::refusals::OF_SAMPLE;
use oracle::report::{compare, Options, Report};
use oracle::rng::Rng;
use oracle::vectors;
use std::process::ExitCode;

fn main() -> ExitCode {
    compare("compare_samples", |options, report| {
        extreme_calls(options, report);
        random_calls(options, report);
        damaged_calls(options, report);
        decoders_samples(report);
        report.saw_all("one sample", OF_SAMPLE);
    })
}

/// The reference's sample; `place` is where the case comes from.
fn legal_call(report: &mut Report, case: &SampleCase, what: &'static str) {
    let expected = one_sample::restore(case.depth, case.row, case.unit, &case.window);
    let call = SampleCall::new(case);
    report.same(&restore_sample(&call), &expected, || format!("{what}: {call:?}, {expected}"));
    report.count(what, 1);
    report.saw("one sample", 0);
}

fn extreme_calls(options: &Options, report: &mut Report) {
    for (_, case) in extremes::all().enumerate().filter(|(index, _)| options.takes(*index, 23)) {
        legal_call(report, &case, "extreme calls");
    }
}

fn random_calls(options: &Options, report: &mut Report) {
    for index in options.cases(20_000, 1_000_000) {
        let case = sample_case(&mut Rng::for_case("compare samples", index), index);
        legal_call(report, &case, "random calls");
    }
}

fn damaged_calls(options: &Options, report: &mut Report) {
    for index in options.cases(10_000, 200_000) {
        let mut rng = Rng::for_case("compare damaged samples", index);
        let case = sample_case(&mut rng, index);
        let mut call = SampleCall::new(&case);
        damage_sample(&mut rng, &mut call);
        let number = call.number();
        let expected = match number {
            0 => one_sample::restore(call.depth, call.row, call.unit, &window(&call)),
            number => -(number as i32),
        };
        report.same(&restore_sample(&call), &expected, || format!("damaged: {call:?}, {expected}"));
        report.saw("one sample", number);
        report.count("damaged calls", 1);
    }
}

/// The window of a call of the right length.
fn window(call: &SampleCall) -> one_sample::Window {
    std::array::from_fn(|place| {
        i32::from(u16::from_le_bytes([call.window[2 * place], call.window[2 * place + 1]]))
    })
}

fn decoders_samples(report: &mut Report) {
    for sample in vectors::samples(report) {
        let (call, expected) = (&sample.call, sample.expected);
        report.same(&restore_sample(call), &expected, || format!("decoder: {call:?}, {expected}"));
        report.count("decoders' samples", 1);
    }
}
