//! One-sample calls, a thousand windows a turn.

use crate::pictures::{frame, picture};
use crate::table::{head, row, BY_DEPTH};
use crate::turns::{Effort, Pair};
use oracle::calls::SampleCall;
use oracle::cases::SampleCase;
use oracle::frame::DEPTHS;
use oracle::host::restore_sample;
use oracle::one_sample::{self, SIDE};
use oracle::report::Report;
use oracle::rng::Rng;
use oracle::units::{unit, SELF_GUIDED, WIENER};

const CALLS: usize = 1000;

struct SamplePair {
    cases: Vec<SampleCase>,
    calls: Vec<SampleCall>,
    expected: Vec<i32>,
    found: Vec<i32>,
}

impl SamplePair {
    fn new(depth: u32, kind: i32, set: i32) -> Self {
        let mut rng = Rng::for_case("bench samples", depth as usize);
        let cases: Vec<_> = (0..CALLS as u32)
            .map(|row| {
                let mut unit = unit(&mut rng, kind);
                unit[7] = set;
                let side = frame(depth, SIDE as u32, SIDE as u32, 64);
                let window = picture(&mut rng, side.width(), side.height(), depth);
                let window = window.try_into().expect("a window is 49 samples");
                SampleCase { depth, row, unit, window }
            })
            .collect();
        let calls = cases.iter().map(SampleCall::new).collect();
        SamplePair { cases, calls, expected: vec![0; CALLS], found: vec![-1; CALLS] }
    }
}

impl Pair for SamplePair {
    fn reference(&mut self) {
        for (case, sample) in self.cases.iter().zip(&mut self.expected) {
            *sample = one_sample::restore(case.depth, case.row, case.unit, &case.window);
        }
    }

    fn library(&mut self) {
        for (call, sample) in self.calls.iter().zip(&mut self.found) {
            *sample = restore_sample(call);
        }
    }

    fn agree(&self) -> bool {
        self.found == self.expected
    }
}

pub fn rows(effort: &Effort, report: &mut Report) {
    head("restore_sample", &BY_DEPTH);
    let kinds = [
        ("Wiener", WIENER, 0),
        ("self-guided, set 0", SELF_GUIDED, 0),
        ("set 14", SELF_GUIDED, 14),
    ];
    for (label, kind, set) in kinds {
        let ratios = DEPTHS.map(|depth| {
            let what = format!("{depth} bits, one sample, {label}");
            effort.ratio(report, &what, &mut SamplePair::new(depth, kind, set))
        });
        row(label, &ratios);
    }
}
