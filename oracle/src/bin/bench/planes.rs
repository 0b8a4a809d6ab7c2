//! Whole planes: 1920 by 1080, and 7680 by 4320 with the time for each sample held to that of the smaller one.

use crate::pictures::{call, case, frame, Units, ALL};
use crate::table::{head, row, BY_DEPTH};
use crate::turns::{held, library, reference, Effort, Pair};
use oracle::calls::PlaneCall;
use oracle::frame::DEPTHS;
use oracle::host::{restore_plane_bare, Restored};
use oracle::report::Report;
use oracle::whole_plane::{changed, restore_into};

pub const SMALL: (u32, u32) = (1920, 1080);
const LARGE: (u32, u32) = (7680, 4320);
pub const UNIT_SIZES: [u32; 2] = [256, 64];

pub struct PlanePair {
    pub call: PlaneCall,
    pub restored: Vec<i32>,
    answer: Restored,
}

impl PlanePair {
    pub fn new(depth: u32, (width, height): (u32, u32), unit_size: u32, units: Units) -> Self {
        let case = case(frame(depth, width, height, unit_size), units);
        let restored = vec![0; case.cdef.len()];
        PlanePair { call: call(&case), restored, answer: Restored { number: 0, changed: 0 } }
    }

    fn samples(&self) -> f64 {
        self.restored.len() as f64
    }
}

impl Pair for PlanePair {
    fn reference(&mut self) {
        let PlaneCall { frame, units, deblocked, cdef, .. } = &mut self.call;
        restore_into(frame, units, deblocked, cdef, &mut self.restored);
    }

    fn library(&mut self) {
        self.answer = restore_plane_bare(&mut self.call);
    }

    fn agree(&self) -> bool {
        let count = changed(&self.call.cdef, &self.restored) as u32;
        self.answer == Restored { number: 0, changed: count } && self.call.out == self.restored
    }
}

fn label(unit_size: u32, units: Units) -> String {
    format!("unit size {unit_size}, {}", units.name())
}

pub fn rows(effort: &Effort, report: &mut Report) {
    head("restore_plane, 1920 × 1080", &BY_DEPTH);
    for unit_size in UNIT_SIZES {
        for units in ALL {
            let ratios = DEPTHS.map(|depth| {
                let what = format!("{depth} bits, {}", label(unit_size, units));
                effort.ratio(report, &what, &mut PlanePair::new(depth, SMALL, unit_size, units))
            });
            row(&label(unit_size, units), &ratios);
        }
    }
}

/// Beside each ratio the library's time for a sample over that at 1920 by 1080: 1 where time is linear in samples.
pub fn large_rows(effort: &Effort, report: &mut Report) {
    let columns =
        ["8 bits", "a sample's time", "10 bits", "a sample's time", "12 bits", "a sample's time"];
    head("restore_plane, 7680 × 4320", &columns);
    let sizes = if effort.quick { &UNIT_SIZES[..1] } else { &UNIT_SIZES[..] };
    for &unit_size in sizes {
        for units in if effort.quick { &ALL[..1] } else { &ALL[..] } {
            let numbers = DEPTHS.map(|depth| large(effort, report, depth, unit_size, *units));
            row(&label(unit_size, *units), &numbers.concat());
        }
    }
}

fn large(
    effort: &Effort,
    report: &mut Report,
    depth: u32,
    unit_size: u32,
    units: Units,
) -> [f64; 2] {
    let mut small = PlanePair::new(depth, SMALL, unit_size, units);
    let mut large = PlanePair::new(depth, LARGE, unit_size, units);
    let best = effort.best(3, |which| match which {
        0 => reference(&mut large),
        1 => library(&mut large),
        _ => library(&mut small),
    });
    let what = format!("7680 by 4320, {depth} bits, {}", label(unit_size, units));
    let ratio = held(report, &what, &large, best[0] / best[1]);
    [ratio, (best[1] / large.samples()) / (best[2] / small.samples())]
}
