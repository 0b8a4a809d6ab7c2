//! One restored sample from its window.

use super::{Record, Recorded};
use crate::cases::{sample_case, SampleCase};
use crate::frame::{largest_sample, DEPTHS};
use crate::one_sample::{restore, MIDDLE, SIDE};
use crate::rng::Rng;

const RECORDS: usize = 1992;

pub fn recorded() -> Recorded {
    let found = (0..RECORDS).map(|index| sample_case(&mut Rng::for_case("samples", index), index));
    Recorded {
        name: "samples.rec",
        what: "one restored sample from its 7×7 source window",
        body: "depth, row; the unit's ten numbers; 49 window samples, row after row; the \
               restored sample",
        records: found.chain(flat_cases()).chain(clip_cases()).map(|case| record(&case)).collect(),
    }
}

/// Flat windows of the largest sample, where self-guided results part from the window: document
/// 01's values C and D, and C's set at the other depths, each on both rows.
fn flat_cases() -> impl Iterator<Item = SampleCase> {
    let unit = |set, w0, w1| [2, 0, 0, 0, 0, 0, 0, set, w0, w1];
    let flat = move |depth, row, set, w0, w1| SampleCase {
        depth,
        row,
        unit: unit(set, w0, w1),
        window: [(1 << depth) - 1; SIDE * SIDE],
    };
    (0..2).flat_map(move |row| {
        [
            flat(8, row, 0, -32, 31),
            flat(12, row, 14, -96, 95),
            flat(10, row, 0, -32, 31),
            flat(12, row, 0, -32, 31),
        ]
    })
}

/// One sample apart from a flat window, above or below the middle row: the clip between the passes
/// of the Wiener filter acts there, at its upper or its lower end, and shows in the result.
fn clip_cases() -> impl Iterator<Item = SampleCase> {
    DEPTHS.into_iter().flat_map(|depth| {
        [0, 1, 2, 4, 5, 6].into_iter().flat_map(move |row| {
            let largest = largest_sample(depth);
            [(0, largest), (largest, 0)].map(|(flat, apart)| {
                let mut window = [flat; SIDE * SIDE];
                window[row * SIDE + MIDDLE] = apart;
                SampleCase { depth, row: 0, unit: [1, 10, 8, 46, -5, -23, -17, 0, 0, 0], window }
            })
        })
    })
}

fn record(case: &SampleCase) -> Record {
    let mut record = Record::default();
    record.numbers(&[case.depth as i32, case.row as i32]);
    record.numbers(&case.unit);
    record.numbers(&case.window);
    record.number(restore(case.depth, case.row, case.unit, &case.window));
    record
}
