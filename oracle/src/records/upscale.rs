//! Upscaled planes.

use super::{Record, Recorded};
use crate::cases::{copy_case, upscale_case, widths_of_note, UpscaleCase};
use crate::rng::Rng;
use crate::upscale;

const RECORDS: usize = 600;

/// Long rows: positions far from the start, and columns up to the most that a call takes.
const LONG: [(u32, u32); 3] = [(4000, 8000), (8, 16), (8191, 8192)];

pub fn recorded() -> Recorded {
    Recorded {
        name: "upscale.rec",
        what: "a plane upscaled, or copied where nothing is asked",
        body: "plane, sub_x, sub_y, depth, frame width, upscaled width, frame height, \
               use_superres, input rows, input columns, output rows, output columns; sections \
               input, output",
        records: (0..RECORDS).map(record).collect(),
    }
}

fn record(index: usize) -> Record {
    let mut rng = Rng::for_case("upscale", index);
    let case = case(&mut rng, index);
    let output = upscale::upscale(&case.scaling, &case.input).expect("the reference accepts it");
    let mut record = Record::default();
    record.numbers(&case.scaling.numbers());
    record.section(&case.input);
    record.section(&output);
    record
}

fn case(rng: &mut Rng, index: usize) -> UpscaleCase {
    if let Some(&(d, u)) = LONG.get(index) {
        return long_row(rng, d, u);
    }
    let height = rng.between(1, 4) as u32;
    if index % 10 == 9 {
        return copy_case(rng, height, 1 + index as u32 % 40);
    }
    let (d, u) = widths(rng, index);
    upscale_case(rng, d, u, height)
}

/// One row; the short one is lent with as many columns as a call may have.
fn long_row(rng: &mut Rng, d: u32, u: u32) -> UpscaleCase {
    let mut case = upscale_case(rng, d, u, 1);
    let (old, new) = (case.scaling.in_cols as usize, if d < 100 { 16_392 } else { d as usize });
    case.input.truncate(old);
    case.input.resize(new, 1);
    case.scaling.in_rows = 1;
    case.scaling.in_cols = new as u32;
    case
}

/// Widths of note in half of the cases, any up to twice (now and then more) in the others.
fn widths(rng: &mut Rng, index: usize) -> (u32, u32) {
    let noted = widths_of_note();
    if rng.one_in(2) {
        return noted[index % noted.len()];
    }
    let d = 1 + rng.below(80);
    let most = if rng.one_in(10) { 4 * d } else { d };
    (d, d + 1 + rng.below(most))
}
