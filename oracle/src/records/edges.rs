//! Edge rows captured from a deblocked plane.

use super::planes::small_shape;
use super::{Record, Recorded};
use crate::cases::{frame_around, plane_case};
use crate::in_place::capture_edges;
use crate::rng::Rng;

const RECORDS: usize = 100;

pub fn recorded() -> Recorded {
    Recorded {
        name: "edges.rec",
        what: "edge rows captured from a deblocked plane",
        body: "frame (8); sections deblocked, edges",
        records: (0..RECORDS).map(record).collect(),
    }
}

fn record(index: usize) -> Record {
    let mut rng = Rng::for_case("edges", index);
    let (width, height) = shape(&mut rng, index);
    let frame = frame_around(&mut rng, width, height);
    let case = plane_case(&mut rng, frame);
    let mut record = Record::default();
    record.numbers(&case.frame.numbers());
    record.section(&case.deblocked);
    record.section(&capture_edges(&case.frame, &case.deblocked));
    record
}

fn shape(rng: &mut Rng, index: usize) -> (u32, u32) {
    match index {
        0 => (1, 4000),
        1 => (2, 1000),
        _ => small_shape(rng, index),
    }
}
