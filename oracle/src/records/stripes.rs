//! Stripes restored in place.

use super::planes::small_shape;
use super::{Record, Recorded};
use crate::cases::{frame_around, plane_case, stripe_order, unrestored_case, PlaneCase};
use crate::in_place::{capture_edges, restore_stripes, stripe_count};
use crate::rng::Rng;

const RECORDS: usize = 300;

/// Shapes with many stripes or several units beside each other.
const LARGER: [(u32, u32); 6] = [(1, 1500), (2, 500), (400, 1), (49, 92), (97, 58), (20, 250)];

pub fn recorded() -> Recorded {
    Recorded {
        name: "stripes.rec",
        what: "stripes restored in place",
        body: "frame (8); sections units, edges, plane before, stripe numbers in the order done \
               (any order, now and then only some), plane after",
        records: (0..RECORDS).map(record).collect(),
    }
}

fn record(index: usize) -> Record {
    let mut rng = Rng::for_case("stripes", index);
    let case = case(&mut rng, index);
    let edges = capture_edges(&case.frame, &case.deblocked);
    let order = stripe_order(&mut rng, stripe_count(&case.frame));
    let mut plane = case.cdef.clone();
    restore_stripes(&case.frame, &case.units, &edges, &mut plane, &order);
    let order: Vec<i32> = order.iter().map(|&stripe| stripe as i32).collect();
    let mut record = Record::default();
    record.numbers(&case.frame.numbers());
    for section in [&case.units, &edges, &case.cdef, &order, &plane] {
        record.section(section);
    }
    record
}

fn case(rng: &mut Rng, index: usize) -> PlaneCase {
    let (width, height) = match LARGER.get(index) {
        Some(&shape) => shape,
        None => small_shape(rng, index),
    };
    let frame = frame_around(rng, width, height);
    if index % 30 == 29 {
        unrestored_case(rng, frame)
    } else {
        plane_case(rng, frame)
    }
}
