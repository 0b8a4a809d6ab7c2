//! Whole planes and what restoring them gives.

use super::{Record, Recorded};
use crate::cases::{frame_around, plane_case, unrestored_case, PlaneCase};
use crate::rng::Rng;
use crate::whole_plane::{changed, restore};

const RECORDS: usize = 600;

/// Plane heights around the edges of stripes and filters.
const HEIGHTS: [u32; 29] = [
    1, 2, 3, 6, 7, 8, 9, 27, 28, 29, 30, 55, 56, 57, 58, 59, 60, 61, 63, 64, 65, 91, 92, 93, 119,
    120, 121, 122, 130,
];

/// Shapes with several units or stripes: thin ones, which are cheap, and a few broad ones.
const LARGER: [(u32, u32); 16] = [
    (95, 1),
    (96, 2),
    (160, 3),
    (255, 1),
    (384, 1),
    (3000, 1),
    (1, 95),
    (2, 96),
    (3, 160),
    (1, 384),
    (1, 3000),
    (48, 96),
    (81, 60),
    (96, 57),
    (50, 120),
    (97, 64),
];

pub fn recorded() -> Recorded {
    Recorded {
        name: "planes.rec",
        what: "a whole plane restored",
        body: "frame (8 numbers in the job's order: plane, sub_x, sub_y, depth, frame height, \
               upscaled width, unit size, frame type); sections units, deblocked, CDEF, restored; \
               `changed`",
        records: (0..RECORDS).map(record).collect(),
    }
}

fn record(index: usize) -> Record {
    let mut rng = Rng::for_case("planes", index);
    let case = case(&mut rng, index);
    let restored = restore(&case.frame, &case.units, &case.deblocked, &case.cdef);
    let mut record = Record::default();
    record.numbers(&case.frame.numbers());
    for section in [&case.units, &case.deblocked, &case.cdef, &restored] {
        record.section(section);
    }
    record.number(changed(&case.cdef, &restored) as i32);
    record
}

fn case(rng: &mut Rng, index: usize) -> PlaneCase {
    let (width, height) = match LARGER.get(index) {
        Some(&shape) => shape,
        None => small_shape(rng, index),
    };
    let frame = frame_around(rng, width, height);
    if index % 30 == 29 {
        unrestored_case(rng, frame)
    } else {
        plane_case(rng, frame)
    }
}

/// A height of note and a width that keeps the plane small.
pub fn small_shape(rng: &mut Rng, index: usize) -> (u32, u32) {
    let height = HEIGHTS[index % HEIGHTS.len()];
    let widest = (600 / height).clamp(2, 100);
    (1 + rng.below(widest), height)
}
