//! Counts of a plane and one of its rectangles.

use super::{Record, Recorded};
use crate::cases::{frame_in_domain, SIZES_OF_NOTE};
use crate::frame::{Frame, LARGEST_SIDE};
use crate::geometry::{counts, rectangles};
use crate::rng::Rng;

const FRAMES: usize = 440;

pub fn recorded() -> Recorded {
    Recorded {
        name: "rectangles.rec",
        what: "counts of a plane and one rectangle by its index",
        body: "plane, sub_x, sub_y, frame height, upscaled width, unit size; unit rows, unit \
               columns, stripes, rectangles (low, high 16 bits); index (low, high 16 bits); unit \
               row, unit column, x, y, w, h, stripe start, stripe end, last column, last row",
        records: (0..FRAMES).flat_map(records_of).collect(),
    }
}

/// First and last rectangle of the frame and two between them, each once.
fn records_of(index: usize) -> Vec<Record> {
    let mut rng = Rng::for_case("rectangles", index);
    let frame = frame_of(&mut rng, index);
    let all = rectangles(&frame);
    let count = all.len() as u32;
    let mut indices = vec![0, count / 2, count - 1, rng.below(count)];
    indices.sort_unstable();
    indices.dedup();
    indices.iter().map(|&at| record(&frame, count, at, &all[at as usize])).collect()
}

fn record(frame: &Frame, count: u32, index: u32, place: &[i32; 10]) -> Record {
    let numbers = counts(frame);
    assert_eq!(numbers.rectangles, count);
    let mut record = Record::default();
    super::blocks::frame_numbers(&mut record, frame);
    record.numbers(&[numbers.unit_rows, numbers.unit_cols, numbers.stripes].map(|n| n as i32));
    record.wide(count);
    record.wide(index);
    record.numbers(place);
    record
}

/// The ends of the domain first, then sides around the edges of units and stripes.
fn frame_of(rng: &mut Rng, index: usize) -> Frame {
    if index < 8 * SIZES_OF_NOTE.len() {
        let (width, height) = SIZES_OF_NOTE[index % SIZES_OF_NOTE.len()];
        return frame_in_domain(rng, width, height);
    }
    edge_frame(rng)
}

/// A frame with sides a little off an edge of units across and an edge of stripes down.
pub fn edge_frame(rng: &mut Rng) -> Frame {
    let mut frame = frame_in_domain(rng, 1, 1);
    let (sub_x, sub_y) = frame.plane_sub();
    let halves = rng.pick(&[1, 2, 3, 4, 5, 7, 11]);
    let across = (frame.unit_size as i32 * halves / 2) << sub_x;
    frame.upscaled_width = side(across + rng.between(-2, 2));
    let stripes = rng.pick(&[0, 1, 2, 3, 4, 8, 13, 254, 255, 256]);
    frame.frame_height = if rng.one_in(3) {
        let down = frame.unit_size as i32 * rng.pick(&[1, 2, 3, 4, 5]) / 2;
        side((down << sub_y) + rng.between(-9, 9))
    } else {
        side(64 * stripes + rng.between(-9, 9))
    };
    frame
}

fn side(wanted: i32) -> u32 {
    wanted.clamp(1, LARGEST_SIDE as i32) as u32
}
