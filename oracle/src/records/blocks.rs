//! The place of one 4 by 4 luma block.

use super::rectangles::edge_frame;
use super::{Record, Recorded};
use crate::cases::{frame_in_domain, SIZES_OF_NOTE};
use crate::frame::Frame;
use crate::geometry::block;
use crate::rng::Rng;

const RECORDS: usize = 500;

pub fn recorded() -> Recorded {
    Recorded {
        name: "blocks.rec",
        what: "the place that the reference derives for one 4×4 luma block",
        body: "plane, sub_x, sub_y, frame height, upscaled width, unit size; block row, block \
               column; unit row, unit column, x, y, w, h, stripe start, stripe end, last column, \
               last row",
        records: (0..RECORDS).map(record).collect(),
    }
}

fn record(index: usize) -> Record {
    let mut rng = Rng::for_case("blocks", index);
    let frame = if index < 4 * SIZES_OF_NOTE.len() {
        let (width, height) = SIZES_OF_NOTE[index % SIZES_OF_NOTE.len()];
        frame_in_domain(&mut rng, width, height)
    } else {
        edge_frame(&mut rng)
    };
    let row = block_along(&mut rng, frame.frame_height);
    let col = block_along(&mut rng, frame.upscaled_width);
    let mut record = Record::default();
    frame_numbers(&mut record, &frame);
    record.numbers(&[row as i32, col as i32]);
    record.numbers(&block(&frame, row, col));
    record
}

/// A block inside the frame: the first, the last, or any.
fn block_along(rng: &mut Rng, side: u32) -> u32 {
    let count = side.div_ceil(4);
    match rng.below(5) {
        0 => 0,
        1 => count - 1,
        _ => rng.below(count),
    }
}

/// The six frame numbers that counts, rectangles and blocks look at.
pub fn frame_numbers(record: &mut Record, frame: &Frame) {
    let [plane, sub_x, sub_y, _, height, width, unit_size, _] = frame.numbers();
    record.numbers(&[plane, sub_x, sub_y, height, width, unit_size]);
}
