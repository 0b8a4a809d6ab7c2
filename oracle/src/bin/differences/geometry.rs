//! Rectangles and blocks.

use crate::case_b;
use crate::report::Finding;
use oracle::context::{with_units, without_units};
use oracle::frame::Frame;
use oracle::geometry::{block, rectangles};
use oracle::loop_restoration::{loop_restore_rect, stripe_unit_rects};
use oracle::units::Unit;
use oracle::whole_plane::planes_up_to;

fn rectangle(input: &'static str, document: &'static str, reference: String) -> Finding {
    Finding { call: "rectangles", input, document, reference }
}

pub fn findings() -> Vec<Finding> {
    vec![
        rectangle("case B as plane 3 (unit size 64)",
            "2",
            rectangle_count(Frame { plane: 3, ..case_b::FRAME }),
        ),
        rectangle("plane 1, subsampling (0,7), frame 7 by 128: stripes of no rows",
            "2",
            no_rows(),
        ),
        rectangle("case B, unit size 0",
            "5",
            rectangle_count(Frame {
                unit_size: 0,
                ..case_b::FRAME
            }),
        ),
        rectangle("case B, frame height 0",
            "4",
            rectangle_count(Frame {
                frame_height: 0,
                ..case_b::FRAME
            }),
        ),
        rectangle("1 by 64 luma, unit size 32", "5", two_units()),
        rectangle("a rectangle number past the count",
            "13",
            "not representable: all rectangles come as one list".to_string(),
        ),
        Finding { call: "block", input: "case B, block row 1, which has no samples", document: "no such call", reference: outside() },
        Finding { call: "one rectangle", input: "7 by 7, row y holds y squared; set 14, w0 -96, w1 95; the sample (3,3) by a rectangle \
             from row 2 and by one from row 3", document: "one answer: odd and even are the plane's rows", reference: parity() },
    ]
}

fn rectangle_count(frame: Frame) -> String {
    let all = without_units(&frame, |context| stripe_unit_rects(context, frame.plane as u8));
    let (rows, cols) = (frame.unit_rows(), frame.unit_cols());
    let count = all.len();
    match all.last() {
        Some(last) => {
            format!("{count} rectangles, the last {} wide; {rows} by {cols} units", last.w)
        }
        None => format!("no rectangles; {rows} by {cols} units"),
    }
}

/// Only the rectangle is looked at: restoring it asks for memory for all its rows.
fn no_rows() -> String {
    let frame = Frame { plane: 1, sub_y: 7, frame_height: 128, ..case_b::FRAME };
    let first = without_units(&frame, |context| stripe_unit_rects(context, 1)[0]);
    format!("the first rectangle is {} rows high; restoring it would ask for that memory", first.h)
}

/// With units lower than a stripe the two ways to name a unit part.
fn two_units() -> String {
    let frame = Frame { frame_height: 64, upscaled_width: 1, unit_size: 32, ..case_b::FRAME };
    let first = rectangles(&frame)[0];
    let place = block(&frame, 6, 0);
    format!(
        "rows {} to {} are one rectangle of unit row {}; block row 6 (row {}) is of unit row {}",
        first[3],
        first[3] + first[5] - 1,
        first[0],
        place[3],
        place[0]
    )
}

fn outside() -> String {
    let place = block(&case_b::FRAME, 1, 0);
    format!("y {}, w {}, h {}", place[3], place[4], place[5])
}

/// The same sample, once as a rectangle's second row and once as its first.
fn parity() -> String {
    let frame = Frame { frame_height: 7, ..case_b::FRAME };
    let unit: Unit = [2, 0, 0, 0, 0, 0, 0, 14, -96, 95];
    let from = |first: u32| {
        let mut source: Vec<i32> = (0..49).map(|i| (i / 7) * (i / 7)).collect();
        let mut restored = source.clone();
        let planes = planes_up_to(0, (7, 7), &mut source);
        let mut out = planes_up_to(0, (7, 7), &mut restored);
        with_units(&frame, &|_, _| unit, |context| {
            let mut place = stripe_unit_rects(context, 0)[0];
            (place.y, place.h) = (first, 7 - first);
            loop_restore_rect(context, &planes, &planes, &mut out, 0, &place);
        });
        restored[3 * 7 + 3]
    };
    format!("{} and {}", from(2), from(3))
}
