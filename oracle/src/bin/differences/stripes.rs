//! Edge rows and stripes.

use crate::case_b::{self, WIENER};
use crate::report::{row, watched, Finding};
use oracle::frame::Frame;
use oracle::in_place::{capture, capture_edges, restore_stripes, stripe_count};
use oracle::loop_filter::PlaneBuffer;

/// A column of 57 samples: two stripes, the second of one row.
const COLUMN: Frame = Frame { frame_height: 57, upscaled_width: 1, ..case_b::FRAME };

fn in_place(input: &'static str, document: &'static str, reference: String) -> Finding {
    Finding { call: "in place", input, document, reference }
}

fn capture_of(input: &'static str, document: &'static str, reference: String) -> Finding {
    Finding { call: "capture", input, document, reference }
}

pub fn findings() -> Vec<Finding> {
    let again = "1 by 57, CDEF 0 but 100 in row 20, stripe 0 restored twice";
    vec![
        in_place("1 by 57, CDEF 0, deblocked 200, all edge rows", "0", last_rows(Some(4))),
        in_place("the same without edge rows", "9", last_rows(None)),
        in_place("the same with 3 of the 4 edge rows", "9", last_rows(Some(3))),
        in_place("the same with 1 of the 4 edge rows", "9", last_rows(Some(1))),
        in_place(again, "14 the second time", twice()),
        in_place(
            "marks, or a stripe number past the count",
            "12, 13",
            "not representable: there are no marks, and a stripe is handed over as a record"
                .to_string(),
        ),
        capture_of(
            "1 by 57 (row y holds y), the plane handed over has 40 rows",
            "7",
            captured(40, 40),
        ),
        capture_of(
            "1 by 57, the plane handed over is 57 rows with 56 samples",
            "7",
            captured(57, 56),
        ),
        capture_of(
            "1 by 57 at 8 bits, every sample 70000",
            "15",
            row(&capture_edges(&COLUMN, &[70_000; 57])),
        ),
    ]
}

/// The last four samples after both stripes, with so many rows captured or none.
fn last_rows(edge_rows: Option<usize>) -> String {
    let edges = vec![200; edge_rows.unwrap_or(0)];
    let mut plane = vec![0; 57];
    let did = watched(|| {
        let all: Vec<usize> = (0..stripe_count(&COLUMN)).collect();
        restore_stripes(&COLUMN, &WIENER, &edges, &mut plane, &all);
        "done".to_string()
    });
    format!("{did}; rows 53 to 56 are {}", row(&plane[53..]))
}

fn twice() -> String {
    let mut plane = vec![0; 57];
    plane[20] = 100;
    let edges = vec![0; 4];
    restore_stripes(&COLUMN, &WIENER, &edges, &mut plane, &[0]);
    let once = row(&plane[17..24]);
    restore_stripes(&COLUMN, &WIENER, &edges, &mut plane, &[0]);
    format!("done; rows 17 to 23 are {once}, then {}", row(&plane[17..24]))
}

fn captured(rows: u32, samples: i32) -> String {
    watched(|| {
        let mut column: Vec<i32> = (0..samples).collect();
        let plane = PlaneBuffer { rows, cols: 1, samples: &mut column };
        format!("edge rows {}", row(&capture(&plane, 56, 0)))
    })
}
