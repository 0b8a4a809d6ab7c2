//! Document 01's values on the reference.

use oracle::frame::Frame;
use oracle::geometry::rectangles;
use oracle::loop_restoration::{count_units_in_frame, SGR_PARAMS};
use oracle::loop_restoration::{
    SGRPROJ_XQD_MAX, SGRPROJ_XQD_MIN, WIENER_TAPS_MAX, WIENER_TAPS_MIN,
};
use oracle::one_sample::{pass_outputs, restore};
use oracle::superres::upscale_sample;
use oracle::units::RANGES;
use oracle::upscale::{step_and_start, upscale, Scaling};
use oracle::whole_plane;

const TAPS: [i32; 10] = [1, 3, -7, 15, 3, -7, 15, 0, 0, 0];

fn luma(depth: u32, frame_height: u32, upscaled_width: u32) -> Frame {
    Frame {
        plane: 0,
        sub_x: 0,
        sub_y: 0,
        depth,
        frame_height,
        upscaled_width,
        unit_size: 64,
        frame_type: 1,
    }
}

fn scaling(frame_width: u32, upscaled_width: u32, in_cols: u32) -> Scaling {
    Scaling {
        plane: 0,
        sub_x: 0,
        sub_y: 0,
        depth: 8,
        frame_width,
        upscaled_width,
        frame_height: 1,
        use_superres: 1,
        in_rows: 1,
        in_cols,
        out_rows: 1,
        out_cols: upscaled_width,
    }
}

#[test]
fn a_constant_stays() {
    let plane = [100; 9 * 9];
    let restored = whole_plane::restore(&luma(8, 9, 9), &TAPS, &plane, &plane);
    assert_eq!(restored, plane);
}

#[test]
fn b_one_row() {
    let row = [0, 0, 0, 100, 0, 0, 0];
    let restored = whole_plane::restore(&luma(8, 1, 7), &TAPS, &[0; 7], &row);
    assert_eq!(restored, [2, 0, 12, 83, 12, 0, 2]);
    assert_eq!(whole_plane::changed(&row, &restored), 5);
}

#[test]
fn c_flat_at_eight_bits() {
    let unit = [2, 0, 0, 0, 0, 0, 0, 0, -32, 31];
    for row in 0..2 {
        assert_eq!(restore(8, row, unit, &[255; 49]), 255);
        assert_eq!(pass_outputs(8, row, 0, &[255; 49]), (4084, 4079));
    }
}

#[test]
fn d_flat_at_twelve_bits() {
    let unit = [2, 0, 0, 0, 0, 0, 0, 14, -96, 95];
    for row in 0..2 {
        assert_eq!(restore(12, row, unit, &[4095; 49]), 4092);
    }
    let plane = [4095; 9 * 9];
    let restored = whole_plane::restore(&luma(12, 9, 9), &unit, &plane, &plane);
    assert_eq!(restored, [4092; 9 * 9]);
}

#[test]
fn g_units_of_an_extent() {
    assert_eq!(count_units_in_frame(64, 95), 1);
    assert_eq!(count_units_in_frame(64, 96), 2);
}

#[test]
fn h_stripe_zero() {
    let whole = luma(8, 64, 1);
    let half = Frame { plane: 1, sub_x: 1, sub_y: 1, ..whole };
    let rows = |frame| (rectangles(frame)[0][3], rectangles(frame)[0][5]);
    assert_eq!(rows(&whole), (0, 56));
    assert_eq!(rows(&half), (0, 28));
}

#[test]
fn i_step_and_start() {
    assert_eq!(step_and_start(8, 16), (8192, 12_417));
    assert_eq!(step_and_start(79, 89), (14_543, 15_597));
    assert_eq!(step_and_start(60, 61).1, 7);
}

#[test]
fn j_one_row_upscaled() {
    let row = [0, 0, 0, 0, 128, 128, 128, 128];
    let expected = [0, 0, 0, 3, 4, 0, 0, 29, 99, 141, 137, 124, 125, 129, 129, 128];
    assert_eq!(upscale(&scaling(8, 16, 8), &row).unwrap(), expected);
}

/// The reference keeps step and start to itself; single samples show that they are the formula's.
#[test]
fn positions_are_the_formulas() {
    for d in 1..70u32 {
        for u in d + 1..2 * d + 9 {
            let row: Vec<i32> = (0..d as i32).map(|x| x * x * 37 % 256).collect();
            let (step, start) = step_and_start(i64::from(d), i64::from(u));
            let last = 8 * ((d as i32 + 7) >> 3) - 1;
            let by_formula: Vec<i32> = (0..i64::from(u))
                .map(|x| {
                    let at = (x * step + start - (1 << 14)) as i32;
                    upscale_sample(&row, at >> 14, ((at & 0x3fff) >> 8) as usize, 0, last, 8)
                })
                .collect();
            assert_eq!(upscale(&scaling(d, u, d), &row).unwrap(), by_formula, "{d} to {u}");
        }
    }
}

#[test]
fn ranges_are_the_references() {
    for i in 0..3 {
        let taps = (WIENER_TAPS_MIN[i], WIENER_TAPS_MAX[i]);
        assert_eq!((RANGES[i], RANGES[3 + i]), (taps, taps));
    }
    assert_eq!(RANGES[6], (0, SGR_PARAMS.len() as i32 - 1));
    for i in 0..2 {
        assert_eq!(RANGES[7 + i], (SGRPROJ_XQD_MIN[i], SGRPROJ_XQD_MAX[i]));
    }
}
