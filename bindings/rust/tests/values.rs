//! Document 01's values, lengths and refusals through the safe calls.

use cironetop::{
    count, rectangle, rectangles, restore_plane, restore_sample, upscale_plane, Frame, Refusal,
    Scaling, Unit, WINDOW_BYTES,
};
use std::error::Error;

const WIENER: Unit = Unit::Wiener { vertical: [3, -7, 15], horizontal: [3, -7, 15] };

fn one_row(width: u32, depth: u32) -> Frame {
    let frame = Frame { depth, frame_height: 1, upscaled_width: width, ..Frame::default() };
    Frame { unit_size: 64, frame_type: 1, ..frame }
}

/// The plane that a single unit gives, and its count of changed samples.
fn restored(frame: Frame, unit: Unit, cdef: &[i32]) -> Result<(Vec<i32>, u32), Refusal> {
    let lengths = frame.lengths()?;
    let (mut out, mut scratch) = (vec![-1; lengths.plane], vec![-1; lengths.scratch]);
    let units = Unit::table(&[unit]);
    let changed = restore_plane(frame, &units, cdef, cdef, &mut out, &mut scratch)?;
    Ok((out, changed))
}

#[test]
fn a_flat_plane_stays_flat_under_wiener() {
    assert_eq!(restored(one_row(9, 8), WIENER, &[100; 9]), Ok((vec![100; 9], 0)));
}

#[test]
fn case_b() {
    let expected = vec![2, 0, 12, 83, 12, 0, 2];
    assert_eq!(restored(one_row(7, 8), WIENER, &[0, 0, 0, 100, 0, 0, 0]), Ok((expected, 5)));
}

#[test]
fn self_guided_flat_planes() {
    let at_eight = Unit::SelfGuided { set: 0, w0: -32, w1: 31 };
    assert_eq!(restored(one_row(5, 8), at_eight, &[255; 5]), Ok((vec![255; 5], 0)));
    let at_twelve = Unit::SelfGuided { set: 14, w0: -96, w1: 95 };
    assert_eq!(restored(one_row(5, 12), at_twelve, &[4095; 5]), Ok((vec![4092; 5], 5)));
}

#[test]
fn no_unit_and_no_type_give_cdef_back() {
    let cdef = [5, 250, 0, 255, 9];
    assert_eq!(restored(one_row(5, 8), Unit::None, &cdef), Ok((cdef.to_vec(), 0)));
    let untyped = Frame { frame_type: 0, unit_size: 0, ..one_row(5, 8) };
    let mut out = [0; 5];
    assert_eq!(restore_plane(untyped, &[], &cdef, &cdef, &mut out, &mut []), Ok(0));
    assert_eq!(out, cdef);
}

#[test]
fn one_sample_of_a_flat_window() {
    let window: Vec<u8> = 4095_u16.to_le_bytes().repeat(WINDOW_BYTES / 2);
    let unit = Unit::SelfGuided { set: 14, w0: -96, w1: 95 };
    for row in [0, 1, u32::MAX] {
        assert_eq!(restore_sample(12, row, unit.entry(), &window), Ok(4092));
    }
    assert_eq!(restore_sample(10, 0, unit.entry(), &window), Err(Refusal::BadSample));
    assert_eq!(restore_sample(12, 0, [3; 10], &window), Err(Refusal::BadUnit));
    assert_eq!(restore_sample(12, 0, unit.entry(), &window[1..]), Err(Refusal::BadShape));
}

#[test]
fn units_and_entries() {
    let guided = Unit::SelfGuided { set: 3, w0: -1, w1: 2 };
    for unit in [Unit::None, WIENER, guided] {
        assert_eq!(Unit::from_entry(unit.entry()), Some(unit));
    }
    assert_eq!(Unit::from_entry([3, 0, 0, 0, 0, 0, 0, 0, 0, 0]), None);
    let table = [1, 3, -7, 15, 3, -7, 15, 0, 0, 0, 2, 0, 0, 0, 0, 0, 0, 3, -1, 2];
    assert_eq!(Unit::table(&[WIENER, guided]), table);
}

#[test]
fn extents_95_and_96_and_the_first_stripe() {
    let frame = |height| Frame { frame_height: height, ..one_row(7, 8) };
    assert_eq!(count(frame(95)).map(|counts| counts.unit_rows), Ok(1));
    assert_eq!(count(frame(96)).map(|counts| counts.unit_rows), Ok(2));
    let first = rectangle(frame(200), 0);
    assert_eq!(first.map(|place| (place.stripe_start_y, place.stripe_end_y)), Ok((-8, 55)));
    let chroma = Frame { plane: 1, sub_x: 1, sub_y: 1, ..frame(200) };
    let first = rectangle(chroma, 0);
    assert_eq!(first.map(|place| (place.stripe_start_y, place.stripe_end_y)), Ok((-4, 27)));
}

#[test]
fn rectangles_cover_each_sample_once() {
    let frame = Frame { frame_height: 200, unit_size: 64, ..one_row(161, 8) };
    let mut seen = vec![0; frame.lengths().unwrap().plane];
    for place in rectangles(frame).unwrap() {
        for y in place.y..place.y + place.h {
            let start = (y * 161 + place.x) as usize;
            seen[start..start + place.w as usize].iter_mut().for_each(|times| *times += 1);
        }
    }
    assert!(seen.iter().all(|&times| times == 1));
}

/// By document 01's formulas, for each plane and subsampling and sides around a stripe's.
#[test]
fn lengths_follow_the_document() {
    for (plane, sub_x, sub_y) in [(0, 1, 1), (1, 0, 0), (2, 1, 0), (1, 1, 1)] {
        let sub = if plane == 0 { (0, 0) } else { (sub_x, sub_y) };
        for side in (1..300).chain([16_383, 16_384]) {
            let frame = Frame { plane, sub_x, sub_y, frame_height: side, ..one_row(side, 8) };
            let lengths = frame.lengths().unwrap();
            let (w, h) = ((side + sub.0) >> sub.0, (side + sub.1) >> sub.1);
            let stripes = (0..).take_while(|s| (64 * s - 8) >> sub.1 < i64::from(h)).count();
            let (w, h, rows) = (w as usize, h as usize, h.min(64 >> sub.1) as usize);
            assert_eq!((lengths.width, lengths.height, lengths.plane), (w, h, w * h));
            assert_eq!((lengths.marks, lengths.edges), (stripes, 4 * w * (stripes - 1)));
            assert_eq!(lengths.scratch, 6 * (w.min(383) + 8) * (rows + 8));
            assert_eq!(lengths.copy, w * rows);
        }
    }
    let wrong = Frame { plane: 3, ..one_row(7, 8) };
    assert_eq!(wrong.lengths(), Err(Refusal::BadPlane));
    assert_eq!(one_row(16_385, 8).lengths(), Err(Refusal::BadFrameSide));
}

#[test]
fn a_copy_where_the_flag_is_clear() {
    let shape = Scaling { in_rows: 1, in_cols: 3, out_rows: 1, out_cols: 3, ..Scaling::default() };
    let copy = Scaling { depth: 8, frame_width: 9, upscaled_width: 5, frame_height: 1, ..shape };
    let mut output = [0; 3];
    assert_eq!(upscale_plane(copy, &[1, 2, 3], &mut output), Ok(()));
    assert_eq!(output, [1, 2, 3]);
    let set = Scaling { use_superres: 1, ..copy };
    assert_eq!(upscale_plane(set, &[1, 2, 3], &mut output), Err(Refusal::WidthShrinks));
}

#[test]
fn refusals_have_their_numbers_and_say_why() {
    for (place, refusal) in Refusal::ALL.into_iter().enumerate() {
        assert_eq!(refusal.number() as usize, place + 1);
        assert_eq!(Refusal::from_number(refusal.number()), Some(refusal));
        let error: Box<dyn Error> = Box::new(refusal);
        assert_eq!(error.to_string(), format!("refused {}: {}", place + 1, refusal.reason()));
    }
    assert_eq!((Refusal::from_number(0), Refusal::from_number(17)), (None, None));
}
