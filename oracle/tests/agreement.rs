//! The reference's own calls agree: one sample, whole plane, stripes in any order, blocks.

use oracle::cases::{frame_around, plane_case, PlaneCase};
use oracle::frame::Frame;
use oracle::geometry::{block, rectangles};
use oracle::in_place::{capture_edges, restore_stripes, stripe_count};
use oracle::one_sample::{self, Window, SIDE};
use oracle::rng::Rng;
use oracle::whole_plane;

fn random_case(topic: &str, index: usize) -> PlaneCase {
    let mut rng = Rng::for_case(topic, index);
    let height = rng.pick(&[1, 5, 28, 29, 56, 57, 60, 61, 120, 121]);
    let width = 1 + rng.below(if height > 60 { 20 } else { 70 });
    let frame = frame_around(&mut rng, width, height);
    plane_case(&mut rng, frame)
}

/// Document 01's stripe of a row: its first row, which may be above the plane, and its last.
fn stripe_of(frame: &Frame, y: i32) -> (i32, i32, i32) {
    let sub_y = frame.plane_sub().1;
    let rows = 64 >> sub_y;
    let first = |s: i32| (64 * s - 8) >> sub_y;
    let s = (0..).find(|&s| y < first(s) + rows).expect("some stripe holds the row");
    (s, first(s), first(s) + rows - 1)
}

/// Document 01's fetch for a row of that stripe.
fn fetch(case: &PlaneCase, stripe: (i32, i32), y: i32, x: i32) -> i32 {
    let (width, height) = (case.frame.width() as i32, case.frame.height() as i32);
    let (x, y) = (x.clamp(0, width - 1), y.clamp(0, height - 1));
    let at = |plane: &[i32], y: i32| plane[(y * width + x) as usize];
    if y < stripe.0 {
        at(&case.deblocked, y.max(stripe.0 - 2))
    } else if y > stripe.1 {
        at(&case.deblocked, y.min(stripe.1 + 2))
    } else {
        at(&case.cdef, y)
    }
}

fn restored_at(case: &PlaneCase, y: i32, x: i32) -> i32 {
    let frame = &case.frame;
    let (s, first, last) = stripe_of(frame, y);
    let size = frame.unit_size as i32;
    let row = ((64 * s) >> frame.plane_sub().1) / size;
    let row = row.min(frame.unit_rows() as i32 - 1);
    let col = (x / size).min(frame.unit_cols() as i32 - 1);
    let at = 10 * (row * frame.unit_cols() as i32 + col) as usize;
    let unit = case.units[at..at + 10].try_into().unwrap();
    let window: Window = std::array::from_fn(|i| {
        let (i, j) = ((i / SIDE) as i32, (i % SIDE) as i32);
        fetch(case, (first, last), y + i - 3, x + j - 3)
    });
    one_sample::restore(frame.depth, y as u32, unit, &window)
}

#[test]
fn one_sample_is_the_planes_sample() {
    for index in 0..120 {
        let case = random_case("one sample", index);
        let restored = whole_plane::restore(&case.frame, &case.units, &case.deblocked, &case.cdef);
        let width = case.frame.width();
        for (i, &sample) in restored.iter().enumerate() {
            let (y, x) = ((i / width) as i32, (i % width) as i32);
            assert_eq!(restored_at(&case, y, x), sample, "case {index}, row {y}, column {x}");
        }
    }
}

#[test]
fn stripes_in_any_order_are_the_plane() {
    for index in 0..300 {
        let case = random_case("stripes", index);
        let restored = whole_plane::restore(&case.frame, &case.units, &case.deblocked, &case.cdef);
        let edges = capture_edges(&case.frame, &case.deblocked);
        let mut order: Vec<usize> = (0..stripe_count(&case.frame)).collect();
        Rng::for_case("order", index).shuffle(&mut order);
        let mut plane = case.cdef.clone();
        restore_stripes(&case.frame, &case.units, &edges, &mut plane, &order);
        assert_eq!(plane, restored, "case {index}, order {order:?}");
    }
}

#[test]
fn edge_rows_are_the_documents() {
    for index in 0..100 {
        let case = random_case("edges", index);
        let (width, last) = (case.frame.width(), case.frame.height() - 1);
        let sub_y = case.frame.plane_sub().1;
        let row = |y: usize| &case.deblocked[y * width..(y + 1) * width];
        let expected: Vec<i32> = (1..)
            .map(|s| (64 * s - 8) >> sub_y)
            .take_while(|&b| b <= last)
            .flat_map(|b| [b - 2, b - 1, b, (b + 1).min(last)])
            .flat_map(row)
            .copied()
            .collect();
        assert_eq!(capture_edges(&case.frame, &case.deblocked), expected);
    }
}

#[test]
fn blocks_name_the_rectangles_unit() {
    for index in 0..200 {
        let frame = random_case("blocks", index).frame;
        let all = rectangles(&frame);
        for row in 0..frame.frame_height.div_ceil(4) {
            for col in 0..frame.upscaled_width.div_ceil(4) {
                let place = block(&frame, row, col);
                let holds = |one: &&[i32; 10]| {
                    (one[2]..one[2] + one[4]).contains(&place[2])
                        && (one[3]..one[3] + one[5]).contains(&place[3])
                };
                let found = all.iter().find(holds).expect("some rectangle holds the block");
                assert_eq!(
                    (found[..2].to_vec(), found[6..].to_vec()),
                    (place[..2].to_vec(), place[6..].to_vec())
                );
            }
        }
    }
}
