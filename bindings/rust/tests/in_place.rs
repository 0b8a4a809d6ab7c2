//! Stripes in place against the whole-plane call.

use cironetop::{capture_edges, count, restore_plane, restore_stripe, Frame, Refusal, Unit};

const UNITS: [Unit; 4] = [
    Unit::Wiener { vertical: [3, -7, 15], horizontal: [-5, 8, 46] },
    Unit::SelfGuided { set: 5, w0: -96, w1: 95 },
    Unit::None,
    Unit::SelfGuided { set: 12, w0: 31, w1: -32 },
];

/// Planes of two unit rows and columns, three stripes; samples of a fixed rule without pattern.
fn both_planes(length: usize) -> (Vec<i32>, Vec<i32>) {
    let sample = |place: usize, step: usize| (place * step % 1_021) as i32;
    (0..length).map(|place| (sample(place, 577), sample(place, 7_919))).unzip()
}

#[test]
fn stripes_in_any_order_are_the_whole_plane() {
    let frame = Frame { depth: 10, frame_height: 130, upscaled_width: 100, ..Frame::default() };
    let frame = Frame { unit_size: 64, frame_type: 3, ..frame };
    let (lengths, units) = (frame.lengths().unwrap(), Unit::table(&UNITS));
    assert_eq!(units.len(), count(frame).unwrap().table());
    let (deblocked, cdef) = both_planes(lengths.plane);
    let (mut whole, mut scratch) = (vec![0; lengths.plane], vec![0; lengths.scratch]);
    let changed = restore_plane(frame, &units, &deblocked, &cdef, &mut whole, &mut scratch);
    assert!(changed > Ok(0));

    let mut edges = vec![0; lengths.edges];
    capture_edges(frame, &deblocked, &mut edges).unwrap();
    let (mut plane, mut marks) = (cdef, vec![0; lengths.marks]);
    let mut copy = vec![0; lengths.copy];
    let mut restore = |stripe, plane: &mut [i32], marks: &mut [u8]| {
        restore_stripe(frame, stripe, &units, &edges, plane, marks, &mut scratch, &mut copy)
    };
    for stripe in [2, 0, 1] {
        assert_eq!(restore(stripe, &mut plane, &mut marks), Ok(()));
        let again = restore(stripe, &mut plane, &mut marks);
        assert_eq!(again, Err(Refusal::AlreadyRestored));
    }
    assert_eq!((plane, marks), (whole, vec![1; 3]));
    let mut short = vec![0; 3];
    assert_eq!(restore(0, &mut short, &mut [0; 3]), Err(Refusal::BadShape));
}
