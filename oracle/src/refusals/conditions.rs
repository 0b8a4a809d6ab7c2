//! The conditions that several calls share.

use crate::frame::Frame;

pub fn bad_depth(depth: u32) -> bool {
    ![8, 10, 12].contains(&depth)
}

pub fn bad_plane(plane: u32, sub_x: u32, sub_y: u32) -> bool {
    plane > 2 || ![(0, 0), (1, 0), (1, 1)].contains(&(sub_x, sub_y))
}

pub fn bad_side(side: u32) -> bool {
    side == 0 || side > 16_384
}

pub fn bad_sides(frame: &Frame) -> bool {
    bad_side(frame.frame_height) || bad_side(frame.upscaled_width)
}

/// 32 is legal only on planes 1 and 2 where both axes are subsampled.
pub fn bad_unit_size(frame: &Frame) -> bool {
    let halved = frame.plane > 0 && (frame.sub_x, frame.sub_y) == (1, 1);
    match frame.unit_size {
        64 | 128 | 256 => false,
        32 => !halved,
        _ => true,
    }
}

/// Type, then three coefficients twice, set, two weights; what the type does not use is free.
pub fn bad_entry(entry: &[i32]) -> bool {
    let within = |at: usize, low: i32, high: i32| (low..=high).contains(&entry[at]);
    let taps = |at| within(at, -5, 10) && within(at + 1, -23, 8) && within(at + 2, -17, 46);
    match entry[0] {
        0 => false,
        1 => !(taps(1) && taps(4)),
        2 => !(within(7, 0, 15) && within(8, -96, 31) && within(9, -32, 95)),
        _ => true,
    }
}

pub fn bad_samples(depth: u32, samples: &[i32]) -> bool {
    samples.iter().any(|&sample| sample < 0 || sample >= 1 << depth)
}

/// Round2 of a side by the plane's own subsampling: plane 0 has none.
pub fn extent(plane: u32, sub: u32, side: u32) -> usize {
    if plane == 0 || sub == 0 {
        side as usize
    } else {
        (side as usize + 1) / 2
    }
}

pub fn units_along(extent: usize, size: u32) -> usize {
    let size = size as usize;
    ((extent + size / 2) / size).max(1)
}
