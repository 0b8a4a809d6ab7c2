//! Document 01's case B, which most restoration findings start from.

use oracle::frame::Frame;
use oracle::units::Unit;

pub const WIENER: Unit = [1, 3, -7, 15, 3, -7, 15, 0, 0, 0];
pub const FRAME: Frame = Frame {
    plane: 0,
    sub_x: 0,
    sub_y: 0,
    depth: 8,
    frame_height: 1,
    upscaled_width: 7,
    unit_size: 64,
    frame_type: 1,
};
pub const ROW: [i32; 7] = [0, 0, 0, 100, 0, 0, 0];
