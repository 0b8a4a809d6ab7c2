//! The frame numbers of a call, in the order of the job and of the C interface.

use crate::loop_restoration::count_units_in_frame;

pub const DEPTHS: [u32; 3] = [8, 10, 12];
pub const SUBSAMPLINGS: [(u32, u32); 3] = [(0, 0), (1, 0), (1, 1)];
pub const LARGEST_SIDE: u32 = 16_384;

#[repr(C)]
#[derive(Clone, Copy, Debug, PartialEq, Eq)]
pub struct Frame {
    pub plane: u32,
    pub sub_x: u32,
    pub sub_y: u32,
    pub depth: u32,
    pub frame_height: u32,
    pub upscaled_width: u32,
    pub unit_size: u32,
    pub frame_type: u32,
}

impl Frame {
    pub fn numbers(&self) -> [i32; 8] {
        [
            self.plane,
            self.sub_x,
            self.sub_y,
            self.depth,
            self.frame_height,
            self.upscaled_width,
            self.unit_size,
            self.frame_type,
        ]
        .map(|number| number as i32)
    }

    /// The plane's own subsampling across and down: plane 0 has none.
    pub fn plane_sub(&self) -> (u32, u32) {
        plane_sub(self.plane, (self.sub_x, self.sub_y))
    }

    pub fn width(&self) -> usize {
        plane_extent(self.upscaled_width, self.plane_sub().0) as usize
    }

    pub fn height(&self) -> usize {
        plane_extent(self.frame_height, self.plane_sub().1) as usize
    }

    pub fn samples(&self) -> usize {
        self.width() * self.height()
    }

    pub fn unit_rows(&self) -> u32 {
        count_units_in_frame(self.unit_size, self.height() as u32)
    }

    pub fn unit_cols(&self) -> u32 {
        count_units_in_frame(self.unit_size, self.width() as u32)
    }

    pub fn units(&self) -> usize {
        (self.unit_rows() * self.unit_cols()) as usize
    }

    pub fn largest(&self) -> i32 {
        largest_sample(self.depth)
    }
}

pub fn plane_sub(plane: u32, sub: (u32, u32)) -> (u32, u32) {
    if plane == 0 {
        (0, 0)
    } else {
        sub
    }
}

/// Round2 of a frame side by the plane's subsampling on that axis.
pub fn plane_extent(side: u32, sub: u32) -> u32 {
    (side + sub) >> sub
}

pub fn largest_sample(depth: u32) -> i32 {
    (1 << depth) - 1
}

pub fn legal_unit_sizes(plane: u32, sub: (u32, u32)) -> &'static [u32] {
    if plane > 0 && sub == (1, 1) {
        &[32, 64, 128, 256]
    } else {
        &[64, 128, 256]
    }
}
