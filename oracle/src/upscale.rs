//! Plane upscaling by the reference.

use crate::context::mi_count;
use crate::frame::{largest_sample, plane_extent, plane_sub};
use crate::superres::{upscale_frame, upscale_plane, SuperresError, SuperresFrameContext};
use crate::whole_plane::planes_up_to;

/// The numbers of an upscaling call, in the order of the C interface.
#[repr(C)]
#[derive(Clone, Copy, Debug, PartialEq, Eq)]
pub struct Scaling {
    pub plane: u32,
    pub sub_x: u32,
    pub sub_y: u32,
    pub depth: u32,
    pub frame_width: u32,
    pub upscaled_width: u32,
    pub frame_height: u32,
    pub use_superres: u32,
    pub in_rows: u32,
    pub in_cols: u32,
    pub out_rows: u32,
    pub out_cols: u32,
}

impl Scaling {
    pub fn numbers(&self) -> [i32; 12] {
        [
            self.plane,
            self.sub_x,
            self.sub_y,
            self.depth,
            self.frame_width,
            self.upscaled_width,
            self.frame_height,
            self.use_superres,
            self.in_rows,
            self.in_cols,
            self.out_rows,
            self.out_cols,
        ]
        .map(|number| number as i32)
    }

    pub fn is_copy(&self) -> bool {
        self.use_superres == 0 || self.frame_width == self.upscaled_width
    }

    /// The plane's own width before and after, and its height.
    pub fn plane_sides(&self) -> (u32, u32, u32) {
        let (sub_x, sub_y) = plane_sub(self.plane, (self.sub_x, self.sub_y));
        (
            plane_extent(self.frame_width, sub_x),
            plane_extent(self.upscaled_width, sub_x),
            plane_extent(self.frame_height, sub_y),
        )
    }

    pub fn in_samples(&self) -> usize {
        (self.in_rows * self.in_cols) as usize
    }

    pub fn out_samples(&self) -> usize {
        (self.out_rows * self.out_cols) as usize
    }

    pub fn largest(&self) -> i32 {
        largest_sample(self.depth)
    }

    /// What the reference asks for, with the number of block columns that the frame width gives.
    pub fn context(&self) -> SuperresFrameContext {
        SuperresFrameContext {
            use_superres: self.use_superres != 0,
            frame_width: self.frame_width,
            upscaled_width: self.upscaled_width,
            frame_height: self.frame_height,
            mi_cols: mi_count(self.frame_width),
            num_planes: self.plane as u8 + 1,
            bit_depth: self.depth as u8,
            subsampling_x: self.sub_x as u8,
            subsampling_y: self.sub_y as u8,
        }
    }
}

/// The upscaled plane, or what the reference says instead.
pub fn upscale(scaling: &Scaling, input: &[i32]) -> Result<Vec<i32>, SuperresError> {
    let mut output = vec![0; scaling.out_samples()];
    upscale_into(scaling, &mut input.to_vec(), &mut output).map(|()| output)
}

/// The same without copies. Copying is the frame call's work; the plane call always upscales.
pub fn upscale_into(
    scaling: &Scaling,
    input: &mut [i32],
    output: &mut [i32],
) -> Result<(), SuperresError> {
    let plane = scaling.plane;
    let context = scaling.context();
    let input = planes_up_to(plane, (scaling.in_rows, scaling.in_cols), input);
    let mut output = planes_up_to(plane, (scaling.out_rows, scaling.out_cols), output);
    if scaling.is_copy() {
        return upscale_frame(&context, &input, &mut output);
    }
    let place = plane as usize;
    upscale_plane(&context, plane as u8, &input[place], &mut output[place])
}

/// Step and start of the upscaler by document 01's formula, for plane widths `d` and `u`.
/// The reference keeps its own to itself; this one serves to look at single positions.
pub fn step_and_start(d: i64, u: i64) -> (i64, i64) {
    let step = ((d << 14) + u / 2) / u;
    let err = u * step - (d << 14);
    let start = (-((u - d) << 13) + u / 2) / u + 128 - err / 2;
    (step, start.rem_euclid(1 << 14))
}
