//! Plane upscale: 1, 2, 4, 6, 7, 8, 15.

use super::conditions::{bad_depth, bad_plane, bad_samples, bad_side, extent};
use super::lowest;
use crate::calls::UpscaleCall;
use crate::upscale::Scaling;

impl UpscaleCall {
    pub fn number(&self) -> u32 {
        let s = &self.scaling;
        let sides = [s.frame_height, s.frame_width, s.upscaled_width];
        lowest(&[
            (1, &|| bad_depth(s.depth)),
            (2, &|| bad_plane(s.plane, s.sub_x, s.sub_y)),
            (4, &|| sides.into_iter().any(bad_side)),
            (6, &|| s.use_superres != 0 && s.upscaled_width < s.frame_width),
            (7, &|| self.input.len() as u64 != product(s.in_rows, s.in_cols)),
            (7, &|| self.output.len() as u64 != product(s.out_rows, s.out_cols)),
            (7, &|| if copies(s) { !same_shape(s) } else { !scaling_shape(s) }),
            (8, &|| !copies(s) && widths(s).1 <= widths(s).0),
            (15, &|| bad_samples(s.depth, &self.input)),
        ])
    }
}

fn product(rows: u32, cols: u32) -> u64 {
    u64::from(rows) * u64::from(cols)
}

fn copies(s: &Scaling) -> bool {
    s.use_superres == 0 || s.frame_width == s.upscaled_width
}

fn same_shape(s: &Scaling) -> bool {
    (s.in_rows, s.in_cols) == (s.out_rows, s.out_cols)
}

/// The plane's two widths.
fn widths(s: &Scaling) -> (usize, usize) {
    (extent(s.plane, s.sub_x, s.frame_width), extent(s.plane, s.sub_x, s.upscaled_width))
}

fn scaling_shape(s: &Scaling) -> bool {
    let (down, up) = widths(s);
    let height = extent(s.plane, s.sub_y, s.frame_height);
    (height..=16_384).contains(&(s.in_rows as usize))
        && (down..=16_392).contains(&(s.in_cols as usize))
        && (s.out_rows as usize, s.out_cols as usize) == (height, up)
}
