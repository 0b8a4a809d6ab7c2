//! cironetop_count, cironetop_rectangle.

use crate::frame::Frame;
use crate::geometry::{Counts, Place};

#[repr(C)]
#[derive(Clone, Copy, Debug, PartialEq, Eq)]
pub struct Counted {
    pub number: u32,
    pub unit_rows: u32,
    pub unit_cols: u32,
    pub stripes: u32,
    pub rectangles: u32,
}

#[repr(C)]
#[derive(Clone, Copy, Debug, PartialEq, Eq)]
pub struct Placed {
    pub number: u32,
    pub unit_row: u32,
    pub unit_col: u32,
    pub x: u32,
    pub y: u32,
    pub w: u32,
    pub h: u32,
    pub stripe_start_y: i32,
    pub stripe_end_y: i32,
    pub plane_end_x: i32,
    pub plane_end_y: i32,
}

extern "C" {
    fn cironetop_count(f: Frame) -> Counted;
    fn cironetop_rectangle(f: Frame, index: u32) -> Placed;
}

pub fn count(frame: Frame) -> Counted {
    // SAFETY: numbers by value alone.
    unsafe { cironetop_count(frame) }
}

pub fn rectangle(frame: Frame, index: u32) -> Placed {
    // SAFETY: numbers by value alone.
    unsafe { cironetop_rectangle(frame, index) }
}

impl Counted {
    pub fn done(counts: &Counts) -> Self {
        Counted {
            number: 0,
            unit_rows: counts.unit_rows,
            unit_cols: counts.unit_cols,
            stripes: counts.stripes,
            rectangles: counts.rectangles,
        }
    }

    pub fn refused(number: u32) -> Self {
        Counted { number, unit_rows: 0, unit_cols: 0, stripes: 0, rectangles: 0 }
    }
}

impl Placed {
    pub fn done(place: &Place) -> Self {
        Placed::of(0, place)
    }

    pub fn refused(number: u32) -> Self {
        Placed::of(number, &[0; 10])
    }

    fn of(number: u32, place: &Place) -> Self {
        let [unit_row, unit_col, x, y, w, h] = std::array::from_fn(|i| place[i] as u32);
        let [stripe_start_y, stripe_end_y, plane_end_x, plane_end_y] =
            std::array::from_fn(|i| place[6 + i]);
        Placed {
            number,
            unit_row,
            unit_col,
            x,
            y,
            w,
            h,
            stripe_start_y,
            stripe_end_y,
            plane_end_x,
            plane_end_y,
        }
    }
}
