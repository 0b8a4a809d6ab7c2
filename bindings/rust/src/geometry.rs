//! Counts and rectangles of a plane.

use crate::refusal::answer;
use crate::{Frame, Refusal, ENTRY};

/// What a plane is cut into.
#[derive(Clone, Copy, Debug, PartialEq, Eq, Hash)]
pub struct Counts {
    pub unit_rows: u32,
    pub unit_cols: u32,
    pub stripes: u32,
    /// One stripe's part of one unit column each.
    pub rectangles: u32,
}

/// One stripe's part of one unit column.
#[derive(Clone, Copy, Debug, PartialEq, Eq, Hash)]
pub struct Rectangle {
    pub unit_row: u32,
    pub unit_col: u32,
    pub x: u32,
    pub y: u32,
    pub w: u32,
    pub h: u32,
    /// The stripe's first and last row; the first stripe starts above the plane.
    pub stripe_start_y: i32,
    pub stripe_end_y: i32,
    /// The plane's last column and row.
    pub plane_end_x: i32,
    pub plane_end_y: i32,
}

#[repr(C)]
struct Counted {
    number: u32,
    counts: [u32; 4],
}

#[repr(C)]
struct Placed {
    number: u32,
    place: [u32; 6],
    ends: [i32; 4],
}

extern "C" {
    fn cironetop_count(f: Frame) -> Counted;
    fn cironetop_rectangle(f: Frame, index: u32) -> Placed;
}

/// Unit rows and columns, stripes and rectangles of a plane. Depth and frame type are not looked at.
///
/// # Errors
///
/// [`Refusal`] 2, 4, 5.
///
/// ```
/// use cironetop::{count, Frame};
/// let frame = Frame { frame_height: 95, upscaled_width: 96, unit_size: 64, ..Frame::default() };
/// let counts = count(frame)?;
/// assert_eq!((counts.unit_rows, counts.unit_cols, counts.stripes, counts.rectangles), (1, 2, 2, 4));
/// # Ok::<(), cironetop::Refusal>(())
/// ```
pub fn count(frame: Frame) -> Result<Counts, Refusal> {
    // SAFETY: numbers by value alone.
    let Counted { number, counts } = unsafe { cironetop_count(frame) };
    let [unit_rows, unit_cols, stripes, rectangles] = counts;
    answer(number, Counts { unit_rows, unit_cols, stripes, rectangles })
}

/// The rectangle of that index: stripe by stripe, left to right. They cover each sample once.
///
/// # Errors
///
/// [`Refusal`] 2, 4, 5, 13.
///
/// ```
/// use cironetop::{rectangle, Frame, Refusal};
/// let frame = Frame { frame_height: 64, upscaled_width: 7, unit_size: 64, ..Frame::default() };
/// let second = rectangle(frame, 1)?;
/// assert_eq!((second.x, second.y, second.w, second.h), (0, 56, 7, 8));
/// assert_eq!(rectangle(frame, 2), Err(Refusal::BadIndex));
/// # Ok::<(), Refusal>(())
/// ```
pub fn rectangle(frame: Frame, index: u32) -> Result<Rectangle, Refusal> {
    // SAFETY: numbers by value alone.
    let Placed { number, place, ends } = unsafe { cironetop_rectangle(frame, index) };
    let [unit_row, unit_col, x, y, w, h] = place;
    let [stripe_start_y, stripe_end_y, plane_end_x, plane_end_y] = ends;
    let place = Rectangle {
        unit_row,
        unit_col,
        x,
        y,
        w,
        h,
        stripe_start_y,
        stripe_end_y,
        plane_end_x,
        plane_end_y,
    };
    answer(number, place)
}

/// All rectangles of a plane.
///
/// # Errors
///
/// [`Refusal`] 2, 4, 5.
pub fn rectangles(frame: Frame) -> Result<Vec<Rectangle>, Refusal> {
    (0..count(frame)?.rectangles).map(|index| rectangle(frame, index)).collect()
}

impl Counts {
    /// The length of the plane's unit table.
    pub fn table(self) -> usize {
        ENTRY * self.unit_rows as usize * self.unit_cols as usize
    }
}
