//! The frame context that the reference asks for, from frame numbers and a unit table.

use crate::frame::Frame;
use crate::loop_restoration::LoopRestorationFrameContext;
use crate::uncompressed_header_tail::{FrameRestorationType, LrParams};
use crate::units::{Unit, ENTRY};

/// Calls the reference with the units of a table, row after row.
pub fn with_table<R>(
    frame: &Frame,
    table: &[i32],
    call: impl FnOnce(&LoopRestorationFrameContext<'_>) -> R,
) -> R {
    let cols = frame.unit_cols();
    let entry = |row: u32, col: u32| {
        let first = (row * cols + col) as usize * ENTRY;
        table[first..first + ENTRY].try_into().expect("an entry is ten numbers")
    };
    with_units(frame, &entry, call)
}

/// Calls the reference with units given by row and column.
pub fn with_units<R>(
    frame: &Frame,
    entry: &dyn Fn(u32, u32) -> Unit,
    call: impl FnOnce(&LoopRestorationFrameContext<'_>) -> R,
) -> R {
    call(&LoopRestorationFrameContext {
        mi_rows: mi_count(frame.frame_height),
        mi_cols: mi_count(frame.upscaled_width),
        num_planes: frame.plane as u8 + 1,
        bit_depth: frame.depth as u8,
        subsampling_x: frame.sub_x as u8,
        subsampling_y: frame.sub_y as u8,
        frame_height: frame.frame_height,
        upscaled_width: frame.upscaled_width,
        lr_params: &header(frame),
        lr_type: &|_, row, col| restoration_type(entry(row, col)[0]),
        lr_wiener: &|_, row, col, pass, i| entry(row, col)[1 + 3 * usize::from(pass) + i],
        lr_sgr_set: &|_, row, col| entry(row, col)[7] as u8,
        lr_sgr_xqd: &|_, row, col, i| entry(row, col)[8 + i],
    })
}

/// For calls that look at no unit.
pub fn without_units<R>(
    frame: &Frame,
    call: impl FnOnce(&LoopRestorationFrameContext<'_>) -> R,
) -> R {
    with_units(frame, &|_, _| [0; ENTRY], call)
}

/// Blocks of 4 samples in a frame side, counted in pairs as the standard does.
pub fn mi_count(side: u32) -> u32 {
    2 * ((side + 7) >> 3)
}

/// Only the plane of the call is restored; the planes below it are there for their place.
fn header(frame: &Frame) -> LrParams {
    let mut types = [FrameRestorationType::None; 3];
    let mut sizes = [0; 3];
    if let (Some(kind), Some(size)) =
        (types.get_mut(frame.plane as usize), sizes.get_mut(frame.plane as usize))
    {
        *kind = restoration_type(frame.frame_type as i32);
        *size = frame.unit_size;
    }
    LrParams {
        frame_restoration_type: types,
        uses_lr: frame.frame_type != 0,
        loop_restoration_size: sizes,
    }
}

fn restoration_type(number: i32) -> FrameRestorationType {
    FrameRestorationType::from_number(number as u32).expect("a type is 0 to 3")
}
