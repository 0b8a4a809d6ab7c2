//! The numbers of a plane's restoration, and the lengths that follow from them.

use crate::{count, rectangle, Refusal};

/// One plane of a frame, in the job's order. Any numbers may stand here: the calls test them.
#[repr(C)]
#[derive(Clone, Copy, Debug, Default, PartialEq, Eq, Hash)]
pub struct Frame {
    /// 0, 1 or 2.
    pub plane: u32,
    /// The frame's subsampling across, 0 or 1. Plane 0 reads it as 0.
    pub sub_x: u32,
    /// The frame's subsampling down, 0 or 1; 1 only beside `sub_x` 1.
    pub sub_y: u32,
    /// Bits of a sample: 8, 10 or 12.
    pub depth: u32,
    /// 1 to 16,384 luma rows.
    pub frame_height: u32,
    /// 1 to 16,384 luma columns, after superres.
    pub upscaled_width: u32,
    /// 64, 128 or 256; also 32 on planes 1 and 2 where both axes are subsampled.
    pub unit_size: u32,
    /// 0 to 3. 0: nothing is restored. 1 to 3 do the same work, since each unit has its own type.
    pub frame_type: u32,
}

/// The lengths that a frame's calls ask for, in samples; marks in bytes.
#[derive(Clone, Copy, Debug, PartialEq, Eq, Hash)]
pub struct Lengths {
    pub width: usize,
    pub height: usize,
    /// The whole plane.
    pub plane: usize,
    /// Edge rows: four for each boundary between stripes.
    pub edges: usize,
    /// Marks: one for each stripe.
    pub marks: usize,
    /// The least scratch.
    pub scratch: usize,
    /// The least stripe copy.
    pub copy: usize,
}

impl Frame {
    /// The lengths that follow from plane, subsampling and sides alone; the unit table's is
    /// [`Counts::table`](crate::Counts::table).
    ///
    /// # Errors
    ///
    /// [`Refusal::BadPlane`], [`Refusal::BadFrameSide`].
    ///
    /// ```
    /// let frame = cironetop::Frame { depth: 8, frame_height: 57, upscaled_width: 3, ..Default::default() };
    /// let lengths = frame.lengths()?;
    /// assert_eq!((lengths.width, lengths.height, lengths.plane), (3, 57, 171));
    /// assert_eq!((lengths.marks, lengths.edges, lengths.copy), (2, 4 * 3, 3 * 57));
    /// assert_eq!(lengths.scratch, 6 * (3 + 8) * (57 + 8));
    /// # Ok::<(), cironetop::Refusal>(())
    /// ```
    pub fn lengths(self) -> Result<Lengths, Refusal> {
        // Size 64 is legal on every plane, and stripes do not depend on it.
        let frame = Frame { unit_size: 64, ..self };
        let (stripes, first) = (count(frame)?.stripes as usize, rectangle(frame, 0)?);
        let (width, height) = (first.plane_end_x as usize + 1, first.plane_end_y as usize + 1);
        let halved = frame.plane > 0 && frame.sub_y == 1;
        let rows = height.min(if halved { 32 } else { 64 });
        Ok(Lengths {
            width,
            height,
            plane: width * height,
            edges: 4 * width * (stripes - 1),
            marks: stripes,
            scratch: 6 * (width.min(383) + 8) * (rows + 8),
            copy: width * rows,
        })
    }
}
