//! Stands in for the module that the reference takes its plane type from.

/// One plane: its shape and its samples, row after row.
pub struct PlaneBuffer<'a> {
    pub rows: u32,
    pub cols: u32,
    pub samples: &'a mut [i32],
}

impl PlaneBuffer<'_> {
    /// A plane without samples, for the planes of a frame that a call does not look at.
    pub fn empty() -> Self {
        PlaneBuffer { rows: 0, cols: 0, samples: &mut [] }
    }
}
