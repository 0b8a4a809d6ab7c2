//! Stands in for the module that the reference takes two header types from.

/// How a plane, or one unit of it, is restored.
#[derive(Debug, Clone, Copy, PartialEq, Eq)]
#[repr(u8)]
pub enum FrameRestorationType {
    None = 0,
    Wiener = 1,
    SgrProj = 2,
    Switchable = 3,
}

impl FrameRestorationType {
    /// The type that a number names; nothing above 3 is representable.
    pub fn from_number(number: u32) -> Option<Self> {
        [Self::None, Self::Wiener, Self::SgrProj, Self::Switchable].get(number as usize).copied()
    }
}

/// The restoration numbers of a frame header that the reference reads.
#[derive(Debug, Clone, Copy, PartialEq, Eq)]
pub struct LrParams {
    pub frame_restoration_type: [FrameRestorationType; 3],
    pub uses_lr: bool,
    pub loop_restoration_size: [u32; 3],
}
