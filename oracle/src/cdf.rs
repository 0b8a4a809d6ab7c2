//! Stands in for the module that the reference takes one number from.

/// Side of the smallest luma block, in samples.
pub const MI_SIZE: usize = 4;
