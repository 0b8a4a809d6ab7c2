//! Document 01's table: the number that a call has to return, from its arguments alone.
//!
//! Written from the document, with neither the reference nor the library: what both are held to
//! where a call is refused.

mod conditions;
mod geometry;
mod jobs;
mod restoration;
mod samples;
mod scaling;

pub use geometry::{count_number, rectangle_number};
pub use jobs::job_number;
pub use restoration::{copy_need, edge_rows, own_rows, scratch_need, stripes};

/// The numbers that each call may return.
pub const OF_SAMPLE: &[u32] = &[0, 1, 7, 11, 15];
pub const OF_PLANE: &[u32] = &[0, 1, 2, 3, 4, 5, 7, 10, 11, 15, 16];
pub const OF_JOB: &[u32] = &[0, 1, 2, 3, 4, 5, 7, 10, 11, 15, 17, 18];
pub const OF_CAPTURE: &[u32] = &[0, 1, 2, 4, 7, 9, 15];
pub const OF_STRIPE: &[u32] = &[0, 1, 2, 3, 4, 5, 7, 9, 10, 11, 12, 13, 14, 15, 16];
pub const OF_UPSCALE: &[u32] = &[0, 1, 2, 4, 6, 7, 8, 15];
pub const OF_COUNT: &[u32] = &[0, 2, 4, 5];
pub const OF_RECTANGLE: &[u32] = &[0, 2, 4, 5, 13];

type Test<'a> = (u32, &'a dyn Fn() -> bool);

/// The number of the first condition that holds, or 0. Tests ascend, so that it is the lowest; a
/// condition is looked at only where those before it do not hold, and may rely on that.
fn lowest(tests: &[Test<'_>]) -> u32 {
    tests.iter().find(|(_, holds)| holds()).map_or(0, |(number, _)| *number)
}
