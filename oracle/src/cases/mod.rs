//! Cases: the inputs that the reference is run on, and that others can be compared on.

mod frames;
mod jobs;
mod planes;
mod scalings;
mod windows;

pub use frames::{frame_around, frame_at_edges, frame_in_domain, SIZES_OF_NOTE};
pub use jobs::{job_case, jobs_of_note, legal_job};
pub use planes::{plane_case, stripe_order, unrestored_case, PlaneCase};
pub use scalings::{
    copy_case, frame_widths_case, padded_case, upscale_case, widths_of_note, UpscaleCase,
};
pub use windows::{sample_case, SampleCase};
