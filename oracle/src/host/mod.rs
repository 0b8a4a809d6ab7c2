//! The static library's calls, through the C interface.
//!
//! Each call takes owned arguments, so that a comparison can hold every lent slice to what it has to
//! be afterwards. A `_bare` call copies nothing around it, so that it can be timed.

mod lent;

#[cfg(feature = "edges")]
mod edges;
#[cfg(feature = "geometry")]
mod geometry;
#[cfg(feature = "planes")]
mod planes;
#[cfg(feature = "samples")]
mod samples;
#[cfg(feature = "stripes")]
mod stripes;
#[cfg(feature = "superres")]
mod superres;

#[cfg(feature = "edges")]
pub use edges::{capture_edges, capture_edges_bare};
#[cfg(feature = "geometry")]
pub use geometry::{count, rectangle, Counted, Placed};
#[cfg(feature = "planes")]
pub use planes::{restore_plane, restore_plane_bare, Restored};
#[cfg(feature = "samples")]
pub use samples::restore_sample;
#[cfg(feature = "stripes")]
pub use stripes::{restore_stripe, restore_stripe_bare};
#[cfg(feature = "superres")]
pub use superres::{upscale_plane, upscale_plane_bare};
