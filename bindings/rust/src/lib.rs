//! AV1 loop restoration and superres upscaling of one plane, by a library in which every call is
//! proved equal to a definition written from the AV1 specification.
//!
//! The calls are the C interface's under their own names, on slices. Each tests its arguments: it
//! does its work, or it gives a [`Refusal`] and leaves every slice as it was. A plane is its samples
//! row after row; the lengths of all slices follow from the frame ([`Frame::lengths`], [`count`]).
//!
//! ```
//! use cironetop::{count, restore_plane, Frame, Refusal, Unit};
//!
//! // One row of 7 samples, 8 bits, one Wiener unit.
//! let mut frame = Frame { depth: 8, frame_height: 1, upscaled_width: 7, unit_size: 64, frame_type: 1, ..Frame::default() };
//! let lengths = frame.lengths()?;
//! let units = Unit::table(&[Unit::Wiener { vertical: [3, -7, 15], horizontal: [3, -7, 15] }]);
//! assert_eq!(units.len(), count(frame)?.table());
//!
//! let (deblocked, cdef) = ([0; 7], [0, 0, 0, 100, 0, 0, 0]);
//! let (mut out, mut scratch) = (vec![0; lengths.plane], vec![0; lengths.scratch]);
//! let changed = restore_plane(frame, &units, &deblocked, &cdef, &mut out, &mut scratch)?;
//! assert_eq!((changed, out.as_slice()), (5, &[2, 0, 12, 83, 12, 0, 2][..]));
//!
//! frame.depth = 9;
//! let refused = restore_plane(frame, &units, &deblocked, &cdef, &mut out, &mut scratch);
//! assert_eq!(refused, Err(Refusal::BadDepth));
//! assert_eq!(Refusal::BadDepth.to_string(), "refused 1: the depth is not 8, 10 or 12");
//! # Ok::<(), Refusal>(())
//! ```

mod frame;
mod geometry;
mod refusal;
mod restoration;
mod sample;
mod stripe;
mod superres;
mod unit;

pub use frame::{Frame, Lengths};
pub use geometry::{count, rectangle, rectangles, Counts, Rectangle};
pub use refusal::Refusal;
pub use restoration::{capture_edges, restore_plane};
pub use sample::{restore_sample, WINDOW_BYTES};
pub use stripe::restore_stripe;
pub use superres::{upscale_plane, Scaling};
pub use unit::{Unit, ENTRY};
