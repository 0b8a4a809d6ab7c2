//! The reference Rust, built unchanged, with what is needed to run it and to learn from it.
//!
//! The first group stands in for the parts of the original crate that the reference names;
//! the second calls the reference; the third makes cases; the fourth writes answers down; the last
//! holds the library to the reference and to document 01.

pub mod cdf;
pub mod loop_filter;
pub mod uncompressed_header_tail;

include!(concat!(env!("OUT_DIR"), "/reference.rs"));

pub mod context;
pub mod frame;
pub mod geometry;
pub mod in_place;
pub mod job;
pub mod one_sample;
pub mod upscale;
pub mod whole_plane;

pub mod cases;
pub mod patterns;
pub mod rng;
pub mod units;

pub mod records;
pub mod sha256;

pub mod calls;
pub mod damage;
pub mod refusals;
pub mod report;
pub mod vectors;

#[cfg(feature = "host")]
pub mod host;
