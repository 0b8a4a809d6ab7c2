//! The arguments of the library's calls, each lent slice in a place of its own.

use crate::cases::{PlaneCase, SampleCase};
use crate::frame::Frame;
use crate::refusals::{copy_need, edge_rows, scratch_need, stripes};
use crate::rng::Rng;
use crate::units::Unit;
use crate::upscale::Scaling;

#[derive(Clone, Debug, PartialEq, Eq)]
pub struct SampleCall {
    pub depth: u32,
    pub row: u32,
    pub unit: Unit,
    pub window: Vec<u8>,
}

#[derive(Clone, Debug, PartialEq, Eq)]
pub struct PlaneCall {
    pub frame: Frame,
    pub units: Vec<i32>,
    pub deblocked: Vec<i32>,
    pub cdef: Vec<i32>,
    pub out: Vec<i32>,
    pub scratch: Vec<i32>,
}

#[derive(Clone, Debug, PartialEq, Eq)]
pub struct CaptureCall {
    pub frame: Frame,
    pub deblocked: Vec<i32>,
    pub edges: Vec<i32>,
}

#[derive(Clone, Debug, PartialEq, Eq)]
pub struct StripeCall {
    pub frame: Frame,
    pub stripe: u32,
    pub units: Vec<i32>,
    pub edges: Vec<i32>,
    pub plane: Vec<i32>,
    pub marks: Vec<u8>,
    pub scratch: Vec<i32>,
    pub copy: Vec<i32>,
}

#[derive(Clone, Debug, PartialEq, Eq)]
pub struct UpscaleCall {
    pub scaling: Scaling,
    pub input: Vec<i32>,
    pub output: Vec<i32>,
}

impl SampleCall {
    pub fn new(case: &SampleCase) -> Self {
        let window = case.window.iter().flat_map(|&sample| (sample as u16).to_le_bytes()).collect();
        SampleCall { depth: case.depth, row: case.row, unit: case.unit, window }
    }
}

impl PlaneCall {
    /// Output and scratch as long as they have to be, with anything in them.
    pub fn new(rng: &mut Rng, case: &PlaneCase) -> Self {
        let scratch = if case.frame.frame_type > 0 { scratch_need(&case.frame) } else { 0 };
        PlaneCall {
            frame: case.frame,
            units: case.units.clone(),
            deblocked: case.deblocked.clone(),
            cdef: case.cdef.clone(),
            out: anything(rng, case.frame.samples()),
            scratch: anything(rng, scratch),
        }
    }
}

impl CaptureCall {
    pub fn new(rng: &mut Rng, case: &PlaneCase) -> Self {
        let edges = anything(rng, edge_rows(&case.frame) * case.frame.width());
        CaptureCall { frame: case.frame, deblocked: case.deblocked.clone(), edges }
    }
}

impl StripeCall {
    /// The first stripe of a plane that holds CDEF, with no mark set.
    pub fn new(rng: &mut Rng, case: &PlaneCase, edges: Vec<i32>) -> Self {
        let typed = usize::from(case.frame.frame_type > 0);
        StripeCall {
            frame: case.frame,
            stripe: 0,
            units: case.units.clone(),
            edges,
            plane: case.cdef.clone(),
            marks: vec![0; stripes(&case.frame)],
            scratch: anything(rng, typed * scratch_need(&case.frame)),
            copy: anything(rng, typed * copy_need(&case.frame)),
        }
    }
}

impl UpscaleCall {
    pub fn new(rng: &mut Rng, scaling: Scaling, input: Vec<i32>) -> Self {
        UpscaleCall { scaling, input, output: anything(rng, scaling.out_samples()) }
    }
}

/// What a slice may hold that a call only writes.
fn anything(rng: &mut Rng, length: usize) -> Vec<i32> {
    let number = rng.draw() as i32;
    vec![rng.pick(&[number, 0, -1, i32::MAX, i32::MIN]); length]
}
