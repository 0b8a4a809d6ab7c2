//! cironetop_capture_edges.

use super::lent::Lent;
use crate::calls::CaptureCall;
use crate::frame::Frame;
use std::mem::take;

extern "C" {
    fn cironetop_capture_edges(
        f: Frame,
        deblocked: *const i32,
        deblocked_len: usize,
        edges: *mut i32,
        edges_len: usize,
    ) -> u32;
}

/// The call between margins that no call may touch.
pub fn capture_edges(call: &mut CaptureCall) -> u32 {
    let mut edges = Lent::new(&call.edges, i32::MIN);
    let number = on_slices(call, edges.numbers());
    call.edges = edges.back(i32::MIN);
    number
}

/// The call on its own slices, with nothing copied: what can be timed.
pub fn capture_edges_bare(call: &mut CaptureCall) -> u32 {
    let mut edges = take(&mut call.edges);
    let number = on_slices(call, &mut edges);
    call.edges = edges;
    number
}

fn on_slices(call: &CaptureCall, edges: &mut [i32]) -> u32 {
    let (deblocked, len) = (call.deblocked.as_ptr(), call.deblocked.len());
    // SAFETY: both slices are that long; the mutable one is a buffer of its own.
    unsafe { cironetop_capture_edges(call.frame, deblocked, len, edges.as_mut_ptr(), edges.len()) }
}
