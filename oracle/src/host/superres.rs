//! cironetop_upscale_plane.

use super::lent::Lent;
use crate::calls::UpscaleCall;
use crate::upscale::Scaling;
use std::mem::take;

extern "C" {
    fn cironetop_upscale_plane(
        s: Scaling,
        input: *const i32,
        input_len: usize,
        output: *mut i32,
        output_len: usize,
    ) -> u32;
}

/// The call between margins that no call may touch.
pub fn upscale_plane(call: &mut UpscaleCall) -> u32 {
    let mut output = Lent::new(&call.output, i32::MIN);
    let number = on_slices(call, output.numbers());
    call.output = output.back(i32::MIN);
    number
}

/// The call on its own slices, with nothing copied: what can be timed.
pub fn upscale_plane_bare(call: &mut UpscaleCall) -> u32 {
    let mut output = take(&mut call.output);
    let number = on_slices(call, &mut output);
    call.output = output;
    number
}

fn on_slices(call: &UpscaleCall, output: &mut [i32]) -> u32 {
    let (input, len) = (call.input.as_ptr(), call.input.len());
    // SAFETY: both slices are that long; the mutable one is a buffer of its own.
    unsafe { cironetop_upscale_plane(call.scaling, input, len, output.as_mut_ptr(), output.len()) }
}
