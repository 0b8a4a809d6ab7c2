//! cironetop_restore_plane.

use super::lent::Lent;
use crate::calls::PlaneCall;
use crate::frame::Frame;
use std::mem::take;

#[repr(C)]
#[derive(Clone, Copy, Debug, PartialEq, Eq)]
pub struct Restored {
    pub number: u32,
    pub changed: u32,
}

extern "C" {
    fn cironetop_restore_plane(
        f: Frame,
        units: *const i32,
        units_len: usize,
        deblocked: *const i32,
        deblocked_len: usize,
        cdef: *const i32,
        cdef_len: usize,
        out: *mut i32,
        out_len: usize,
        scratch: *mut i32,
        scratch_len: usize,
    ) -> Restored;
}

/// The call between margins that no call may touch.
pub fn restore_plane(call: &mut PlaneCall) -> Restored {
    let mut out = Lent::new(&call.out, i32::MIN);
    let mut scratch = Lent::new(&call.scratch, i32::MIN);
    let answer = on_slices(call, out.numbers(), scratch.numbers());
    call.out = out.back(i32::MIN);
    call.scratch = scratch.back(i32::MIN);
    answer
}

/// The call on its own slices, with nothing copied: what can be timed.
pub fn restore_plane_bare(call: &mut PlaneCall) -> Restored {
    let (mut out, mut scratch) = (take(&mut call.out), take(&mut call.scratch));
    let answer = on_slices(call, &mut out, &mut scratch);
    (call.out, call.scratch) = (out, scratch);
    answer
}

fn on_slices(call: &PlaneCall, out: &mut [i32], scratch: &mut [i32]) -> Restored {
    // SAFETY: every slice is that long; both mutable ones are buffers of their own.
    unsafe {
        cironetop_restore_plane(
            call.frame,
            call.units.as_ptr(),
            call.units.len(),
            call.deblocked.as_ptr(),
            call.deblocked.len(),
            call.cdef.as_ptr(),
            call.cdef.len(),
            out.as_mut_ptr(),
            out.len(),
            scratch.as_mut_ptr(),
            scratch.len(),
        )
    }
}
