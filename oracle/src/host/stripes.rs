//! cironetop_restore_stripe.

use super::lent::Lent;
use crate::calls::StripeCall;
use crate::frame::Frame;
use std::mem::take;

/// Margins of marks: no legal mark.
const NO_MARK: u8 = 0xa5;

extern "C" {
    fn cironetop_restore_stripe(
        f: Frame,
        stripe: u32,
        units: *const i32,
        units_len: usize,
        edges: *const i32,
        edges_len: usize,
        plane: *mut i32,
        plane_len: usize,
        marks: *mut u8,
        marks_len: usize,
        scratch: *mut i32,
        scratch_len: usize,
        copy: *mut i32,
        copy_len: usize,
    ) -> u32;
}

/// The call between margins that no call may touch.
pub fn restore_stripe(call: &mut StripeCall) -> u32 {
    let mut plane = Lent::new(&call.plane, i32::MIN);
    let mut marks = Lent::new(&call.marks, NO_MARK);
    let mut scratch = Lent::new(&call.scratch, i32::MIN);
    let mut copy = Lent::new(&call.copy, i32::MIN);
    let rooms = (scratch.numbers(), copy.numbers());
    let number = on_slices(call, plane.numbers(), marks.numbers(), rooms);
    call.plane = plane.back(i32::MIN);
    call.marks = marks.back(NO_MARK);
    call.scratch = scratch.back(i32::MIN);
    call.copy = copy.back(i32::MIN);
    number
}

/// The call on its own slices, with nothing copied: what can be timed.
pub fn restore_stripe_bare(call: &mut StripeCall) -> u32 {
    let (mut plane, mut marks) = (take(&mut call.plane), take(&mut call.marks));
    let (mut scratch, mut copy) = (take(&mut call.scratch), take(&mut call.copy));
    let number = on_slices(call, &mut plane, &mut marks, (&mut scratch, &mut copy));
    (call.plane, call.marks, call.scratch, call.copy) = (plane, marks, scratch, copy);
    number
}

fn on_slices(
    call: &StripeCall,
    plane: &mut [i32],
    marks: &mut [u8],
    (scratch, copy): (&mut [i32], &mut [i32]),
) -> u32 {
    // SAFETY: every slice is that long; the mutable ones are buffers of their own.
    unsafe {
        cironetop_restore_stripe(
            call.frame,
            call.stripe,
            call.units.as_ptr(),
            call.units.len(),
            call.edges.as_ptr(),
            call.edges.len(),
            plane.as_mut_ptr(),
            plane.len(),
            marks.as_mut_ptr(),
            marks.len(),
            scratch.as_mut_ptr(),
            scratch.len(),
            copy.as_mut_ptr(),
            copy.len(),
        )
    }
}
