//! cironetop_restore_sample.

use crate::calls::SampleCall;

extern "C" {
    fn cironetop_restore_sample(
        depth: u32,
        row: u32,
        kind: i32,
        v0: i32,
        v1: i32,
        v2: i32,
        h0: i32,
        h1: i32,
        h2: i32,
        set: i32,
        w0: i32,
        w1: i32,
        window: *const u8,
        window_len: usize,
    ) -> i32;
}

/// The sample, or minus the number.
pub fn restore_sample(call: &SampleCall) -> i32 {
    let [kind, v0, v1, v2, h0, h1, h2, set, w0, w1] = call.unit;
    let (window, len) = (call.window.as_ptr(), call.window.len());
    // SAFETY: the window is that long, and the call only reads it.
    unsafe {
        cironetop_restore_sample(
            call.depth, call.row, kind, v0, v1, v2, h0, h1, h2, set, w0, w1, window, len,
        )
    }
}
