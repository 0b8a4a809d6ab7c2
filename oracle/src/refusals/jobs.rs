//! Jobs: 18 for a longer input, 17 for no job, 18 over another bound, then the whole plane's numbers.

use crate::calls::PlaneCall;
use crate::frame::Frame;
use crate::job::Job;

/// The scratch of the job program.
const SCRATCH: usize = 6_912;

/// The number that the job program prints for these bytes, or the call that it makes.
pub fn job_number(bytes: &[u8]) -> Result<PlaneCall, u32> {
    if bytes.len() > 4_160 {
        return Err(18);
    }
    let job = Job::read(bytes).ok_or(17_u32)?;
    if over(&job) {
        return Err(18);
    }
    let call = plane_call(&job);
    match call.number() {
        0 => Ok(call),
        number => Err(number),
    }
}

/// 8 wide, 128 high, 20 numbers of units, 1,024 samples a plane.
fn over(job: &Job) -> bool {
    let [frame, units, deblocked, cdef] = &job.sections;
    frame[5] > 8
        || frame[4] > 128
        || units.len() > 20
        || deblocked.len() > 1_024
        || cdef.len() > 1_024
}

fn plane_call(job: &Job) -> PlaneCall {
    let [frame, units, deblocked, cdef] = &job.sections;
    let plain = |entries: &[u16]| entries.iter().map(|&entry| i32::from(entry)).collect();
    PlaneCall {
        frame: Frame {
            plane: frame[0].into(),
            sub_x: frame[1].into(),
            sub_y: frame[2].into(),
            depth: frame[3].into(),
            frame_height: frame[4].into(),
            upscaled_width: frame[5].into(),
            unit_size: frame[6].into(),
            frame_type: frame[7].into(),
        },
        units: units.iter().map(|&entry| i32::from(entry as i16)).collect(),
        deblocked: plain(deblocked),
        cdef: plain(cdef),
        out: vec![0; cdef.len()],
        scratch: vec![0; SCRATCH],
    }
}
