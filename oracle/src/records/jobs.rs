//! Jobs and what the job program answers: the reference's plane, or document 01's number.

use super::{Record, Recorded};
use crate::calls::PlaneCall;
use crate::cases::{job_case, jobs_of_note};
use crate::in_place::{capture_edges, restore_stripes, stripe_count};
use crate::refusals::job_number;
use crate::rng::Rng;
use crate::whole_plane::{changed, restore};

const RECORDS: usize = 360;

pub fn recorded() -> Recorded {
    Recorded {
        name: "jobs.rec",
        what: "a job as bytes, and what the job program answers: refused ones too, with document \
               01's number",
        body: "the job's length in bytes; its bytes, two an entry, a last one alone with 0; the \
               number; where it is 0: plane, width, height, stripes, `changed`; section restored; \
               samples by which the in-place run differs",
        records: jobs_of_note().into_iter().chain(cases("jobs", 0, RECORDS)).map(record).collect(),
    }
}

/// Records of `count` other jobs, from number `from` on.
pub fn other_jobs(from: usize, count: usize) -> impl Iterator<Item = Record> {
    cases("other jobs", from, count).map(record)
}

fn cases(topic: &str, from: usize, count: usize) -> impl Iterator<Item = Vec<u8>> + '_ {
    (from..from + count).map(move |index| job_case(&mut Rng::for_case(topic, index)))
}

fn record(bytes: Vec<u8>) -> Record {
    let mut record = Record::default();
    record.number(bytes.len() as i32);
    for pair in bytes.chunks(2) {
        let high = pair.get(1).copied().unwrap_or(0);
        record.number(i32::from(u16::from_le_bytes([pair[0], high])));
    }
    match job_number(&bytes) {
        Err(number) => record.number(number as i32),
        Ok(call) => answer(&mut record, &call),
    }
    record
}

fn answer(record: &mut Record, call: &PlaneCall) {
    let PlaneCall { frame, units, deblocked, cdef, .. } = call;
    let restored = restore(frame, units, deblocked, cdef);
    let mut in_place = cdef.clone();
    let stripes: Vec<usize> = (0..stripe_count(frame)).collect();
    restore_stripes(frame, units, &capture_edges(frame, deblocked), &mut in_place, &stripes);
    record.number(0);
    let [plane, width, height] = [frame.plane as usize, frame.width(), frame.height()];
    record.numbers(
        &[plane, width, height, stripes.len(), changed(cdef, &restored)].map(|n| n as i32),
    );
    record.section(&restored);
    record.number(changed(&restored, &in_place) as i32);
}
