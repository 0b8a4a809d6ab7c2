//! Jobs as they come: legal ones, ones with a number or a count off, bytes cut or added, any bytes.

use super::{frame_in_domain, plane_case, unrestored_case};
use crate::job::Job;
use crate::rng::Rng;

/// Heights at which a stripe or a unit starts or ends.
const HEIGHTS: [u32; 16] = [1, 2, 8, 27, 28, 55, 56, 57, 63, 64, 65, 96, 119, 120, 121, 128];

/// Jobs with a tale: value B; nothing; one byte; a count alone; the largest job, a byte less and a
/// byte more of it.
pub fn jobs_of_note() -> Vec<Vec<u8>> {
    let largest = Job { sections: [largest_frame(), vec![0; 20], vec![0; 1_024], vec![9; 1_024]] };
    let all = largest.bytes();
    let [mut less, mut more] = [all.clone(), all.clone()];
    less.pop();
    more.push(0);
    vec![value_b().bytes(), vec![], vec![8], vec![8, 0], all, less, more]
}

fn value_b() -> Job {
    let taps = [3, -7_i16 as u16, 15];
    let unit = [&[1], &taps[..], &taps, &[0, 0, 0]].concat();
    Job { sections: [vec![0, 0, 0, 8, 1, 7, 64, 1], unit, vec![0; 7], vec![0, 0, 0, 100, 0, 0, 0]] }
}

fn largest_frame() -> Vec<u16> {
    vec![0, 0, 0, 8, 128, 8, 64, 1]
}

/// The bytes of any job, or of none.
pub fn job_case(rng: &mut Rng) -> Vec<u8> {
    let job = legal_job(rng);
    match rng.below(12) {
        0..=3 => job.bytes(),
        4 | 5 => with_numbers_off(rng, job).bytes(),
        6 => with_section_off(rng, job).bytes(),
        7 => job.bytes_with(counts_off(rng, job.counts())),
        8 => cut_or_added(rng, job.bytes()),
        9 => too_large(rng, job).bytes(),
        10 => any_entries(rng, &job),
        _ => any_bytes(rng),
    }
}

/// A job within the bounds that no number is given for, but for a table of type 0 that is too long.
pub fn legal_job(rng: &mut Rng) -> Job {
    let width = 1 + rng.below(8);
    let height = match rng.below(3) {
        0 => 1 + rng.below(8),
        1 => 1 + rng.below(128),
        _ => rng.pick(&HEIGHTS),
    };
    let frame = frame_in_domain(rng, width, height);
    let case = if rng.one_in(10) { unrestored_case(rng, frame) } else { plane_case(rng, frame) };
    Job::new(&case)
}

/// One to three entries replaced: just past an end of a range, or anything.
fn with_numbers_off(rng: &mut Rng, mut job: Job) -> Job {
    for _ in 0..rng.pick(&[1, 1, 2, 3]) {
        let section = &mut job.sections[rng.pick(&[0, 0, 1, 1, 2, 3])];
        if section.is_empty() {
            continue;
        }
        let at = rng.below(section.len() as u32) as usize;
        let other = rng.draw() as u16;
        let next = section[at].wrapping_add(rng.pick(&[1, u16::MAX]));
        section[at] = match rng.below(4) {
            0 => 0,
            1 => other,
            2 => next,
            _ => rng.pick(&[2, 3, 4, 9, 32, 129, 256, 1_024, 4_096, 32_768, 65_535]),
        };
    }
    job
}

/// A section one entry, or a unit, longer or shorter, with its count.
fn with_section_off(rng: &mut Rng, mut job: Job) -> Job {
    let section = &mut job.sections[rng.below(4) as usize];
    let length = section.len();
    let other = rng.pick(&[
        length + 1,
        length.saturating_sub(1),
        length + 10,
        length.saturating_sub(10),
        0,
    ]);
    section.resize(other, 0);
    job
}

/// A count off by one, or anything, before the same entries.
fn counts_off(rng: &mut Rng, mut counts: [u16; 4]) -> [u16; 4] {
    let other = rng.draw() as u16;
    let count = &mut counts[rng.below(4) as usize];
    *count = rng.pick(&[count.wrapping_add(1), count.wrapping_sub(1), other]);
    counts
}

/// Bytes cut off the end, or added to it: one, a few, or many.
fn cut_or_added(rng: &mut Rng, mut bytes: Vec<u8>) -> Vec<u8> {
    let length = bytes.len();
    let some = rng.below(length as u32 + 1) as usize;
    let other =
        rng.pick(&[length - 1, length - 2, some, some, length + 1, length + 2, length + some]);
    let fill = rng.draw() as u8;
    bytes.resize(rng.pick(&[other, other, other, 4_160, 4_161]), fill);
    bytes
}

/// Past one of the bounds by a little, the form kept.
fn too_large(rng: &mut Rng, mut job: Job) -> Job {
    match rng.below(4) {
        0 => job.sections[0][5] = rng.pick(&[9, 10, 16, 65_535]),
        1 => job.sections[0][4] = rng.pick(&[129, 130, 256, 65_535]),
        2 => job.sections[1].resize(rng.pick(&[21, 30]), 0),
        _ => job.sections[rng.pick(&[2, 3])].resize(rng.pick(&[1_025, 1_030]), 0),
    }
    job
}

/// A frame's section, then any entries.
fn any_entries(rng: &mut Rng, job: &Job) -> Vec<u8> {
    let mut bytes = job.bytes();
    bytes.truncate(18);
    let length = rng.below(60);
    bytes.extend((0..length).map(|_| rng.pick(&[0, 0, 0, 1, 10]) as u8));
    bytes
}

/// Any bytes, now and then as many as a record holds.
fn any_bytes(rng: &mut Rng) -> Vec<u8> {
    let longest = if rng.one_in(40) { 63_000 } else { 300 };
    let length = rng.below(longest);
    (0..length).map(|_| rng.draw() as u8).collect()
}
