//! The table of refusals by itself: its stripes are the reference's, legal calls have no number, and
//! the damaged calls that the comparisons make have every number of their lists.

use oracle::calls::{CaptureCall, PlaneCall, SampleCall, StripeCall, UpscaleCall};
use oracle::cases::{
    copy_case, frame_around, frame_at_edges, job_case, jobs_of_note, legal_job, plane_case,
    sample_case, unrestored_case, upscale_case, PlaneCase,
};
use oracle::damage::{damage_capture, damage_plane, damage_sample, damage_scaling, damage_stripe};
use oracle::in_place;
use oracle::job::Job;
use oracle::refusals::{
    job_number, own_rows, stripes, OF_CAPTURE, OF_JOB, OF_PLANE, OF_SAMPLE, OF_STRIPE, OF_UPSCALE,
};
use oracle::rng::Rng;
use std::collections::BTreeSet;

fn small_case(rng: &mut Rng) -> PlaneCase {
    let (width, height) = (1 + rng.below(12), 1 + rng.below(140));
    let frame = frame_around(rng, width, height);
    if rng.one_in(8) {
        unrestored_case(rng, frame)
    } else {
        plane_case(rng, frame)
    }
}

fn small_upscale(rng: &mut Rng) -> UpscaleCall {
    let u = 2 + rng.below(40);
    let (d, height) = (1 + rng.below(u - 1), 1 + rng.below(6));
    let copied = rng.one_in(4);
    let case = if copied { copy_case(rng, height, u) } else { upscale_case(rng, d, u, height) };
    UpscaleCall::new(rng, case.scaling, case.input)
}

/// The numbers that 4,000 calls have.
fn numbers(topic: &str, number: impl Fn(&mut Rng, usize) -> u32) -> BTreeSet<u32> {
    (0..4_000).map(|index| number(&mut Rng::for_case(topic, index), index)).collect()
}

fn set(numbers: &[u32]) -> BTreeSet<u32> {
    numbers.iter().copied().collect()
}

#[test]
fn stripes_are_the_references_and_hold_each_row_once() {
    for index in 0..2_000 {
        let frame = frame_at_edges(&mut Rng::for_case("stripes of a frame", index));
        assert_eq!(stripes(&frame), in_place::stripe_count(&frame), "{frame:?}");
        let rows: Vec<usize> = (0..stripes(&frame)).flat_map(|s| own_rows(&frame, s)).collect();
        assert_eq!(rows, (0..frame.height()).collect::<Vec<_>>(), "{frame:?}");
    }
}

#[test]
fn legal_calls_have_no_number() {
    for index in 0..500 {
        let mut rng = Rng::for_case("legal calls", index);
        let case = small_case(&mut rng);
        let edges = in_place::capture_edges(&case.frame, &case.deblocked);
        assert_eq!(PlaneCall::new(&mut rng, &case).number(), 0, "{:?}", case.frame);
        assert_eq!(CaptureCall::new(&mut rng, &case).number(), 0, "{:?}", case.frame);
        assert_eq!(StripeCall::new(&mut rng, &case, edges).number(), 0, "{:?}", case.frame);
        assert_eq!(small_upscale(&mut rng).number(), 0);
        assert_eq!(SampleCall::new(&sample_case(&mut rng, index)).number(), 0);
    }
}

#[test]
fn damaged_planes_have_every_number() {
    let found = numbers("damaged planes", |rng, _| {
        let case = small_case(rng);
        let mut call = PlaneCall::new(rng, &case);
        damage_plane(rng, &mut call);
        call.number()
    });
    assert_eq!(found, set(OF_PLANE));
}

#[test]
fn damaged_stripes_and_captures_have_every_number() {
    let of_capture = numbers("damaged captures", |rng, _| {
        let case = small_case(rng);
        let mut call = CaptureCall::new(rng, &case);
        damage_capture(rng, &mut call);
        call.number()
    });
    let of_stripe = numbers("damaged stripes", |rng, _| {
        let case = small_case(rng);
        let edges = in_place::capture_edges(&case.frame, &case.deblocked);
        let mut call = StripeCall::new(rng, &case, edges);
        call.stripe = rng.below(call.marks.len() as u32);
        damage_stripe(rng, &mut call);
        call.number()
    });
    assert_eq!((of_capture, of_stripe), (set(OF_CAPTURE), set(OF_STRIPE)));
}

#[test]
fn jobs_have_every_number_and_are_read_back() {
    let found = numbers("jobs", |rng, _| job_number(&job_case(rng)).err().unwrap_or(0));
    assert_eq!(found, set(OF_JOB));
    let notes: Vec<u32> =
        jobs_of_note().iter().map(|bytes| job_number(bytes).err().unwrap_or(0)).collect();
    assert_eq!(notes, [0, 17, 17, 17, 0, 17, 18]);
    for index in 0..500 {
        let job = legal_job(&mut Rng::for_case("read back", index));
        assert_eq!(Job::read(&job.bytes()), Some(job));
    }
}

#[test]
fn damaged_scalings_and_samples_have_every_number() {
    let of_upscale = numbers("damaged scalings", |rng, _| {
        let mut call = small_upscale(rng);
        damage_scaling(rng, &mut call);
        call.number()
    });
    let of_sample = numbers("damaged samples", |rng, index| {
        let mut call = SampleCall::new(&sample_case(rng, index));
        damage_sample(rng, &mut call);
        call.number()
    });
    assert_eq!((of_upscale, of_sample), (set(OF_UPSCALE), set(OF_SAMPLE)));
}
