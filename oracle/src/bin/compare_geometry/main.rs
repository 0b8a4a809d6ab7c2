//! Counts and rectangles of the library against the reference and against document 01's table.

use oracle::cases::frame_in_domain;
use oracle::damage::damage_frame;
use oracle::frame::{legal_unit_sizes, Frame, SUBSAMPLINGS};
use oracle::geometry::{counts, rectangles};
use oracle::host::{count, rectangle, Counted, Placed};
use oracle::refusals::{count_number, rectangle_number, OF_COUNT, OF_RECTANGLE};
use oracle::report::{compare, Options, Report};
use oracle::rng::Rng;
use std::process::ExitCode;

/// Sides that go with every side of the other axis: around stripes and around units of every size.
const SIDES: [u32; 20] =
    [1, 2, 3, 27, 28, 47, 48, 55, 56, 57, 64, 95, 96, 119, 120, 121, 191, 192, 384, 577];
const LARGE: [u32; 5] = [16_384, 16_383, 16_352, 8_193, 4_097];

fn main() -> ExitCode {
    compare("compare_geometry", |options, report| {
        small_frames(options, report);
        large_frames(options, report);
        damaged_frames(options, report);
        report.saw_all("count", OF_COUNT);
        report.saw_all("rectangle", OF_RECTANGLE);
    })
}

/// Every legal plane, subsampling and unit size for two sides.
fn legal_frames(height: u32, width: u32) -> impl Iterator<Item = Frame> {
    let pairs = (0..3).flat_map(|plane| SUBSAMPLINGS.map(|sub| (plane, sub)));
    pairs.flat_map(move |(plane, sub)| {
        legal_unit_sizes(plane, sub).iter().map(move |&unit_size| Frame {
            plane,
            sub_x: sub.0,
            sub_y: sub.1,
            depth: 8,
            frame_height: height,
            upscaled_width: width,
            unit_size,
            frame_type: 1,
        })
    })
}

/// Each side up to 300 with each side of note, across and down: all indices.
fn small_frames(options: &Options, report: &mut Report) {
    let mut rng = Rng::for_case("compare small frames", 0);
    let sides = (1..=300).flat_map(|side| SIDES.map(|other| (side, other)));
    for (_, (side, other)) in sides.enumerate().filter(|(index, _)| options.takes(*index, 37)) {
        for frame in legal_frames(side, other).chain(legal_frames(other, side)) {
            let all = counts(&frame).rectangles;
            legal_frame(&mut rng, report, frame, 0..all);
        }
    }
}

/// Sides at the end of the domain: the first, the last and some others.
fn large_frames(options: &Options, report: &mut Report) {
    let mut rng = Rng::for_case("compare large frames", 0);
    let sides = LARGE.iter().flat_map(|&side| [1, 57, 300, side].map(|other| (side, other)));
    for (_, (side, other)) in sides.enumerate().filter(|(index, _)| options.takes(*index, 5)) {
        for (height, width) in [(side, other), (other, side)] {
            for frame in legal_frames(height, width) {
                let last = counts(&frame).rectangles - 1;
                let some: Vec<u32> =
                    (0..200).map(|_| rng.below(last + 1)).chain([0, last]).collect();
                legal_frame(&mut rng, report, frame, some.into_iter());
            }
        }
    }
}

/// Depth and frame type are not looked at: the library gets any, the reference legal ones.
fn legal_frame(
    rng: &mut Rng,
    report: &mut Report,
    frame: Frame,
    indices: impl Iterator<Item = u32>,
) {
    let (depth, frame_type) = (rng.draw() as u32, rng.draw() as u32);
    let given = Frame { depth, frame_type, ..frame };
    let places = rectangles(&frame);
    let all = places.len() as u32;
    report.same(&count(given), &Counted::done(&counts(&frame)), || format!("count of {given:?}"));
    for index in indices {
        let expected = Placed::done(&places[index as usize]);
        report.same(&rectangle(given, index), &expected, || {
            format!("rectangle {index} of {given:?}")
        });
        report.count("rectangles", 1);
    }
    for index in [all, all + 1, all + rng.below(u32::MAX - all), u32::MAX] {
        report.same(&rectangle(given, index), &Placed::refused(13), || {
            format!("rectangle {index} past {given:?}")
        });
    }
    report.count("frames", 1);
    report.saw("count", 0);
    report.saw("rectangle", 0);
    report.saw("rectangle", 13);
}

/// Frames with up to three numbers made wrong.
fn damaged_frames(options: &Options, report: &mut Report) {
    for case in options.cases(20_000, 400_000) {
        let mut rng = Rng::for_case("compare damaged frames", case);
        let (width, height) = (1 + rng.below(600), 1 + rng.below(600));
        let mut frame = frame_in_domain(&mut rng, width, height);
        for _ in 0..1 + rng.below(3) {
            damage_frame(&mut rng, &mut frame);
        }
        let index = rng.pick(&[0, 1, 30, 1_000, u32::MAX]);
        let (of_count, of_rectangle) = (count_number(&frame), rectangle_number(&frame, index));
        let plain = Frame { depth: 8, frame_type: 1, ..frame };
        let expected = match of_count {
            0 => Counted::done(&counts(&plain)),
            number => Counted::refused(number),
        };
        report.same(&count(frame), &expected, || format!("count of {frame:?}"));
        let expected = match of_rectangle {
            0 => Placed::done(&rectangles(&plain)[index as usize]),
            number => Placed::refused(number),
        };
        report.same(&rectangle(frame, index), &expected, || {
            format!("rectangle {index} of {frame:?}")
        });
        report.saw("count", of_count);
        report.saw("rectangle", of_rectangle);
        report.count("damaged frames", 1);
    }
}
