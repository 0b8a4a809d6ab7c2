//! The recorded answers: the same on every run, inside the domain, and of every kind.

use oracle::frame::{legal_unit_sizes, Frame, DEPTHS, LARGEST_SIDE, SUBSAMPLINGS};
use oracle::records::{folder, recorded};
use oracle::refusals::OF_JOB;
use oracle::units::{uses, ENTRY, RANGES};
use std::collections::BTreeSet;

fn records_of(name: &str) -> Vec<Vec<u16>> {
    let all = recorded();
    let file = all.iter().find(|one| one.name == name).expect("the file is recorded");
    file.records.iter().map(|record| record.entries().to_vec()).collect()
}

fn signed(entries: &[u16]) -> Vec<i32> {
    entries.iter().map(|&entry| i32::from(entry as i16)).collect()
}

/// Reads a section at `at`, which moves past it.
fn section<'a>(record: &'a [u16], at: &mut usize) -> &'a [u16] {
    let count = usize::from(record[*at]);
    let found = &record[*at + 1..*at + 1 + count];
    *at += 1 + count;
    found
}

fn frame(record: &[u16]) -> Frame {
    let number = |i: usize| u32::from(record[i]);
    Frame {
        plane: number(0),
        sub_x: number(1),
        sub_y: number(2),
        depth: number(3),
        frame_height: number(4),
        upscaled_width: number(5),
        unit_size: number(6),
        frame_type: number(7),
    }
}

fn assert_in_domain(frame: &Frame) {
    let sub = (frame.sub_x, frame.sub_y);
    assert!(frame.plane < 3 && SUBSAMPLINGS.contains(&sub) && DEPTHS.contains(&frame.depth));
    for side in [frame.frame_height, frame.upscaled_width] {
        assert!((1..=LARGEST_SIDE).contains(&side), "{frame:?}");
    }
    assert!(frame.frame_type < 4);
    if frame.frame_type > 0 {
        assert!(legal_unit_sizes(frame.plane, sub).contains(&frame.unit_size), "{frame:?}");
    }
}

fn assert_legal(entry: &[i32]) {
    assert!((0..3).contains(&entry[0]));
    for number in (1..ENTRY).filter(|&number| uses(entry[0], number)) {
        let (low, high) = RANGES[number - 1];
        assert!((low..=high).contains(&entry[number]), "{entry:?}");
    }
}

fn assert_samples(samples: &[u16], depth: u32) {
    assert!(samples.iter().all(|&sample| u32::from(sample) < 1 << depth));
}

#[test]
fn two_runs_give_the_same_bytes() {
    assert!(folder() == folder());
}

#[test]
fn records_fit_and_so_does_the_folder() {
    for file in recorded() {
        assert!(file.records.iter().all(|record| record.bytes().len() <= 65_536));
    }
    let total: usize = folder().iter().map(|(_, bytes)| bytes.len()).sum();
    assert!(total < 3_000_000);
}

#[test]
fn planes_are_of_every_kind() {
    let mut seen = BTreeSet::new();
    for record in records_of("planes.rec") {
        let frame = frame(&record);
        assert_in_domain(&frame);
        let mut at = 8;
        let units = signed(section(&record, &mut at));
        let planes: Vec<_> = (0..3).map(|_| section(&record, &mut at)).collect();
        for plane in &planes {
            assert_eq!(plane.len(), frame.samples());
            assert_samples(plane, frame.depth);
        }
        let changed = planes[1].iter().zip(planes[2]).filter(|(a, b)| a != b).count();
        assert_eq!(record[at..], [changed as u16]);
        if frame.frame_type > 0 {
            assert_eq!(units.len(), ENTRY * frame.units());
            units.chunks(ENTRY).for_each(assert_legal);
            seen.insert(("unit size", frame.unit_size));
            seen.extend(units.chunks(ENTRY).map(|entry| ("type", entry[0] as u32)));
            seen.extend(
                units
                    .chunks(ENTRY)
                    .filter(|entry| entry[0] == 2)
                    .map(|entry| ("set", entry[7] as u32)),
            );
        }
        seen.insert(("frame type", frame.frame_type));
        seen.insert(("depth", frame.depth));
        seen.insert(("plane and subsampling", 4 * frame.plane + 2 * frame.sub_x + frame.sub_y));
    }
    let kinds = |name| seen.iter().filter(|(kind, _)| *kind == name).count();
    let found =
        ["unit size", "type", "set", "frame type", "depth", "plane and subsampling"].map(kinds);
    assert_eq!(found, [4, 3, 16, 4, 3, 9]);
}

#[test]
fn stripes_are_in_the_domain() {
    for record in records_of("stripes.rec") {
        let frame = frame(&record);
        assert_in_domain(&frame);
        let mut at = 8;
        let units = signed(section(&record, &mut at));
        let edges = section(&record, &mut at);
        let before = section(&record, &mut at);
        let order = section(&record, &mut at);
        let after = section(&record, &mut at);
        assert_eq!(at, record.len());
        for samples in [edges, before, after] {
            assert_samples(samples, frame.depth);
        }
        let stripes = 1 + edges.len() / (4 * frame.width());
        assert!(order.iter().all(|&stripe| usize::from(stripe) < stripes));
        assert_eq!(order.iter().collect::<BTreeSet<_>>().len(), order.len());
        assert_eq!([before.len(), after.len()], [frame.samples(); 2]);
        if frame.frame_type > 0 {
            assert_eq!(units.len(), ENTRY * frame.units());
            units.chunks(ENTRY).for_each(assert_legal);
        }
    }
}

#[test]
fn samples_are_of_every_kind() {
    let mut seen = BTreeSet::new();
    for record in records_of("samples.rec") {
        assert_eq!(record.len(), 62);
        let unit = signed(&record[2..12]);
        assert_legal(&unit);
        assert_samples(&record[12..], u32::from(record[0]));
        let set = if unit[0] == 2 { unit[7] } else { 0 };
        seen.insert((record[0], record[1] % 2, unit[0], set));
    }
    // Three depths, odd and even, types none and Wiener and sixteen sets of self-guided.
    assert_eq!(seen.len(), 3 * 2 * (2 + 16));
}

#[test]
fn upscaling_is_in_the_domain() {
    for record in records_of("upscale.rec") {
        let [plane, sub_x, sub_y, depth, width, upscaled, height, flag, rows, cols, out_rows, out_cols] =
            std::array::from_fn(|i| u32::from(record[i]));
        assert!(plane < 3 && SUBSAMPLINGS.contains(&(sub_x, sub_y)) && DEPTHS.contains(&depth));
        for side in [width, upscaled, height] {
            assert!((1..=LARGEST_SIDE).contains(&side));
        }
        assert!(flag == 0 || upscaled >= width);
        assert!(rows <= LARGEST_SIDE && cols <= LARGEST_SIDE + 8);
        let mut at = 12;
        let input = section(&record, &mut at);
        let output = section(&record, &mut at);
        assert_eq!(at, record.len());
        assert_eq!((input.len() as u32, output.len() as u32), (rows * cols, out_rows * out_cols));
        assert_samples(input, depth);
        assert_samples(output, depth);
    }
}

#[test]
fn rectangles_and_blocks_are_in_the_domain() {
    for (name, length) in [("rectangles.rec", 23), ("blocks.rec", 18)] {
        for record in records_of(name) {
            assert_eq!(record.len(), length);
            let [plane, sub_x, sub_y, frame_height, upscaled_width, unit_size] =
                std::array::from_fn(|i| u32::from(record[i]));
            assert_in_domain(&Frame {
                plane,
                sub_x,
                sub_y,
                depth: 8,
                frame_height,
                upscaled_width,
                unit_size,
                frame_type: 1,
            });
        }
    }
}

#[test]
fn edges_are_in_the_domain() {
    for record in records_of("edges.rec") {
        let frame = frame(&record);
        assert_in_domain(&frame);
        let mut at = 8;
        let deblocked = section(&record, &mut at);
        let edges = section(&record, &mut at);
        assert_eq!(at, record.len());
        assert_eq!(deblocked.len(), frame.samples());
        assert_eq!(edges.len() % (4 * frame.width()), 0);
        assert_samples(deblocked, frame.depth);
    }
}

#[test]
fn jobs_are_of_every_kind_and_differ_nowhere_in_place() {
    let records = records_of("jobs.rec");
    let mut numbers = BTreeSet::new();
    let mut done = 0;
    for record in &records {
        let mut at = 1 + usize::from(record[0]).div_ceil(2);
        numbers.insert(u32::from(record[at]));
        if record[at] == 0 {
            let samples = usize::from(record[at + 2]) * usize::from(record[at + 3]);
            at += 6;
            assert_eq!(section(record, &mut at).len(), samples);
            assert_eq!(record[at], 0, "the reference's two ways agree");
            done += 1;
        }
        assert_eq!(at + 1, record.len());
    }
    assert!(records.len() > 300 && done > 100);
    assert_eq!(numbers, OF_JOB.iter().copied().collect());
}
