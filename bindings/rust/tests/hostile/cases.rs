//! Calls that are legal, or nearly, and ways to make them wrong.

use crate::call::{Call, Kind};
use crate::rng::Rng;
use cironetop::{count, Frame, Unit};

const SUBSAMPLINGS: &[(u32, u32)] = &[(0, 0), (1, 0), (1, 1)];

pub fn any(rng: &mut Rng, kind: Kind) -> Call {
    let mut call =
        Call { kind, numbers: Vec::new(), entry: [0; 10], slices: Vec::new(), bytes: Vec::new() };
    match kind {
        Kind::Sample => sample(rng, &mut call),
        Kind::Upscale => upscale(rng, &mut call),
        _ => restoration(rng, &mut call),
    }
    call
}

fn sample(rng: &mut Rng, call: &mut Call) {
    call.numbers = vec![rng.pick(&[8, 10, 12]), rng.draw() as u32];
    call.entry = unit(rng).entry();
    call.bytes = (0..98).map(|place| if place % 2 == 0 { rng.draw() as u8 } else { 0 }).collect();
}

fn unit(rng: &mut Rng) -> Unit {
    let mut taps = || [rng.between(-5, 10), rng.between(-23, 8), rng.between(-17, 46)];
    let (vertical, horizontal) = (taps(), taps());
    let (set, w0, w1) = (rng.between(0, 15), rng.between(-96, 31), rng.between(-32, 95));
    let wiener = Unit::Wiener { vertical, horizontal };
    rng.pick(&[Unit::None, wiener, Unit::SelfGuided { set, w0, w1 }])
}

fn restoration(rng: &mut Rng, call: &mut Call) {
    let (sub_x, sub_y) = rng.pick(SUBSAMPLINGS);
    let frame = Frame {
        plane: rng.below(3) as u32,
        sub_x,
        sub_y,
        depth: rng.pick(&[8, 10, 12]),
        frame_height: 1 + rng.below(140) as u32,
        upscaled_width: 1 + rng.below(40) as u32,
        unit_size: rng.pick(&[64, 64, 128, 256]),
        frame_type: rng.pick(&[0, 1, 2, 3, 3, 3]),
    };
    let (lengths, counts) = (frame.lengths().expect("legal"), count(frame).expect("legal"));
    let units: Vec<_> = (0..counts.table() / 10).map(|_| unit(rng)).collect();
    let mut plane = |length| -> Vec<_> { (0..length).map(|_| rng.between(0, 255)).collect() };
    call.slices = match call.kind {
        Kind::Plane => [lengths.plane, lengths.plane, lengths.plane, lengths.scratch].to_vec(),
        Kind::Capture => [lengths.plane, lengths.edges].to_vec(),
        Kind::Stripe => [lengths.edges, lengths.plane, lengths.scratch, lengths.copy].to_vec(),
        _ => Vec::new(),
    }
    .into_iter()
    .map(&mut plane)
    .collect();
    if matches!(call.kind, Kind::Plane | Kind::Stripe) {
        call.slices.insert(0, Unit::table(&units));
    }
    let index = rng
        .below(if call.kind == Kind::Stripe { counts.stripes } else { counts.rectangles } as usize);
    call.numbers = numbers(&frame, index as u32);
    if call.kind == Kind::Stripe {
        call.bytes =
            (0..lengths.marks).map(|mark| u8::from(mark != index && rng.below(2) == 0)).collect();
    }
}

fn numbers(f: &Frame, index: u32) -> Vec<u32> {
    let sides = [f.frame_height, f.upscaled_width, f.unit_size, f.frame_type, index];
    [&[f.plane, f.sub_x, f.sub_y, f.depth][..], &sides].concat()
}

/// Now and then a copy, or widths of which the plane's do not grow.
fn upscale(rng: &mut Rng, call: &mut Call) {
    let (plane, (sub_x, sub_y)) = (rng.below(3) as u32, rng.pick(SUBSAMPLINGS));
    let extent = |side: u32, sub: u32| if plane > 0 { side.div_ceil(1 << sub) } else { side };
    let (width, height) = (1 + rng.below(40) as u32, 1 + rng.below(9) as u32);
    let wider = width + rng.pick(&[0, 1, 1, 2, 7, width]);
    let rows = extent(height, sub_y);
    let (input, output) = (extent(width, sub_x) + rng.pick(&[0, 0, 3]), extent(wider, sub_x));
    let frame = [plane, sub_x, sub_y, rng.pick(&[8, 10, 12]), width, wider, height];
    call.numbers = [&frame[..], &[rng.pick(&[0, 1, 1, 1, 2]), rows, input, rows, output]].concat();
    let mut samples =
        |length: u32| -> Vec<_> { (0..length).map(|_| rng.between(0, 255)).collect() };
    call.slices = vec![samples(rows * input), samples(rows * output)];
}

/// One to three arguments made other: a number, a length, an element.
pub fn damage(rng: &mut Rng, call: &mut Call) {
    for _ in 0..rng.pick(&[1, 1, 1, 2, 2, 3]) {
        match rng.below(6) {
            0 | 1 => damage_number(rng, call),
            2 => damage_length(rng, call),
            3 | 4 => damage_element(rng, call),
            _ => call.entry[rng.below(10)] = element(rng),
        }
    }
}

fn damage_number(rng: &mut Rng, call: &mut Call) {
    let other = rng.draw() as u32;
    let small = rng.pick(&[0, 1, 2, 3, 4, 5, 7, 8, 9, 10, 11, 12, 16, 32, 33, 63, 64, 65, 128]);
    let large = rng.pick(&[256, 257, 16_384, 16_385, 65_536, 1 << 31, u32::MAX, other]);
    let place = rng.below(call.numbers.len());
    call.numbers[place] = rng.pick(&[small, small, large]);
}

fn damage_length(rng: &mut Rng, call: &mut Call) {
    let lengths = |rng: &mut Rng, length: usize| {
        let less = length.saturating_sub(1);
        rng.pick(&[0, length / 2, less, less, length + 1, length + 10, 2 * length])
    };
    if !call.bytes.is_empty() && (call.slices.is_empty() || rng.below(6) == 0) {
        let other = lengths(rng, call.bytes.len());
        call.bytes.resize(other, 0);
    } else if !call.slices.is_empty() {
        let place = rng.below(call.slices.len());
        let other = lengths(rng, call.slices[place].len());
        call.slices[place].resize(other, 0);
    }
}

fn damage_element(rng: &mut Rng, call: &mut Call) {
    if !call.bytes.is_empty() && (call.slices.is_empty() || rng.below(3) == 0) {
        let place = rng.below(call.bytes.len());
        call.bytes[place] = rng.pick(&[1, 1, 2, 4, 16, 255]);
    } else if !call.slices.is_empty() {
        let place = rng.below(call.slices.len());
        if !call.slices[place].is_empty() {
            let at = rng.below(call.slices[place].len());
            call.slices[place][at] = element(rng);
        }
    }
}

/// Around the ends of samples' and entries' ranges, and far out.
fn element(rng: &mut Rng) -> i32 {
    let other = rng.draw() as i32;
    let near = rng.pick(&[-1, 3, -6, 11, -24, 9, -18, 47, 16, -97, 32, -33, 96]);
    let far = rng.pick(&[256, 1_024, 4_096, 65_535, 65_536, i32::MAX, i32::MIN, other]);
    rng.pick(&[near, far])
}
