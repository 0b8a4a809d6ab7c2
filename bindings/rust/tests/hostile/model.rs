//! Document 01's table, from the document alone: the number that a call has to give.

use crate::call::{scaling, Call, Kind};
use cironetop::{Frame, Scaling};

/// The numbers that a call may give.
pub fn numbers(kind: Kind) -> &'static [u32] {
    match kind {
        Kind::Sample => &[0, 1, 7, 11, 15],
        Kind::Plane => &[0, 1, 2, 3, 4, 5, 7, 10, 11, 15, 16],
        Kind::Capture => &[0, 1, 2, 4, 7, 9, 15],
        Kind::Stripe => &[0, 1, 2, 3, 4, 5, 7, 9, 10, 11, 12, 13, 14, 15, 16],
        Kind::Upscale => &[0, 1, 2, 4, 6, 7, 8, 15],
        Kind::Count => &[0, 2, 4, 5],
        Kind::Rectangle => &[0, 2, 4, 5, 13],
    }
}

/// The lowest number whose condition holds. Conditions from 7 on may rely on a legal frame, so they
/// are asked in order.
pub fn number(call: &Call) -> u32 {
    let asked = numbers(call.kind).iter().copied().skip(1);
    asked.into_iter().find(|&number| holds(call, number)).unwrap_or(0)
}

fn holds(call: &Call, number: u32) -> bool {
    match call.kind {
        Kind::Sample => sample(call, number),
        Kind::Upscale => upscale(call, &scaling(&call.numbers), number),
        _ => restoration(call, &call.frame(), number),
    }
}

fn sample(call: &Call, number: u32) -> bool {
    let depth = call.numbers[0];
    match number {
        1 => bad_depth(depth),
        7 => call.bytes.len() != 98,
        11 => !legal_entry(&call.entry),
        _ => call.bytes.chunks(2).any(|pair| u16::from_le_bytes([pair[0], pair[1]]) >> depth > 0),
    }
}

fn restoration(call: &Call, f: &Frame, number: u32) -> bool {
    let typed = f.frame_type > 0 || matches!(call.kind, Kind::Count | Kind::Rectangle);
    let slice = |place: usize| call.slices[place].as_slice();
    match number {
        1 => bad_depth(f.depth),
        2 => bad_plane(f.plane, f.sub_x, f.sub_y),
        3 => f.frame_type > 3,
        4 => bad_side(f.frame_height) || bad_side(f.upscaled_width),
        5 => typed && !legal_unit_size(f),
        7 => planes(call).any(|plane| plane.len() != width(f) * height(f)),
        9 => slice(1).len() != 4 * width(f) * (stripes(f) - 1),
        10 => typed && slice(0).len() != 10 * along(height(f), f) * along(width(f), f),
        11 => typed && slice(0).chunks(10).any(|entry| !legal_entry(entry)),
        12 => call.bytes.len() != stripes(f) || call.bytes.iter().any(|&mark| mark > 1),
        13 => call.numbers[8] as usize >= count_of(call, f),
        14 => call.bytes[call.numbers[8] as usize] == 1,
        15 => {
            read(call, f).into_iter().flatten().any(|&sample| sample < 0 || sample >> f.depth > 0)
        }
        _ => typed && short(call, f),
    }
}

/// The planes whose length is asked.
fn planes(call: &Call) -> impl Iterator<Item = &Vec<i32>> {
    let places = match call.kind {
        Kind::Plane => 1..4,
        Kind::Capture => 0..1,
        _ => 2..3,
    };
    call.slices[places].iter()
}

/// What the index of a call counts: stripes, or rectangles.
fn count_of(call: &Call, f: &Frame) -> usize {
    match call.kind {
        Kind::Stripe => stripes(f),
        _ => stripes(f) * along(width(f), f),
    }
}

/// The samples that a call reads.
fn read<'a>(call: &'a Call, f: &Frame) -> Vec<&'a [i32]> {
    let slice = |place: usize| call.slices[place].as_slice();
    match call.kind {
        Kind::Plane => vec![slice(1), slice(2)],
        Kind::Capture => vec![slice(0)],
        _ => {
            let (s, w) = (call.numbers[8] as usize, width(f));
            let end = first_row(f, s + 1).min(height(f));
            let mut parts = vec![&slice(2)[first_row(f, s) * w..end * w]];
            if s > 0 {
                parts.push(&slice(1)[4 * (s - 1) * w..][..2 * w]);
            }
            if s + 1 < stripes(f) {
                parts.push(&slice(1)[(4 * s + 2) * w..][..2 * w]);
            }
            parts
        }
    }
}

fn short(call: &Call, f: &Frame) -> bool {
    let rows = height(f).min(64 >> sub(f, f.sub_y));
    let scratch = 6 * (width(f).min(383) + 8) * (rows + 8);
    match call.kind {
        Kind::Plane => call.slices[4].len() < scratch,
        _ => call.slices[3].len() < scratch || call.slices[4].len() < width(f) * rows,
    }
}

fn upscale(call: &Call, s: &Scaling, number: u32) -> bool {
    let extent =
        |side: u32, sub: u32| u64::from(if s.plane > 0 { side.div_ceil(1 << sub) } else { side });
    let shape = |rows: u32, cols: u32| (u64::from(rows), u64::from(cols));
    let (input, output) = (shape(s.in_rows, s.in_cols), shape(s.out_rows, s.out_cols));
    let copies = s.use_superres == 0 || s.frame_width == s.upscaled_width;
    let sides = [s.frame_height, s.frame_width, s.upscaled_width];
    match number {
        1 => bad_depth(s.depth),
        2 => bad_plane(s.plane, s.sub_x, s.sub_y),
        4 => sides.into_iter().any(bad_side),
        6 => s.use_superres != 0 && s.upscaled_width < s.frame_width,
        7 => {
            let (d, u) = (extent(s.frame_width, s.sub_x), extent(s.upscaled_width, s.sub_x));
            let h = extent(s.frame_height, s.sub_y);
            let wide = (h..=16_384).contains(&input.0) && (d..=16_392).contains(&input.1);
            let fits = if copies { input == output } else { wide && output == (h, u) };
            let lengths = [input, output].map(|(rows, cols)| rows * cols);
            !fits || lengths != [0, 1].map(|place| call.slices[place].len() as u64)
        }
        8 => !copies && extent(s.upscaled_width, s.sub_x) <= extent(s.frame_width, s.sub_x),
        _ => call.slices[0].iter().any(|&sample| sample < 0 || sample >> s.depth > 0),
    }
}

fn bad_depth(depth: u32) -> bool {
    ![8, 10, 12].contains(&depth)
}

fn bad_plane(plane: u32, sub_x: u32, sub_y: u32) -> bool {
    plane > 2 || ![(0, 0), (1, 0), (1, 1)].contains(&(sub_x, sub_y))
}

fn bad_side(side: u32) -> bool {
    !(1..=16_384).contains(&side)
}

fn legal_unit_size(f: &Frame) -> bool {
    let halved = f.plane > 0 && f.sub_x == 1 && f.sub_y == 1;
    [64, 128, 256].contains(&f.unit_size) || halved && f.unit_size == 32
}

fn legal_entry(entry: &[i32]) -> bool {
    let taps = [-5..=10, -23..=8, -17..=46];
    let weights = [0..=15, -96..=31, -32..=95];
    let within = |ranges: &[std::ops::RangeInclusive<i32>], numbers: &[i32]| {
        ranges.iter().zip(numbers).all(|(range, number)| range.contains(number))
    };
    match entry[0] {
        0 => true,
        1 => within(&taps, &entry[1..4]) && within(&taps, &entry[4..7]),
        2 => within(&weights, &entry[7..10]),
        _ => false,
    }
}

/// Plane 0 is not subsampled.
fn sub(f: &Frame, sub: u32) -> u32 {
    if f.plane == 0 {
        0
    } else {
        sub
    }
}

fn width(f: &Frame) -> usize {
    f.upscaled_width.div_ceil(1 << sub(f, f.sub_x)) as usize
}

fn height(f: &Frame) -> usize {
    f.frame_height.div_ceil(1 << sub(f, f.sub_y)) as usize
}

/// Units along an extent.
fn along(extent: usize, f: &Frame) -> usize {
    ((extent + f.unit_size as usize / 2) / f.unit_size as usize).max(1)
}

/// Cut to the plane: the first stripe starts above it.
fn first_row(f: &Frame, stripe: usize) -> usize {
    (64 * stripe).saturating_sub(8) >> sub(f, f.sub_y)
}

fn stripes(f: &Frame) -> usize {
    1 + (1..).take_while(|&stripe| first_row(f, stripe) < height(f)).count()
}
