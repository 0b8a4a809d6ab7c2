//! Unit entries of ten numbers, legal ones, from the middle and the ends of every range.

use crate::rng::Rng;

/// Numbers in one entry: type, three vertical and three horizontal coefficients, set, two weights.
pub const ENTRY: usize = 10;
pub const NONE: i32 = 0;
pub const WIENER: i32 = 1;
pub const SELF_GUIDED: i32 = 2;

/// Lowest and highest legal value of the nine numbers after the type.
pub const RANGES: [(i32, i32); 9] =
    [(-5, 10), (-23, 8), (-17, 46), (-5, 10), (-23, 8), (-17, 46), (0, 15), (-96, 31), (-32, 95)];

pub type Unit = [i32; ENTRY];

/// Which first Wiener coefficients a table holds: all legal ones, or 0 as the standard codes
/// them on planes 1 and 2.
#[derive(Clone, Copy, PartialEq, Eq)]
pub enum OuterTaps {
    Any,
    Zero,
}

/// A legal entry of the given type. The numbers it does not use are 0 or anything at all.
pub fn unit(rng: &mut Rng, kind: i32) -> Unit {
    let at_ends = rng.one_in(2);
    let garbage = rng.one_in(3);
    std::array::from_fn(|number| match number {
        0 => kind,
        _ if uses(kind, number) => legal_number(rng, number, at_ends),
        _ if garbage => rng.between(-32_768, 32_767),
        _ => 0,
    })
}

/// Whether an entry of that type looks at its number of that place.
pub fn uses(kind: i32, number: usize) -> bool {
    match kind {
        WIENER => (1..7).contains(&number),
        SELF_GUIDED => (7..ENTRY).contains(&number),
        _ => false,
    }
}

fn legal_number(rng: &mut Rng, number: usize, at_ends: bool) -> i32 {
    let (low, high) = RANGES[number - 1];
    if at_ends && number != 7 {
        rng.pick(&[low, low, low + 1, high - 1, high, high])
    } else {
        rng.between(low, high)
    }
}

pub fn any_kind(rng: &mut Rng) -> i32 {
    rng.pick(&[NONE, WIENER, WIENER, WIENER, SELF_GUIDED, SELF_GUIDED, SELF_GUIDED])
}

/// A table of `count` entries, one after the other.
pub fn table(rng: &mut Rng, count: usize, outer: OuterTaps) -> Vec<i32> {
    let mut numbers = Vec::with_capacity(count * ENTRY);
    for _ in 0..count {
        let kind = any_kind(rng);
        let mut entry = unit(rng, kind);
        if kind == WIENER && outer == OuterTaps::Zero {
            entry[1] = 0;
            entry[4] = 0;
        }
        numbers.extend(entry);
    }
    numbers
}
