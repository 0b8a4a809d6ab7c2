//! Windows at the ends of the sample range, under units at the ends of every number's range.

use oracle::cases::SampleCase;
use oracle::frame::{largest_sample, DEPTHS};
use oracle::one_sample::{Window, SIDE};
use oracle::units::{Unit, RANGES, SELF_GUIDED, WIENER};

const SAMPLES: usize = SIDE * SIDE;

/// Every depth, odd and even rows, every such unit, every such window.
pub fn all() -> impl Iterator<Item = SampleCase> {
    let rows = DEPTHS.into_iter().flat_map(|depth| [(depth, 6), (depth, 7)]);
    rows.flat_map(|(depth, row)| {
        let cases = units().flat_map(move |unit| {
            windows(largest_sample(depth)).map(move |window| SampleCase {
                depth,
                row,
                unit,
                window,
            })
        });
        cases
    })
}

/// All 0, all largest, boards and lines of both, a single dot at each place.
fn windows(largest: i32) -> impl Iterator<Item = Window> {
    let two = [[0, largest], [largest, 0]];
    let whole = two.into_iter().flat_map(|[a, b]| {
        let of = move |pick: fn(usize, usize) -> usize| -> Window {
            std::array::from_fn(|place| [a, b][pick(place / SIDE, place % SIDE) % 2])
        };
        [of(|_, _| 0), of(|y, x| y + x), of(|y, _| y), of(|_, x| x)]
    });
    let dots = two.into_iter().flat_map(|[a, b]| {
        (0..SAMPLES).map(move |dot| std::array::from_fn(|place| if place == dot { b } else { a }))
    });
    whole.chain(dots)
}

/// Wiener units and self-guided units of every set whose other numbers are lowest or highest.
fn units() -> impl Iterator<Item = Unit> {
    let wiener = (0..64).map(|ends| unit(WIENER, |number| (1..7).contains(&number), ends << 1));
    let guided = (0..16).flat_map(|set| {
        (0..4).map(move |ends| {
            let mut found = unit(SELF_GUIDED, |number| number > 7, ends << 8);
            found[7] = set;
            found
        })
    });
    wiener.chain(guided)
}

/// The numbers that are used at the end that their bit of `ends` picks.
fn unit(kind: i32, used: fn(usize) -> bool, ends: usize) -> Unit {
    std::array::from_fn(|number| match number {
        0 => kind,
        _ if used(number) => {
            let (low, high) = RANGES[number - 1];
            if ends >> number & 1 == 1 {
                high
            } else {
                low
            }
        }
        _ => 0,
    })
}
