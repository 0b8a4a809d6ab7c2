//! What is measured on: pictures that slope and carry noise, and tables of units.

use oracle::calls::PlaneCall;
use oracle::cases::PlaneCase;
use oracle::frame::{largest_sample, Frame};
use oracle::rng::Rng;
use oracle::units::{self, Unit, NONE, SELF_GUIDED, WIENER};

/// Which units a plane has.
#[derive(Clone, Copy)]
pub enum Units {
    Wiener,
    Guided(i32),
    /// A third each of Wiener, self-guided by every set, and none.
    Mixed,
}

pub const ALL: [Units; 5] =
    [Units::Wiener, Units::Guided(0), Units::Guided(10), Units::Guided(14), Units::Mixed];

impl Units {
    pub fn name(self) -> String {
        match self {
            Units::Wiener => "Wiener".into(),
            Units::Guided(set) => format!("self-guided, set {set}"),
            Units::Mixed => "mixed".into(),
        }
    }

    fn table(self, rng: &mut Rng, count: usize) -> Vec<i32> {
        (0..count).flat_map(|place| self.entry(rng, place)).collect()
    }

    /// Mixed units go through types and sets in turn, so that planes of all sizes have the same shares of them.
    fn entry(self, rng: &mut Rng, place: usize) -> Unit {
        let (kind, set) = match self {
            Units::Wiener => (WIENER, 0),
            Units::Guided(set) => (SELF_GUIDED, set),
            Units::Mixed => ([WIENER, SELF_GUIDED, NONE][place % 3], place as i32 / 3 % 16),
        };
        let mut entry = units::unit(rng, kind);
        entry[7] = set;
        entry
    }
}

/// The luma plane of a frame.
pub fn frame(depth: u32, width: u32, height: u32, unit_size: u32) -> Frame {
    Frame {
        plane: 0,
        sub_x: 0,
        sub_y: 0,
        depth,
        frame_height: height,
        upscaled_width: width,
        unit_size,
        frame_type: 3,
    }
}

pub fn case(frame: Frame, units: Units) -> PlaneCase {
    let mut rng = Rng::for_case("bench", frame.depth as usize);
    let table = units.table(&mut rng, frame.units());
    let (width, height, depth) = (frame.width(), frame.height(), frame.depth);
    let deblocked = picture(&mut rng, width, height, depth);
    let cdef = picture(&mut rng, width, height, depth);
    PlaneCase { frame, units: table, deblocked, cdef }
}

pub fn call(case: &PlaneCase) -> PlaneCall {
    PlaneCall::new(&mut Rng::for_case("bench call", 0), case)
}

pub fn picture(rng: &mut Rng, width: usize, height: usize, depth: u32) -> Vec<i32> {
    let (unit, largest) = (1 << (depth - 8), largest_sample(depth));
    let mut samples = Vec::with_capacity(width * height);
    for y in 0..height {
        for x in 0..width {
            let slope = (x / 8 + y / 4) as i32 * 3 * unit;
            samples.push((slope + rng.between(0, 32 * unit - 1)) & largest);
        }
    }
    samples
}
