//! A call of the crate with all its arguments as plain numbers, so that any of them can be made wrong.

use cironetop as library;
use library::{Frame, Refusal, Scaling};

#[derive(Clone, Copy, Debug, PartialEq, Eq, PartialOrd, Ord)]
pub enum Kind {
    Sample,
    Plane,
    Capture,
    Stripe,
    Upscale,
    Count,
    Rectangle,
}

impl Kind {
    pub const ALL: &'static [Kind] = &[
        Kind::Sample,
        Kind::Plane,
        Kind::Capture,
        Kind::Stripe,
        Kind::Upscale,
        Kind::Count,
        Kind::Rectangle,
    ];
}

/// Slices stand in the C call's order; bytes are the window or the marks.
#[derive(Clone, Debug, PartialEq, Eq)]
pub struct Call {
    pub kind: Kind,
    /// Depth and row, or the frame with the stripe or index after it, or the scaling.
    pub numbers: Vec<u32>,
    pub entry: [i32; 10],
    pub slices: Vec<Vec<i32>>,
    pub bytes: Vec<u8>,
}

/// Beside each slice that is lent mutable: what no call may touch.
const MARGIN: [i32; 8] = [i32::MIN; 8];

impl Call {
    /// Document 01's number of the answer.
    pub fn make(&mut self) -> u32 {
        match self.kind {
            Kind::Sample => {
                let (depth, row) = (self.numbers[0], self.numbers[1]);
                number(library::restore_sample(depth, row, self.entry, &self.bytes))
            }
            Kind::Count => number(library::count(self.frame())),
            Kind::Rectangle => number(library::rectangle(self.frame(), self.numbers[8])),
            _ => self.make_with_margins(),
        }
    }

    fn make_with_margins(&mut self) -> u32 {
        let (frame, numbers) = (self.frame(), &self.numbers);
        let mut wide: Vec<_> =
            self.slices.iter().map(|slice| [&MARGIN[..], slice, &MARGIN].concat()).collect();
        let mut parts = wide.iter_mut().map(|whole| {
            let end = whole.len() - MARGIN.len();
            &mut whole[MARGIN.len()..end]
        });
        let mut part = || parts.next().expect("each call has its slices");
        let answer = match self.kind {
            Kind::Plane => {
                number(library::restore_plane(frame, part(), part(), part(), part(), part()))
            }
            Kind::Capture => number(library::capture_edges(frame, part(), part())),
            Kind::Stripe => number(library::restore_stripe(
                frame,
                numbers[8],
                part(),
                part(),
                part(),
                &mut self.bytes,
                part(),
                part(),
            )),
            Kind::Upscale => number(library::upscale_plane(scaling(numbers), part(), part())),
            _ => unreachable!("the other calls lend nothing mutable"),
        };
        drop(parts);
        for (slice, whole) in self.slices.iter_mut().zip(wide) {
            let end = whole.len() - MARGIN.len();
            assert!(whole[..MARGIN.len()] == MARGIN && whole[end..] == MARGIN, "written outside");
            slice.copy_from_slice(&whole[MARGIN.len()..end]);
        }
        answer
    }

    /// The frame of a call that has one; else of no meaning.
    pub fn frame(&self) -> Frame {
        let number = |place: usize| self.numbers.get(place).copied().unwrap_or(0);
        Frame {
            plane: number(0),
            sub_x: number(1),
            sub_y: number(2),
            depth: number(3),
            frame_height: number(4),
            upscaled_width: number(5),
            unit_size: number(6),
            frame_type: number(7),
        }
    }
}

pub fn scaling(numbers: &[u32]) -> Scaling {
    Scaling {
        plane: numbers[0],
        sub_x: numbers[1],
        sub_y: numbers[2],
        depth: numbers[3],
        frame_width: numbers[4],
        upscaled_width: numbers[5],
        frame_height: numbers[6],
        use_superres: numbers[7],
        in_rows: numbers[8],
        in_cols: numbers[9],
        out_rows: numbers[10],
        out_cols: numbers[11],
    }
}

fn number<T>(answer: Result<T, Refusal>) -> u32 {
    answer.map_or_else(Refusal::number, |_| 0)
}
