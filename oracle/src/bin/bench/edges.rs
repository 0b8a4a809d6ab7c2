//! Captured edge rows of a plane of 1920 by 1080. The library looks at every sample of the plane, since it refuses one that is out of
//! range; the reference only copies the rows.

use crate::pictures::{case, frame, Units};
use crate::planes::SMALL;
use crate::table::{head, row, BY_DEPTH};
use crate::turns::{Effort, Pair};
use oracle::calls::CaptureCall;
use oracle::frame::DEPTHS;
use oracle::host::capture_edges_bare;
use oracle::in_place::capture;
use oracle::loop_filter::PlaneBuffer;
use oracle::report::Report;
use oracle::rng::Rng;

struct EdgePair {
    call: CaptureCall,
    expected: Vec<i32>,
    number: u32,
}

impl EdgePair {
    fn new(depth: u32) -> Self {
        let case = case(frame(depth, SMALL.0, SMALL.1, 64), Units::Wiener);
        let call = CaptureCall::new(&mut Rng::for_case("bench edges", 0), &case);
        EdgePair { call, expected: Vec::new(), number: 0 }
    }
}

impl Pair for EdgePair {
    fn reference(&mut self) {
        let (rows, cols) = (self.call.frame.height() as u32, self.call.frame.width() as u32);
        let plane = PlaneBuffer { rows, cols, samples: &mut self.call.deblocked };
        self.expected = capture(&plane, rows as i32 - 1, 0);
    }

    fn library(&mut self) {
        self.number = capture_edges_bare(&mut self.call);
    }

    fn agree(&self) -> bool {
        self.number == 0 && self.call.edges == self.expected
    }
}

pub fn rows(effort: &Effort, report: &mut Report) {
    head("capture_edges, 1920 × 1080", &BY_DEPTH);
    let ratios = DEPTHS.map(|depth| {
        effort.ratio(report, &format!("{depth} bits, edge rows"), &mut EdgePair::new(depth))
    });
    row("every boundary", &ratios);
}
