//! Counts and rectangles of a frame of 1920 by 1080: one call a rectangle, where the reference lists all of them at once.

use crate::pictures::frame;
use crate::planes::{SMALL, UNIT_SIZES};
use crate::table::{head, row};
use crate::turns::{Effort, Pair};
use oracle::frame::Frame;
use oracle::geometry::{counts, rectangles, Counts, Place};
use oracle::host::{count, rectangle, Counted, Placed};
use oracle::report::Report;

struct RectanglePair {
    frame: Frame,
    expected: (Vec<Place>, Counts),
    found: (Vec<Placed>, Counted),
}

impl RectanglePair {
    fn new(unit_size: u32) -> Self {
        let frame = frame(8, SMALL.0, SMALL.1, unit_size);
        let found = (Vec::new(), Counted::refused(1));
        RectanglePair { frame, expected: (Vec::new(), counts(&frame)), found }
    }
}

impl Pair for RectanglePair {
    fn reference(&mut self) {
        self.expected.0 = rectangles(&self.frame);
    }

    fn library(&mut self) {
        let counted = count(self.frame);
        let places = (0..counted.rectangles).map(|index| rectangle(self.frame, index)).collect();
        self.found = (places, counted);
    }

    fn agree(&self) -> bool {
        let places: Vec<_> = self.expected.0.iter().map(Placed::done).collect();
        self.found == (places, Counted::done(&self.expected.1))
    }
}

pub fn rows(effort: &Effort, report: &mut Report) {
    head("count and rectangle, 1920 × 1080", &["ratio"]);
    for unit_size in UNIT_SIZES {
        let label = format!("unit size {unit_size}, all rectangles");
        let ratio = effort.ratio(report, &label, &mut RectanglePair::new(unit_size));
        row(&label, &[ratio]);
    }
}
