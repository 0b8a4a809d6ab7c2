//! The filters alone: rectangles of 64 by 64 and of 256 by 64 samples.
//!
//! The library's filters are not exported, so that a plane of one unit column is restored, with its tests and its count, while of the
//! reference only the filter is called, rectangle by rectangle. The first of the eight rectangles has 56 rows.

use crate::pictures::Units;
use crate::planes::PlanePair;
use crate::table::{head, row, BY_DEPTH};
use crate::turns::{Effort, Pair};
use oracle::calls::PlaneCall;
use oracle::context::with_table;
use oracle::frame::DEPTHS;
use oracle::loop_restoration::{loop_restore_rect, stripe_unit_rects, LrBlockGeometry};
use oracle::report::Report;
use oracle::whole_plane::planes_up_to;

const HEIGHT: u32 = 56 + 7 * 64;

struct FilterPair {
    plane: PlanePair,
    rectangles: Vec<LrBlockGeometry>,
}

impl FilterPair {
    fn new(depth: u32, side: u32, units: Units) -> Self {
        let plane = PlanePair::new(depth, (side, HEIGHT), side, units);
        let rectangles = with_table(&plane.call.frame, &plane.call.units, |context| {
            stripe_unit_rects(context, 0)
        });
        FilterPair { plane, rectangles }
    }
}

impl Pair for FilterPair {
    fn reference(&mut self) {
        let PlaneCall { frame, units, deblocked, cdef, .. } = &mut self.plane.call;
        let shape = (frame.height() as u32, frame.width() as u32);
        let deblocked = planes_up_to(0, shape, deblocked);
        let cdef = planes_up_to(0, shape, cdef);
        let mut restored = planes_up_to(0, shape, &mut self.plane.restored);
        with_table(frame, units, |context| {
            for rectangle in &self.rectangles {
                loop_restore_rect(context, &deblocked, &cdef, &mut restored, 0, rectangle);
            }
        });
    }

    fn library(&mut self) {
        self.plane.library();
    }

    fn agree(&self) -> bool {
        self.plane.agree()
    }
}

pub fn rows(effort: &Effort, report: &mut Report) {
    head("The filters, rectangle by rectangle", &BY_DEPTH);
    for side in [256, 64] {
        for units in [Units::Wiener, Units::Guided(0)] {
            let label = format!("{side} × 64, {}", units.name());
            let ratios = DEPTHS.map(|depth| {
                let what = format!("{depth} bits, {label}");
                effort.ratio(report, &what, &mut FilterPair::new(depth, side, units))
            });
            row(&label, &ratios);
        }
    }
}
