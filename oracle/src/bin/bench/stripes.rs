//! In place: all stripes of a plane of 1920 by 1080, from the first to the last, beside the reference's in-place path and beside the
//! library's own whole-plane call. Neither time has the capture of the edge rows in it.

use crate::pictures::{case, frame, Units, ALL};
use crate::planes::{PlanePair, SMALL, UNIT_SIZES};
use crate::table::{head, row};
use crate::turns::{held, library, reference, Effort, Pair};
use oracle::calls::StripeCall;
use oracle::frame::DEPTHS;
use oracle::host::restore_stripe_bare;
use oracle::in_place;
use oracle::report::Report;
use oracle::rng::Rng;

struct StripePair {
    call: StripeCall,
    cdef: Vec<i32>,
    restored: Vec<i32>,
    order: Vec<usize>,
    numbers: Vec<u32>,
}

impl StripePair {
    fn new(depth: u32, unit_size: u32, units: Units) -> Self {
        let case = case(frame(depth, SMALL.0, SMALL.1, unit_size), units);
        let edges = in_place::capture_edges(&case.frame, &case.deblocked);
        let call = StripeCall::new(&mut Rng::for_case("bench stripes", 0), &case, edges);
        let order = (0..call.marks.len()).collect();
        StripePair {
            restored: case.cdef.clone(),
            cdef: case.cdef,
            call,
            order,
            numbers: Vec::new(),
        }
    }
}

impl Pair for StripePair {
    fn reference(&mut self) {
        let StripeCall { frame, units, edges, .. } = &self.call;
        in_place::restore_stripes(frame, units, edges, &mut self.restored, &self.order);
    }

    fn library(&mut self) {
        self.numbers.clear();
        for &stripe in &self.order {
            self.call.stripe = stripe as u32;
            self.numbers.push(restore_stripe_bare(&mut self.call));
        }
    }

    fn before_reference(&mut self) {
        self.restored.copy_from_slice(&self.cdef);
    }

    fn before_library(&mut self) {
        self.call.plane.copy_from_slice(&self.cdef);
        self.call.marks.fill(0);
    }

    fn agree(&self) -> bool {
        let done = self.numbers.iter().all(|&number| number == 0);
        done && self.call.marks.iter().all(|&mark| mark == 1) && self.call.plane == self.restored
    }
}

/// Beside each ratio the time in place over that of the whole-plane call.
pub fn rows(effort: &Effort, report: &mut Report) {
    let columns = ["8 bits", "to the plane", "10 bits", "to the plane", "12 bits", "to the plane"];
    head("restore_stripe, all stripes, 1920 × 1080", &columns);
    for unit_size in UNIT_SIZES {
        for units in ALL {
            let label = format!("unit size {unit_size}, {}", units.name());
            let numbers = DEPTHS.map(|depth| {
                let mut stripes = StripePair::new(depth, unit_size, units);
                let mut plane = PlanePair::new(depth, SMALL, unit_size, units);
                let best = effort.best(3, |which| match which {
                    0 => reference(&mut stripes),
                    1 => library(&mut stripes),
                    _ => library(&mut plane),
                });
                let what = format!("{depth} bits, in place, {label}");
                [held(report, &what, &stripes, best[0] / best[1]), best[1] / best[2]]
            });
            row(&label, &numbers.concat());
        }
    }
}
