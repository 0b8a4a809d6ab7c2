//! Damage stays where it is: CDEF samples of some stripes are overwritten between the calls.
//!
//! A restored stripe that was not overwritten holds the undamaged result, and so does each sample
//! of an overwritten one that has no overwritten sample within 3 rows and 3 columns in its stripe.

use crate::held::{captured, restored};
use crate::orders::refused;
use oracle::calls::{CaptureCall, StripeCall};
use oracle::cases::{frame_around, plane_case, stripe_order};
use oracle::refusals::{own_rows, stripes};
use oracle::report::{Options, Report};
use oracle::rng::Rng;
use oracle::whole_plane;

const REACH: usize = 3;

pub fn damaged_runs(options: &Options, report: &mut Report) {
    for index in options.cases(200, 10_000) {
        let mut rng = Rng::for_case("compare damaged runs", index);
        let (width, height) = (1 + rng.below(24), 20 + rng.below(180));
        let frame = frame_around(&mut rng, width, height);
        let case = plane_case(&mut rng, frame);
        let place = format!("damaged run {index}");
        let undamaged = whole_plane::restore(&case.frame, &case.units, &case.deblocked, &case.cdef);
        let capture = CaptureCall::new(&mut rng, &case);
        let edges = captured(report, capture, &place);
        let call = StripeCall::new(&mut rng, &case, edges);
        let mut run = Run { near: vec![false; call.plane.len()], held: case.cdef, call };
        let order = stripe_order(&mut rng, stripes(&frame));
        for &stripe in &order {
            run.turn(&mut rng, report, stripe, &place);
        }
        run.check(report, &undamaged, &place);
        report.count("damaged runs", 1);
    }
}

struct Run {
    call: StripeCall,
    /// What the plane holds where no stripe was restored.
    held: Vec<i32>,
    /// Samples with an overwritten one in reach.
    near: Vec<bool>,
}

impl Run {
    fn turn(&mut self, rng: &mut Rng, report: &mut Report, stripe: usize, place: &str) {
        if rng.one_in(2) {
            self.overwrite(rng, report);
        }
        self.call.stripe = stripe as u32;
        if rng.one_in(3) {
            refused(rng, report, &self.call, place);
        }
        self.call = restored(report, self.call.clone(), place);
    }

    /// Other legal samples in a stripe that is still to be restored: a few, or many.
    fn overwrite(&mut self, rng: &mut Rng, report: &mut Report) {
        let stripe = rng.below(self.call.marks.len() as u32) as usize;
        if self.call.marks[stripe] == 1 {
            return;
        }
        let width = self.call.frame.width();
        let rows = own_rows(&self.call.frame, stripe);
        let count = rng.pick(&[1, 1, 2, 3, 10, 100]);
        for _ in 0..count {
            let y = rows.start + rng.below(rows.len() as u32) as usize;
            let x = rng.below(width as u32) as usize;
            let largest = self.call.frame.largest();
            let other = rng.between(0, largest);
            self.call.plane[y * width + x] = other;
            self.held[y * width + x] = other;
            self.reach(rows.clone(), y, x);
            report.count("overwritten samples", 1);
        }
    }

    fn reach(&mut self, rows: std::ops::Range<usize>, y: usize, x: usize) {
        let width = self.call.frame.width();
        for row in y.saturating_sub(REACH).max(rows.start)..(y + REACH + 1).min(rows.end) {
            for column in x.saturating_sub(REACH)..(x + REACH + 1).min(width) {
                self.near[row * width + column] = true;
            }
        }
    }

    fn check(&self, report: &mut Report, undamaged: &[i32], place: &str) {
        let width = self.call.frame.width();
        for (stripe, &mark) in self.call.marks.iter().enumerate() {
            let rows = own_rows(&self.call.frame, stripe);
            let part = rows.start * width..rows.end * width;
            let right = part.into_iter().all(|at| match mark {
                0 => self.call.plane[at] == self.held[at],
                _ => self.near[at] || self.call.plane[at] == undamaged[at],
            });
            report.same(&right, &true, || {
                format!("{place}: {:?}: stripe {stripe}, mark {mark}", self.call.frame)
            });
            report.count("stripes held to the undamaged result", 1);
        }
    }
}
