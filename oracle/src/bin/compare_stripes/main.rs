//! Captured edge rows and stripes in place against the reference, the whole-plane call and document
//! 01's table.

mod demand;
mod held;
mod orders;
mod refused;

use oracle::refusals::{OF_CAPTURE, OF_STRIPE};
use oracle::report::compare;
use std::process::ExitCode;

fn main() -> ExitCode {
    compare("compare_stripes", |options, report| {
        orders::in_any_order(options, report);
        demand::damaged_runs(options, report);
        refused::damaged_captures(options, report);
        refused::damaged_stripes(options, report);
        orders::decoders_planes(options, report);
        report.saw_all("capture", OF_CAPTURE);
        report.saw_all("stripe", OF_STRIPE);
    })
}
