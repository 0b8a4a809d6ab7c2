//! How fast the library is beside the reference: ratios of times that are taken in turns in one run, each pair of calls on the same
//! arguments and held to the same answer. No time is printed, since it would say more of the machine than of the code.

mod clock;
mod edges;
mod filters;
mod pictures;
mod planes;
mod rectangles;
mod samples;
#[cfg(feature = "stripes")]
mod stripes;
mod table;
mod turns;
mod upscaling;

use oracle::report::compare;
use std::process::ExitCode;

fn main() -> ExitCode {
    compare("bench", |options, report| {
        println!("{}", machine());
        println!(
            "Ratios: the reference's time over the library's, each the best of several turns."
        );
        let effort = turns::Effort::new(options.quick);
        filters::rows(&effort, report);
        planes::rows(&effort, report);
        planes::large_rows(&effort, report);
        #[cfg(feature = "stripes")]
        stripes::rows(&effort, report);
        upscaling::rows(&effort, report);
        samples::rows(&effort, report);
        edges::rows(&effort, report);
        rectangles::rows(&effort, report);
    })
}

fn machine() -> &'static str {
    if cfg!(target_arch = "aarch64") {
        "Machine: aarch64. Library: as tools/native makes it."
    } else {
        "Machine: x86-64. Library: as tools/library makes it."
    }
}
