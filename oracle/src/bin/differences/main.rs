//! Runs the reference where document 01 refuses, and says in one line each what it does.
//!
//! `differences` prints lines to read, `differences --tabs` the same in columns. A build without
//! `--release` also shows where arithmetic overflows: there the reference panics, and wraps else.

mod case_b;
mod geometry;
mod report;
mod stripes;
mod superres;
mod whole;
mod widths;

use std::env;
use std::panic;

fn main() {
    // The panics are what is looked for; they are told in the lines.
    panic::set_hook(Box::new(|_| {}));
    let tabs = env::args().nth(1).is_some_and(|argument| argument == "--tabs");
    let restoration = [whole::findings(), stripes::findings(), geometry::findings()].concat();
    let upscaling = [superres::findings(), widths::findings()].concat();
    for finding in restoration.iter().chain(&upscaling) {
        println!("{}", if tabs { finding.tabs() } else { finding.line() });
    }
}
