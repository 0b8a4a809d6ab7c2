//! The tables that are printed, as Markdown: a row is printed as soon as it is measured.

use std::io::{stdout, Write};

pub fn head(title: &str, columns: &[&str]) {
    println!("\n| {title} | {} |", columns.join(" | "));
    println!("|---|{}", "---|".repeat(columns.len()));
}

pub fn row(label: &str, numbers: &[f64]) {
    let cells: Vec<_> = numbers.iter().map(|number| format!("{number:.2}")).collect();
    println!("| {label} | {} |", cells.join(" | "));
    // A run takes minutes: a row that is done is shown.
    stdout().flush().expect("standard output can be written");
}

/// The columns of a table that has one for each depth.
pub const BY_DEPTH: [&str; 3] = ["8 bits", "10 bits", "12 bits"];
