//! The page beside the recorded files.

use super::Recorded;

const HEAD: &str = "\
# Recorded answers of the reference

What the reference Rust answers on fixed inputs, written down so that a replay needs no Rust. Every
input is inside document 01's domain, so every call answers 0 and gives these numbers; but `jobs.rec`
has refused jobs too, with the number that document 01 gives them (`oracle/src/refusals`).

## Format

All numbers are 16-bit entries, low byte first, two's complement where negative. A file is records
one after the other. A record is its entry count n (one entry, at most 32,000), then n entries, so
that it fits 65,536 bytes. A section is its count (one entry), then that many numbers. Planes and
windows are row after row, unit tables ten numbers an entry, edge rows four rows a boundary.

";

const TAIL: &str = "
Numbers of a unit entry that its type does not use are 0 or anything at all: they are not looked
at. With frame type 0, unit size and units are anything too. On planes 1 and 2 about half of the
tables keep the first Wiener coefficients at 0, as the standard codes them; the others use document
01's whole range.

## What is in them

Depths 8, 10, 12; subsamplings (0,0), (1,0), (1,1); planes 0 to 2; unit sizes 64, 128, 256, and 32
where it is legal; frame types 0 to 3; all three unit types; sets 0 to 15; odd and even rows;
coefficients and weights at and beside the ends of their ranges as well as between them. Samples are
flat (all 0 and all largest too), boards, single dots, stripes across and down, two samples at
random, each at full and at faint contrast; gradients, noise and random ones. Sides lie around the
edges of units and stripes.

## How they are made

In `oracle/`: `cargo run --release --bin record` runs the reference and writes this folder, this
page too. The inputs come from a fixed random generator, one stream per record, so each run gives
the same bytes. `cargo run --release --bin record -- --check ../recorded` makes all of it again in
memory and compares. `sha256sum -c SHA256SUMS` tests the files alone.
";

pub fn page(all: &[Recorded]) -> String {
    format!("{HEAD}{}{}{TAIL}", table(all), total(all))
}

fn table(all: &[Recorded]) -> String {
    let mut text = "| file | what | records | bytes | entries of a record |\n".to_string();
    text += "|---|---|---|---|---|\n";
    for one in all {
        let (count, bytes) = (one.records.len(), one.bytes().len());
        text += &format!("| `{}` | {} | {count} | {bytes} | {} |\n", one.name, one.what, one.body);
    }
    text
}

fn total(all: &[Recorded]) -> String {
    let records: usize = all.iter().map(|one| one.records.len()).sum();
    let bytes: usize = all.iter().map(|one| one.bytes().len()).sum();
    format!("\nTogether {records} records in {bytes} bytes.\n")
}
