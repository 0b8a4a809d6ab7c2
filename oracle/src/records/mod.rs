//! Recorded answers of the reference: one module per file, the same bytes on every run.

mod blocks;
mod edges;
mod jobs;
mod planes;
mod readme;
mod record;
mod rectangles;
mod samples;
mod stripes;
mod upscale;

pub use jobs::other_jobs;
pub use record::Record;

use crate::sha256::hex_digest;

/// One file of records and what the page beside the files says about it.
pub struct Recorded {
    pub name: &'static str,
    pub what: &'static str,
    pub body: &'static str,
    pub records: Vec<Record>,
}

impl Recorded {
    pub fn bytes(&self) -> Vec<u8> {
        self.records.iter().flat_map(Record::bytes).collect()
    }
}

/// All files of records.
pub fn recorded() -> Vec<Recorded> {
    vec![
        rectangles::recorded(),
        blocks::recorded(),
        samples::recorded(),
        planes::recorded(),
        edges::recorded(),
        stripes::recorded(),
        upscale::recorded(),
        jobs::recorded(),
    ]
}

/// Every file that the folder holds, by name: the records, their digests and the page on them.
pub fn folder() -> Vec<(String, Vec<u8>)> {
    let all = recorded();
    let page = readme::page(&all);
    let mut files: Vec<_> = all.iter().map(|one| (one.name.to_string(), one.bytes())).collect();
    files.push(("SHA256SUMS".to_string(), digests(&files).into_bytes()));
    files.push(("README.md".to_string(), page.into_bytes()));
    files
}

fn digests(files: &[(String, Vec<u8>)]) -> String {
    let line = |(name, bytes): &(String, Vec<u8>)| format!("{}  {name}\n", hex_digest(bytes));
    files.iter().map(line).collect()
}
