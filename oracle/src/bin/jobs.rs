//! `jobs FILE FROM COUNT`: records of jobs that are not among the recorded ones, in the same format.

use oracle::records::other_jobs;
use std::env;
use std::fs::File;
use std::io::{BufWriter, Write};
use std::process::ExitCode;

fn main() -> ExitCode {
    let arguments: Vec<String> = env::args().skip(1).collect();
    let [file, from, count] = arguments.as_slice() else {
        return failed("usage: jobs FILE FROM COUNT");
    };
    let (Ok(from), Ok(count)) = (from.parse::<usize>(), count.parse::<usize>()) else {
        return failed("FROM and COUNT are numbers");
    };
    match write(file, from, count) {
        Ok(()) => ExitCode::SUCCESS,
        Err(error) => failed(&format!("{file}: {error}")),
    }
}

fn write(file: &str, from: usize, count: usize) -> std::io::Result<()> {
    let mut out = BufWriter::new(File::create(file)?);
    for record in other_jobs(from, count) {
        out.write_all(&record.bytes())?;
    }
    out.flush()
}

fn failed(message: &str) -> ExitCode {
    eprintln!("{message}");
    ExitCode::FAILURE
}
