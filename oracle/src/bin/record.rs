//! Writes the recorded answers of the reference into a folder, or compares a folder with them.
//!
//! `record [FOLDER]` writes, `record --check FOLDER` compares; the folder is `../recorded` beside
//! this package where none is given.

use oracle::records::folder;
use std::env;
use std::fs;
use std::path::{Path, PathBuf};
use std::process::ExitCode;

fn main() -> ExitCode {
    let mut arguments: Vec<String> = env::args().skip(1).collect();
    let check = arguments.first().is_some_and(|first| first == "--check");
    if check {
        arguments.remove(0);
    }
    let place = match arguments.as_slice() {
        [] => Path::new(env!("CARGO_MANIFEST_DIR")).join("../recorded"),
        [one] if !one.starts_with('-') => PathBuf::from(one),
        _ => return failed("usage: record [FOLDER] | record --check [FOLDER]"),
    };
    let done = if check { compare(&place) } else { write(&place) };
    match done {
        Ok(message) => {
            println!("{message}");
            ExitCode::SUCCESS
        }
        Err(message) => failed(&message),
    }
}

fn failed(message: &str) -> ExitCode {
    eprintln!("{message}");
    ExitCode::FAILURE
}

fn write(place: &Path) -> Result<String, String> {
    fs::create_dir_all(place).map_err(|error| error.to_string())?;
    let files = folder();
    for (name, bytes) in &files {
        fs::write(place.join(name), bytes).map_err(|error| format!("{name}: {error}"))?;
    }
    let total: usize = files.iter().map(|(_, bytes)| bytes.len()).sum();
    Ok(format!("wrote {} files, {total} bytes", files.len()))
}

fn compare(place: &Path) -> Result<String, String> {
    let files = folder();
    for (name, bytes) in &files {
        let found = fs::read(place.join(name)).map_err(|error| format!("{name}: {error}"))?;
        if let Some(at) = first_difference(&found, bytes) {
            return Err(format!("{name} differs from the reference's answers at byte {at}"));
        }
    }
    Ok(format!("{} files agree with the reference", files.len()))
}

fn first_difference(found: &[u8], expected: &[u8]) -> Option<usize> {
    let common = found.iter().zip(expected).position(|(a, b)| a != b);
    let shorter = found.len().min(expected.len());
    common.or((found.len() != expected.len()).then_some(shorter))
}
