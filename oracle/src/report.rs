//! What a comparison counts, how it is asked for, and how it ends: one line, status 1 on any
//! difference.

use std::collections::{BTreeMap, BTreeSet};
use std::env;
use std::ops::Range;
use std::process::ExitCode;

/// Differences that are written out; the others are only counted.
const SHOWN: u64 = 5;

/// How a comparison was asked for.
pub struct Options {
    pub quick: bool,
    /// The first case, so that another run can take other cases.
    from: usize,
}

impl Options {
    fn read() -> Result<Self, String> {
        let mut options = Options { quick: false, from: 0 };
        let mut words = env::args().skip(1);
        while let Some(word) = words.next() {
            match word.as_str() {
                "--quick" => options.quick = true,
                "--from" => options.from = words.next().and_then(|n| n.parse().ok()).ok_or(word)?,
                _ => return Err(word),
            }
        }
        Ok(options)
    }

    /// The numbers of the cases to run.
    pub fn cases(&self, quick: usize, long: usize) -> Range<usize> {
        self.from..self.from + if self.quick { quick } else { long }
    }

    /// Whether a member of a full list is run: each in the long form, one in `n` in the quick one.
    pub fn takes(&self, index: usize, n: usize) -> bool {
        !self.quick || (index + self.from) % n == 0
    }
}

pub struct Report {
    name: &'static str,
    counts: Vec<(&'static str, u64)>,
    numbers: BTreeMap<&'static str, BTreeSet<u32>>,
    differences: u64,
}

impl Report {
    pub fn count(&mut self, what: &'static str, more: u64) {
        match self.counts.iter_mut().find(|(name, _)| *name == what) {
            Some((_, count)) => *count += more,
            None => self.counts.push((what, more)),
        }
    }

    /// Holds an answer to what it has to be; `place` says which call it was.
    pub fn same<T: PartialEq>(&mut self, found: &T, expected: &T, place: impl FnOnce() -> String) {
        if found != expected {
            self.differs(&place());
        }
    }

    pub fn differs(&mut self, place: &str) {
        self.differences += 1;
        if self.differences <= SHOWN {
            eprintln!("{}: difference: {place}", self.name);
        }
    }

    /// Remembers a number that a call returned.
    pub fn saw(&mut self, call: &'static str, number: u32) {
        self.numbers.entry(call).or_default().insert(number);
    }

    /// A list of which some number was never returned shows nothing of that number.
    pub fn saw_all(&mut self, call: &'static str, numbers: &[u32]) {
        let seen = self.numbers.remove(call).unwrap_or_default();
        for number in numbers.iter().filter(|&number| !seen.contains(number)) {
            self.differs(&format!("number {number} of {call} was never met"));
        }
    }

    fn end(self) -> ExitCode {
        let counts: Vec<_> =
            self.counts.iter().map(|(what, count)| format!("{count} {what}, ")).collect();
        println!("{}: {}{} differences", self.name, counts.concat(), self.differences);
        if self.differences == 0 {
            ExitCode::SUCCESS
        } else {
            ExitCode::FAILURE
        }
    }
}

/// Runs a comparison as a program.
pub fn compare(name: &'static str, run: impl FnOnce(&Options, &mut Report)) -> ExitCode {
    let options = match Options::read() {
        Ok(options) => options,
        Err(word) => {
            eprintln!("usage: {name} [--quick] [--from CASE]; not understood: {word}");
            return ExitCode::from(2);
        }
    };
    let mut report = Report { name, counts: Vec::new(), numbers: BTreeMap::new(), differences: 0 };
    run(&options, &mut report);
    report.end()
}
