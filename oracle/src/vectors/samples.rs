//! Single samples, a line each: depth, row, ten numbers, 98 bytes in hex, the expected sample.

use super::at_hand;
use crate::calls::SampleCall;
use crate::report::Report;
use std::fs;

pub struct Sample {
    pub call: SampleCall,
    pub expected: i32,
}

pub fn samples(report: &mut Report) -> Vec<Sample> {
    let Some(folder) = at_hand(report) else { return Vec::new() };
    match fs::read_to_string(folder.join("samples.tsv")) {
        Ok(text) => {
            text.lines().map(|line| sample(line).expect("a line has five fields")).collect()
        }
        Err(error) => {
            report.differs(&format!("samples.tsv: {error}"));
            Vec::new()
        }
    }
}

fn sample(line: &str) -> Option<Sample> {
    let mut fields = line.split('\t');
    let depth = fields.next()?.parse().ok()?;
    let row = fields.next()?.parse().ok()?;
    let numbers: Option<Vec<i32>> =
        fields.next()?.split(' ').map(|number| number.parse().ok()).collect();
    let unit = numbers?.try_into().ok()?;
    let hex = fields.next()?;
    let window = (0..hex.len() / 2)
        .map(|place| u8::from_str_radix(&hex[2 * place..2 * place + 2], 16).ok())
        .collect::<Option<Vec<u8>>>()?;
    let expected = fields.next()?.parse().ok()?;
    Some(Sample { call: SampleCall { depth, row, unit, window }, expected })
}
