//! A finding, and a call that may panic.

use std::any::Any;
use std::panic::{catch_unwind, AssertUnwindSafe};

#[derive(Clone)]
pub struct Finding {
    pub call: &'static str,
    pub input: &'static str,
    pub document: &'static str,
    pub reference: String,
}

impl Finding {
    pub fn line(&self) -> String {
        let Finding { call, input, document, reference } = self;
        format!("{call}: {input} | document 01: {document} | reference: {reference}")
    }

    pub fn tabs(&self) -> String {
        [self.call, self.input, self.document, &self.reference].join("\t")
    }
}

/// What the call returned in words, or how it panicked.
pub fn watched(call: impl FnOnce() -> String) -> String {
    match catch_unwind(AssertUnwindSafe(call)) {
        Ok(words) => words,
        Err(payload) => format!("panics ({})", message(&*payload)),
    }
}

fn message(payload: &(dyn Any + Send)) -> &str {
    let text = payload.downcast_ref::<String>().map(String::as_str);
    text.or(payload.downcast_ref::<&str>().copied()).unwrap_or("no message")
}

/// Samples as the job program prints them.
pub fn row(samples: &[i32]) -> String {
    samples.iter().map(i32::to_string).collect::<Vec<_>>().join(" ")
}
