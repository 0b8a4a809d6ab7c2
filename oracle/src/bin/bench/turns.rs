//! Times taken in turns.

use crate::clock::now;
use oracle::report::Report;

/// A call of the reference and one of the library on the same arguments.
pub trait Pair {
    fn reference(&mut self);
    fn library(&mut self);
    /// What a call needs before it, of which no time is taken.
    fn before_reference(&mut self) {}
    fn before_library(&mut self) {}
    /// Whether the last call of each gave the same.
    fn agree(&self) -> bool;
}

/// How long a row may take: at least that many rounds, and more while there is time.
pub struct Effort {
    pub quick: bool,
    rounds: usize,
    seconds: f64,
}

impl Effort {
    pub fn new(quick: bool) -> Self {
        if quick {
            Effort { quick, rounds: 2, seconds: 0.1 }
        } else {
            Effort { quick, rounds: 5, seconds: 1.5 }
        }
    }

    /// The best time of each of `count` calls, which are called in turns; a call gives its own time.
    pub fn best(&self, count: usize, mut call: impl FnMut(usize) -> f64) -> Vec<f64> {
        let start = now();
        let mut best = vec![f64::INFINITY; count];
        let mut round = 0;
        while round < self.rounds || now() - start < self.seconds {
            for (which, least) in best.iter_mut().enumerate() {
                *least = least.min(call(which));
            }
            round += 1;
        }
        best
    }

    /// The reference's time over the library's.
    pub fn ratio(&self, report: &mut Report, what: &str, pair: &mut impl Pair) -> f64 {
        let best = self.best(2, |which| if which == 0 { reference(pair) } else { library(pair) });
        held(report, what, pair, best[0] / best[1])
    }
}

/// A ratio of calls that were made is one where their answers are the same, and else no number.
pub fn held(report: &mut Report, what: &str, pair: &impl Pair, ratio: f64) -> f64 {
    report.count("answers compared", 1);
    if pair.agree() {
        return ratio;
    }
    report.differs(what);
    f64::NAN
}

pub fn reference(pair: &mut impl Pair) -> f64 {
    pair.before_reference();
    timed(|| pair.reference())
}

pub fn library(pair: &mut impl Pair) -> f64 {
    pair.before_library();
    timed(|| pair.library())
}

fn timed(call: impl FnOnce()) -> f64 {
    let start = now();
    call();
    now() - start
}
