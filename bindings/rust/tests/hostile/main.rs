//! Ten thousand wrong calls: each is refused with document 01's number, and nothing is written.

mod call;
mod cases;
mod model;
mod rng;

use call::Kind;
use rng::Rng;
use std::collections::BTreeSet;

const CALLS: usize = 10_000;

#[test]
fn wrong_calls_get_their_number_and_change_nothing() {
    let mut rng = Rng(2024);
    let mut met = BTreeSet::new();
    let (mut refused, mut done) = (0, 0);
    while refused < CALLS {
        let kind = rng.pick(Kind::ALL);
        let mut call = cases::any(&mut rng, kind);
        cases::damage(&mut rng, &mut call);
        let (before, number) = (call.clone(), model::number(&call));
        let found = call.make();
        assert_eq!(found, number, "{before:?}");
        met.insert((kind, number));
        if number == 0 {
            // What was made other is not looked at, or is as legal as before.
            done += 1;
        } else {
            assert_eq!(call, before, "refused with {number}, and something is written");
            refused += 1;
        }
    }
    for &kind in Kind::ALL {
        for &number in model::numbers(kind) {
            assert!(met.contains(&(kind, number)), "no {kind:?} call was refused with {number}");
        }
    }
    println!("{refused} calls refused, {done} done");
}
