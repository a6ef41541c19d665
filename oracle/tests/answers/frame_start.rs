//! The frame start.

use crate::{count, has_no_difference};
use oracle::harness::call::Call;
use oracle::harness::run;
use oracle::ops::frame_start::{Port, StartCall, WORD, answer, every_place, starts};

#[test]
fn random_calls_meet_no_start_several_and_both_ends() {
    let values = |call: &StartCall| call.soft.0.len();
    let first = |call: &StartCall| answer(&call.soft.0);
    let none = count(|call| values(call) >= WORD && first(call).is_none());
    let short = count(|call| values(call) < WORD);
    let empty = count(|call| values(call) == 0);
    let several = count(|call: &StartCall| starts(&call.soft.0).nth(1).is_some());
    let at_once = count(|call| first(call).is_some_and(|(f, _)| f == 0));
    let at_last = count(|call| first(call).is_some_and(|(f, _)| f > 0 && f + WORD == values(call)));
    for (what, count, least) in [
        ("none", none, 100),
        ("short", short, 100),
        ("empty", empty, 3),
        ("several", several, 30),
        ("at once", at_once, 50),
        ("at last", at_last, 30),
    ] {
        assert!(count >= least, "{what}: {count}");
    }
}

fn has_none(port: Port) {
    has_no_difference::<StartCall>(port, 100);
    let row = run::list(port, &every_place()).row(StartCall::TITLE);
    assert_eq!(row.smallest(), None);
}

#[test]
fn the_port_has_no_difference() {
    has_none(StartCall::LINKED);
}

#[test]
fn the_rust_has_no_difference_to_itself() {
    has_none(StartCall::RUST);
}
