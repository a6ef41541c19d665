//! Departures of the untouched Rust, whose norms are `hypot`, are counted by themselves.
//!
//! An infinity beside a NaN departs with every C library, since `hypot` is infinite there by rule.

use oracle::acquire::{Oracle, Untouched};
use oracle::harness::call::{Call, Floats};
use oracle::harness::function::Function;
use oracle::harness::run;
use oracle::inputs::floats::Pair;
use oracle::isdb::params::{Mode, SEGMENTS};
use oracle::ops::detect_mode::GuessCall;
use oracle::ops::detect_sp_phase::{PhaseCall, Port, answer, write};
use oracle::ops::estimate_grid::GridCall;
use oracle::ops::frame_start::StartCall;
use oracle::ops::samples_needed::NeededCall;
use oracle::ops::tmcc_soft::TmccCall;
use oracle::ops::{norm32, root};

/// The smallest pair of `f32`, by its bits, of the special ones whose `hypot` is not their norm.
fn smallest_departing_pair() -> Pair<u32> {
    let Function {
        rust,
        departs,
        special,
        ..
    } = norm32::function();
    let departs = departs.expect("norms have a second answer");
    let departing = special
        .into_iter()
        .filter(|&pair| departs(pair, rust(pair)));
    let smallest = departing.min();
    smallest.expect("some pair departs")
}

#[test]
fn a_departing_norm_is_no_difference() {
    let pair = smallest_departing_pair();
    assert_eq!(pair.value().re, f32::INFINITY);
    assert!(pair.value().im.is_nan());
    let function = Function {
        special: vec![pair],
        ..norm32::function()
    };
    let row = function.compare(1, 0, 0);
    assert_eq!((row.cases(), row.differences()), (1, 0));
    assert_eq!((row.departures(), row.smallest()), (Some(1), None));
}

#[test]
fn a_function_without_a_norm_is_not_asked() {
    assert_eq!(root::function().compare(1, 0, 100).departures(), None);
}

/// One spectrum whose first pilot is an infinity and a NaN, the next of its phase 1. With the
/// requirement's norm its phase is given 0 and wins, and the symbol is silent; with `hypot` it is given
/// NaN, and the symbol is heard.
fn departing_phase() -> PhaseCall {
    let mut floats = vec![0.0; 2 * Mode::M1.total_carriers()];
    floats[..2].copy_from_slice(&[f32::INFINITY, f32::NAN]);
    floats[24] = 1.0;
    PhaseCall {
        mode: 1,
        spectra: Floats(floats),
        kinds: vec![0; SEGMENTS],
    }
}

#[test]
fn a_departing_phase_is_no_difference() {
    let outcome = departing_phase().run(PhaseCall::LINKED, 1);
    assert_eq!((outcome.difference, outcome.departs), (None, Some(true)));
}

#[test]
fn a_symbol_is_silent_by_one_norm_and_heard_by_the_other() {
    let call = departing_phase();
    assert_eq!(call.answer::<Oracle>().unwrap().lead, 0);
    assert_eq!(call.answer::<Untouched>().unwrap().lead, 1);
}

#[test]
fn the_untouched_rust_in_the_place_of_the_port_differs() {
    let port: Port =
        |mode, kinds, spectra, out| write(answer::<Untouched>(mode, kinds, spectra), out);
    let outcome = departing_phase().run(port, 1);
    assert!(outcome.difference.is_some());
    assert_eq!(outcome.departs, Some(false));
}

/// The departures on random calls of an operation.
fn departures<C: Call>() -> Option<u64> {
    let row = run::random::<C>(C::LINKED, 1, 200);
    assert_eq!(row.differences(), 0);
    row.departures()
}

#[test]
fn what_has_no_norm_departs_nowhere() {
    assert_eq!(departures::<TmccCall>(), Some(0));
    assert_eq!(departures::<NeededCall>(), Some(0));
    assert_eq!(departures::<StartCall>(), None);
    assert_eq!(departures::<GridCall>(), None);
    assert!(departures::<GuessCall>().is_some());
}
