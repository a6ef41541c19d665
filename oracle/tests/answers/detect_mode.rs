//! The guess.

use crate::{count, has_no_difference, keeps_the_claim};
use oracle::acquire::Oracle;
use oracle::codes::{GUARDS, MODES};
use oracle::harness::call::{Call, Floats};
use oracle::harness::rng::Rng;
use oracle::inputs::arguments::{fewest_pairs, mode_numbers};
use oracle::inputs::captures::draw;
use oracle::inputs::samples;
use oracle::isdb::params::{GuardInterval, Mode};
use oracle::ops::cfo_frac;
use oracle::ops::detect_mode::{Guess, GuessArguments, GuessCall, Port, answer, scratch_needed};
use sillurwy::ffi;

/// The guess with only 1/32 tried in mode 1, on both sides.
fn guess_of(samples: Vec<f32>) -> Option<Guess> {
    let scratch = scratch_needed(samples.len() / 2);
    let call = GuessCall {
        samples: Floats(samples),
        modes: vec![1],
        guards: vec![32],
        scratch,
    };
    assert_eq!(call.run(GuessCall::LINKED, 1).difference, None);
    call.answer::<Oracle>().unwrap()
}

#[test]
fn too_few_samples_find_nothing() {
    assert_eq!(fewest_pairs(Mode::M1, GuardInterval::G1_32), 10_560);
    let mut rng = Rng::new(1);
    assert_eq!(guess_of([1.0, 0.0].repeat(10_559)), None);
    assert_eq!(guess_of(vec![f32::NAN; 2 * 10_559]), None);
    for _ in 0..16 {
        let guard = GuardInterval::G1_32;
        let samples = samples::samples(&mut rng, Mode::M1, guard, 2 * 10_559);
        assert_eq!(guess_of(samples), None);
        let any = (0..2 * 10_559).map(|_| draw::special(&mut rng)).collect();
        assert_eq!(guess_of(any), None);
    }
}

#[test]
fn enough_samples_of_one_find_offset_0() {
    let guess = guess_of([1.0, 0.0].repeat(10_560)).unwrap();
    assert_eq!((guess.mode, guess.guard, guess.offset), (1, 32, 0));
    assert_eq!((guess.metric, guess.re, guess.im), (1.0, 256.0, 0.0));
}

#[test]
fn silence_is_not_found_and_nan_is() {
    assert_eq!(guess_of(vec![0.0; 2 * 10_560]), None);
    let guess = guess_of(vec![f32::NAN; 2 * 10_560]).unwrap();
    assert_eq!(guess.offset, 0);
    assert!(guess.metric.is_nan());
}

#[test]
fn the_guard_of_symbols_is_found() {
    let mut rng = Rng::new(3);
    for mode in MODES {
        for number in GUARDS {
            let guard = GuardInterval::from_denominator(usize::from(number)).unwrap();
            // As many symbols as the search takes of the longest candidate.
            let pairs = fewest_pairs(Mode::M3, GuardInterval::G1_4);
            let floats = samples::received(&mut rng, mode, guard, pairs, (0.1, 1.0));
            let scratch = scratch_needed(pairs);
            let guess = answer::<Oracle>(&floats, &mode_numbers(), &GUARDS, scratch);
            let guess = guess.unwrap().unwrap();
            assert_eq!((guess.mode, guess.guard), (mode.number(), number));
            assert!(guess.metric > 0.9, "{}", guess.metric);
        }
    }
}

#[test]
fn random_calls_meet_nans_and_silence() {
    let found = |call: &GuessCall| call.answer::<Oracle>().ok();
    let nothing = count(|call| found(call) == Some(None));
    let guess = |call: &GuessCall| found(call).flatten();
    let nans = count(|call| guess(call).is_some_and(|guess| guess.metric.is_nan()));
    let later = count(|call| guess(call).is_some_and(|guess| guess.offset > 0));
    for (what, count) in [("nothing", nothing), ("NaN", nans), ("later", later)] {
        assert!(count > 50, "{what}: {count}");
    }
}

fn has_none(port: Port, cfo_frac: cfo_frac::Port) {
    has_no_difference::<GuessCall>(port, 100);
    keeps_the_claim::<GuessArguments>((port, cfo_frac), 100);
}

#[test]
fn the_port_has_no_difference() {
    has_none(GuessCall::LINKED, ffi::cfo_frac);
}

#[test]
fn the_rust_has_no_difference_to_itself() {
    has_none(GuessCall::RUST, cfo_frac::right);
}
