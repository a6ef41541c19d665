//! The shift.

use crate::{count, has_no_difference, keeps_the_claim, quiet_band};
use oracle::acquire::Oracle;
use oracle::codes::MODES;
use oracle::harness::call::Call;
use oracle::harness::rng::Rng;
use oracle::inputs::captures::Places;
use oracle::isdb::params::Mode;
use oracle::ops::integer_cfo::{self, Port, ShiftArguments, ShiftCall, answer, pattern};

#[test]
fn the_shift_of_a_band_is_found() {
    let mut rng = Rng::new(1);
    for shift in [-64, -1, 0, 5, 64] {
        for mode in MODES {
            let choice = rng.choice();
            let mut band = quiet_band(&mut rng, mode, choice);
            band.shift = shift;
            let spectra = band.spectra(&mut rng, Places::Bins, 8);
            let n = mode.fft_size();
            let found = answer::<Oracle>(mode.number(), &spectra, 70, n).unwrap();
            assert_eq!(found.shift, shift);
            assert!(found.score > 0.9, "{}", found.score);
        }
    }
}

#[test]
fn random_calls_meet_ties_nans_and_single_spectra() {
    let found = |call: &ShiftCall| call.answer::<Oracle>().ok();
    let accepted = count(|call| found(call).is_some());
    let ties = count(|call: &ShiftCall| {
        found(call).is_some_and(|found| {
            let pattern = pattern(Mode::from_number(call.mode).unwrap());
            let score = |shift| integer_cfo::score(&pattern, &found.ratios, shift);
            let bound = call.bound as i64;
            (-bound..=bound).any(|shift| shift != found.shift && score(shift) == found.score)
        })
    });
    let nans = count(|call| {
        found(call).is_some_and(|found| found.ratios.iter().any(|ratio| ratio.is_nan()))
    });
    let one = count(|call| found(call).is_some() && call.spectra.0.len() == 2 * call.ratios);
    let unwon = count(|call| found(call).is_some_and(|found| found.score < 0.0));
    for (what, count) in [("ties", ties), ("NaNs", nans), ("single", one)] {
        assert!(count > 30, "{what}: {count}");
    }
    assert!(unwon > 10, "no score wins: {unwon}");
    assert!(accepted > 450, "accepted: {accepted}");
}

fn has_none(port: Port) {
    has_no_difference::<ShiftCall>(port, 100);
    keeps_the_claim::<ShiftArguments>(port, 100);
}

#[test]
fn the_port_has_no_difference() {
    has_none(ShiftCall::LINKED);
}

#[test]
fn the_rust_has_no_difference_to_itself() {
    has_none(ShiftCall::RUST);
}
