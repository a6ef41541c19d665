//! The ratio of one bin.

use crate::{count, has_no_difference, keeps_the_claim, quiet_band};
use oracle::acquire::Oracle;
use oracle::codes::MODES;
use oracle::harness::rng::Rng;
use oracle::inputs::captures::Places;
use oracle::ops::bin_ratio::{Ports, RatioArguments, RatioCall, RatiosLeft, answer, bin_pairs};

#[test]
fn the_edge_of_a_band_repeats_itself() {
    let mut rng = Rng::new(1);
    for mode in MODES {
        let len = mode.total_carriers();
        let choice = rng.choice();
        let band = quiet_band(&mut rng, mode, choice);
        let spectra = band.spectra(&mut rng, Places::Carriers, 32);
        let ratio = answer::<Oracle>(&bin_pairs(&spectra, len, len - 1)).unwrap();
        assert!(ratio > 0.9, "{ratio}");
    }
}

#[test]
fn random_calls_meet_nans_silence_and_many_pairs() {
    let ratio = |call: &RatioCall| answer::<Oracle>(&call.pairs.0);
    let pairs = |call: &RatioCall| call.pairs.0.len() / 2;
    let is = |call: &RatioCall, property: fn(f32) -> bool| ratio(call).is_ok_and(property);
    let nans = count(|call| is(call, f32::is_nan));
    let zeros = count(|call| pairs(call) > 1 && is(call, |ratio| ratio == 0.0));
    let usual = count(|call| pairs(call) > 2 && is(call, |ratio| ratio > 0.0 && ratio < 1.0));
    let above = count(|call| is(call, |ratio| ratio > 1.0));
    let one = count(|call| pairs(call) == 1 && ratio(call).is_ok());
    let many = count(|call| pairs(call) > 200 && ratio(call).is_ok());
    let refused = count(|call| ratio(call).is_err());
    for (what, count, least) in [
        ("NaNs", nans, 20),
        ("zeros", zeros, 50),
        ("usual", usual, 200),
        ("above 1", above, 5),
        ("one pair", one, 30),
        ("many", many, 8),
        ("refused", refused, 10),
    ] {
        assert!(count >= least, "{what}: {count}");
    }
}

fn has_none(ports: Ports) {
    has_no_difference::<RatioCall>(ports.ratio, 600);
    keeps_the_claim::<RatioArguments>(ports.ratio, 600);
    keeps_the_claim::<RatiosLeft>(ports, 100);
}

#[test]
fn the_port_has_no_difference() {
    has_none(Ports::LINKED);
}

#[test]
fn the_rust_has_no_difference_to_itself() {
    has_none(Ports::RUST);
}
