//! The kinds.

use crate::{count, has_no_difference, keeps_the_claim, quiet_band};
use oracle::acquire::Oracle;
use oracle::codes::{KINDS, MODES, kind_bytes};
use oracle::harness::call::Call;
use oracle::harness::rng::Rng;
use oracle::inputs::captures::Places;
use oracle::ops::detect_kinds::{KindsArguments, KindsCall, Port, answer};

#[test]
fn the_kinds_of_a_band_are_found() {
    let mut rng = Rng::new(1);
    for mode in MODES {
        for choice in [0, KINDS - 1, 0b1_0110_0101_1010] {
            let band = quiet_band(&mut rng, mode, choice);
            let spectra = band.spectra(&mut rng, Places::Carriers, 24);
            let (len, mode) = (mode.total_carriers(), mode.number());
            let found = answer::<Oracle>(mode, &spectra, len).unwrap();
            assert_eq!(found.kinds, kind_bytes(choice));
        }
    }
}

#[test]
fn random_calls_meet_scores_of_a_half() {
    let scores = |call: &KindsCall| {
        let found = call.answer::<Oracle>();
        found.map_or(Vec::new(), |found| found.scores.to_vec())
    };
    let half = count(|call| scores(call).contains(&0.5));
    let nans = count(|call| scores(call).iter().any(|score| score.is_nan()));
    let above = count(|call| scores(call).iter().any(|&score| score > 0.5));
    for (what, count) in [("half", half), ("NaN", nans), ("above", above)] {
        assert!(count > 20, "{what}: {count}");
    }
}

fn has_none(port: Port) {
    has_no_difference::<KindsCall>(port, 100);
    keeps_the_claim::<KindsArguments>(port, 100);
}

#[test]
fn the_port_has_no_difference() {
    has_none(KindsCall::LINKED);
}

#[test]
fn the_rust_has_no_difference_to_itself() {
    has_none(KindsCall::RUST);
}
