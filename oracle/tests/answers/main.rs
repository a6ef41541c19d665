//! The oracle's answers: the requirement's checked values, captures whose answers are known, and
//! that the random calls meet what is hard. What is checked of the oracle is checked of the port as
//! well, where the port is asked. A module has the tests of one operation.

mod bin_ratio;
mod detect_kinds;
mod detect_mode;
mod detect_sp_phase;
mod estimate_grid;
mod frame_start;
mod integer_cfo;
mod samples_needed;
mod tmcc_soft;

use oracle::harness::call::Call;
use oracle::harness::changed::{self, Claim};
use oracle::harness::rng::Rng;
use oracle::harness::run;
use oracle::inputs::captures::Band;
use oracle::isdb::params::Mode;
use oracle::ops::OPERATIONS;

/// A band with little noise.
fn quiet_band(rng: &mut Rng, mode: Mode, choice: u16) -> Band {
    let mut band = Band::new(rng, mode, choice);
    (band.noise, band.scale, band.whole, band.slope) = (0.01, 1.0, false, 0.002);
    band
}

/// How many of many random calls have a property.
fn count<C: Call>(property: impl Fn(&C) -> bool) -> usize {
    let call = |index| C::random(&mut Rng::for_case(1, C::STREAM, index));
    (0..600).filter(|&index| property(&call(index))).count()
}

/// The port has no difference at the boundaries and on random calls.
fn has_no_difference<C: Call>(port: C::Port, cases: usize) {
    let rows = [
        run::boundary::<C>(port, 2),
        run::random::<C>(port, 2, cases),
    ];
    for row in rows {
        assert!(row.cases() > 0);
        assert_eq!(row.smallest(), None, "{}", row.name());
    }
}

/// The port keeps what is claimed of changed captures.
fn keeps_the_claim<C: Claim>(port: C::Port, cases: usize) {
    let row = changed::claim::<C>(port, 2, cases);
    assert!(row.cases() > 0);
    assert_eq!(row.smallest(), None, "{}", row.name());
}

/// Bytes of the stored answers of a part of the requirement.
fn stored_bytes(part: &str, seed: u64) -> usize {
    let operations = OPERATIONS.iter().filter(|operation| operation.part == part);
    let records = operations.flat_map(|operation| (operation.stored)(&mut Rng::new(seed)));
    records.map(|record| record.stored(1).len()).sum()
}

#[test]
fn the_stored_answers_are_small() {
    for seed in 1..4 {
        assert!(stored_bytes("acquisition", seed) < 400_000);
        assert!(stored_bytes("grid", seed) < 250_000);
    }
}
