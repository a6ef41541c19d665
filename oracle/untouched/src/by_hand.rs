//! Calls made by hand: as few floats that are not zero as a departure needs.

use oracle::harness::call::Floats;
use oracle::inputs::arguments::fewest_pairs;
use oracle::isdb::params::{GuardInterval, Mode, SEGMENTS};
use oracle::ops::detect_mode::{GuessCall, scratch_needed};
use oracle::ops::detect_sp_phase::PhaseCall;

/// Zeros, but for these pairs at their places.
fn zeros_but(pairs: usize, others: &[(usize, [f32; 2])]) -> Floats {
    let mut floats = vec![0.0; 2 * pairs];
    for &(at, pair) in others {
        floats[2 * at..2 * at + 2].copy_from_slice(&pair);
    }
    Floats(floats)
}

/// A guess in mode 1 with guard 1/32, of the fewest samples: zeros, but for these pairs.
fn guess(others: &[(usize, [f32; 2])]) -> GuessCall {
    let pairs = fewest_pairs(Mode::M1, GuardInterval::G1_32);
    GuessCall {
        samples: zeros_but(pairs, others),
        modes: vec![1],
        guards: vec![32],
        scratch: scratch_needed(pairs),
    }
}

/// The sum of products at offset 0 is (91, 98), whose norms depart, and so do the metrics. Three
/// numbers are needed, since a sum on an axis has the same norm on both sides; with glibc 2.36 none
/// do that are all below 14.
pub fn metric_departs() -> GuessCall {
    guess(&[(0, [13.0, 14.0]), (2048, [7.0, 0.0])])
}

/// The sums at offsets 0 and 1985 are (135, 30) and (105, 90). Both have the squared size 19,125 and
/// the same energy, so their metrics tie and the first offset wins; with `hypot` the second is larger.
pub fn offset_departs() -> GuessCall {
    guess(&[(0, [9.0, 2.0]), (2048, [15.0, 0.0]), (4096, [7.0, -6.0])])
}

/// One spectrum of mode 1, all coherent, of zeros but for two pilots: one of an infinity and a NaN, and
/// one of 1 that is its neighbour.
fn odd_pilot(carrier: usize) -> PhaseCall {
    let pilots = [
        (carrier, [f32::INFINITY, f32::NAN]),
        (carrier + 12, [1.0, 0.0]),
    ];
    PhaseCall {
        mode: 1,
        spectra: zeros_but(Mode::M1.total_carriers(), &pilots),
        kinds: vec![0; SEGMENTS],
    }
}

/// The pilots are of phase 0. The exact norm of the first is NaN and that phase is given 0; `hypot` is
/// infinite there, the phase is given NaN, and the next one wins.
pub fn phase_departs() -> PhaseCall {
    odd_pilot(0)
}

/// The pilots are of phase 1, and phase 0 wins on both sides. The energy of phase 1 is NaN, so that the
/// symbol is silent; with `hypot` it is infinite, and the symbol is heard.
pub fn lead_departs() -> PhaseCall {
    odd_pilot(3)
}
