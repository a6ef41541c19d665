//! Mistakes in the shift.

use crate::{
    CASES, first_pair, found, is_broken, is_found, is_found_at_boundary, quiet, unsquared,
};
use oracle::acquire::Oracle;
use oracle::codes::mode_of;
use oracle::harness::call::Call;
use oracle::harness::changed;
use oracle::isdb::params::Mode;
use oracle::ops::integer_cfo::{Port, Shift, ShiftArguments, ShiftCall, answer, pattern, write};

const RUST: Port = ShiftCall::RUST;

/// The bin of the pattern, moved, to its ratio.
type RatioAt = fn(&[f32], i64) -> f32;
/// A score is better than the best one.
type Better = fn(f32, f32) -> bool;

fn wrapped(ratios: &[f32], bin: i64) -> f32 {
    ratios[bin.rem_euclid(ratios.len() as i64) as usize]
}

fn greater(score: f32, best: f32) -> bool {
    score > best
}

/// The shift by the given search.
fn searched(
    mode: u8,
    spectra: &[f32],
    bound: usize,
    ratios: usize,
    (ratio_at, better): (RatioAt, Better),
) -> Result<Shift, u8> {
    let found = answer::<Oracle>(mode, spectra, bound, ratios)?;
    let pattern = pattern(mode_of(mode)?);
    let sum = |shift: i64| -> f32 {
        let bins = pattern.iter().map(|&bin| bin as i64 + shift);
        bins.map(|bin| ratio_at(&found.ratios, bin)).sum()
    };
    let (mut shift, mut best) = (0, f32::MIN);
    for tried in -(bound as i64)..=bound as i64 {
        if better(sum(tried), best) {
            (shift, best) = (tried, sum(tried));
        }
    }
    let score = best / pattern.len() as f32;
    Ok(Shift {
        shift,
        score,
        ..found
    })
}

#[test]
fn the_search_itself_is_right() {
    let right: Port = |mode, spectra, bound, ratios, shift, score| {
        let answer = searched(mode, spectra, bound, ratios.len(), (wrapped, greater));
        write(answer, ratios, shift, score)
    };
    assert_eq!(found::<ShiftCall>(right), None);
}

#[test]
fn a_ratio_from_the_first_pair_only_is_found() {
    is_found::<ShiftCall>("shift", |mode, spectra, bound, ratios, shift, score| {
        let ask = |spectra: &[f32]| answer::<Oracle>(mode, spectra, bound, ratios.len());
        let answer = ask(spectra).and_then(|_| ask(first_pair(ratios.len(), spectra)));
        write(answer, ratios, shift, score)
    });
}

#[test]
fn a_tie_of_shifts_the_other_way_is_found() {
    is_found::<ShiftCall>(
        "the least negative of equal shifts",
        |mode, spectra, bound, ratios, shift, score| {
            let later: Better = |score, best| score >= best;
            let answer = searched(mode, spectra, bound, ratios.len(), (wrapped, later));
            write(answer, ratios, shift, score)
        },
    );
}

#[test]
fn a_shift_not_wrapped_is_found() {
    let left_out: Port = |mode, spectra, bound, ratios, shift, score| {
        let at: RatioAt = |ratios, bin| {
            let bin = usize::try_from(bin).ok();
            bin.and_then(|bin| ratios.get(bin)).copied().unwrap_or(0.0)
        };
        let answer = searched(mode, spectra, bound, ratios.len(), (at, greater));
        write(answer, ratios, shift, score)
    };
    is_found::<ShiftCall>("bins beyond the ends left out", left_out);
    is_broken::<ShiftArguments>("bins beyond the ends left out", left_out);
    is_found::<ShiftCall>(
        "wrapped at one end",
        |mode, spectra, bound, ratios, shift, score| {
            let at: RatioAt = |ratios, bin| ratios[bin.unsigned_abs() as usize % ratios.len()];
            let answer = searched(mode, spectra, bound, ratios.len(), (at, greater));
            write(answer, ratios, shift, score)
        },
    );
}

#[test]
fn mistakes_at_the_refusals_are_found() {
    is_found_at_boundary::<ShiftCall>(
        "a bound of n/2 refused",
        |mode, spectra, bound, ratios, shift, score| {
            let answer = answer::<Oracle>(mode, spectra, bound, ratios.len());
            let half = ratios.len() / 2;
            let answer = if bound == half {
                answer.and(Err(8))
            } else {
                answer
            };
            write(answer, ratios, shift, score)
        },
    );
    is_found_at_boundary::<ShiftCall>(
        "8 before 7",
        |mode, spectra, bound, ratios, shift, score| {
            let answer = answer::<Oracle>(mode, spectra, bound, ratios.len());
            let half = mode_of(mode).map_or(0, Mode::fft_size) / 2;
            let early = answer.as_ref().err() == Some(&7) && bound > half;
            let answer = if early { Err(8) } else { answer };
            write(answer, ratios, shift, score)
        },
    );
    is_found_at_boundary::<ShiftCall>(
        "a refusal that writes",
        |mode, spectra, bound, ratios, shift, score| {
            let answer = answer::<Oracle>(mode, spectra, bound, ratios.len());
            if answer.as_ref().err() == Some(&8) {
                ratios.fill(0.0);
            }
            write(answer, ratios, shift, score)
        },
    );
}

#[test]
fn a_refusal_that_quiets_nans_is_found() {
    is_found_at_boundary::<ShiftCall>("ratios", |mode, spectra, bound, ratios, shift, score| {
        let code = RUST(mode, spectra, bound, ratios, shift, score);
        if code != 0 {
            ratios.iter_mut().for_each(quiet);
        }
        code
    });
    is_found_at_boundary::<ShiftCall>("score", |mode, spectra, bound, ratios, shift, score| {
        let code = RUST(mode, spectra, bound, ratios, shift, score);
        if code != 0 {
            quiet(score);
        }
        code
    });
}

#[test]
fn ratios_that_depend_on_a_sign_break_the_claim() {
    is_broken::<ShiftArguments>("ratios", |mode, spectra, bound, ratios, shift, score| {
        let code = RUST(mode, spectra, bound, ratios, shift, score);
        if code == 0 {
            ratios.copy_from_slice(&unsquared(spectra, ratios.len()));
        }
        code
    });
}

#[test]
fn many_moved_captures_meet_the_proviso() {
    let row = changed::claim::<ShiftArguments>(RUST, 1, CASES);
    let provisos = row.provisos();
    assert_eq!(row.differences(), 0);
    assert!(provisos.asked > 400, "{provisos:?}");
    assert!(provisos.met > 100, "{provisos:?}");
    assert!(provisos.asked - provisos.met > 100, "{provisos:?}");
}
