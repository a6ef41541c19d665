//! Mistakes in the kinds.

use crate::{first_pair, is_broken, is_found, is_found_at_boundary, quiet, unsquared};
use oracle::acquire::Oracle;
use oracle::harness::call::Call;
use oracle::ops::detect_kinds::{KindsArguments, KindsCall, Port, answer, write};

const RUST: Port = KindsCall::RUST;

#[test]
fn a_ratio_from_the_first_pair_only_is_found() {
    is_found::<KindsCall>("kinds", |mode, spectra, ratios, kinds, scores| {
        let ask = |spectra: &[f32]| answer::<Oracle>(mode, spectra, ratios.len());
        let answer = ask(spectra).and_then(|_| ask(first_pair(ratios.len(), spectra)));
        write(answer, ratios, kinds, scores)
    });
}

#[test]
fn mistakes_in_the_kinds_are_found() {
    is_found::<KindsCall>(
        "a score of 0.5 is differential",
        |mode, spectra, ratios, kinds, scores| {
            let code = RUST(mode, spectra, ratios, kinds, scores);
            if code == 0 {
                let judged = kinds.iter_mut().zip(scores.iter());
                judged.for_each(|(kind, &score)| *kind = u8::from(score >= 0.5));
            }
            code
        },
    );
    is_found::<KindsCall>(
        "a NaN is differential",
        |mode, spectra, ratios, kinds, scores| {
            let code = RUST(mode, spectra, ratios, kinds, scores);
            if code == 0 {
                let judged = kinds.iter_mut().zip(scores.iter());
                judged.for_each(|(kind, score)| *kind |= u8::from(score.is_nan()));
            }
            code
        },
    );
    is_found::<KindsCall>(
        "another order of segments",
        |mode, spectra, ratios, kinds, scores| {
            let code = RUST(mode, spectra, ratios, kinds, scores);
            if code == 0 {
                kinds.reverse();
                scores.reverse();
            }
            code
        },
    );
}

#[test]
fn a_refusal_that_quiets_nans_is_found() {
    is_found_at_boundary::<KindsCall>("scores", |mode, spectra, ratios, kinds, scores| {
        let code = RUST(mode, spectra, ratios, kinds, scores);
        if code != 0 {
            scores.iter_mut().for_each(quiet);
        }
        code
    });
}

#[test]
fn ratios_that_depend_on_a_sign_break_the_claim() {
    is_broken::<KindsArguments>("ratios", |mode, spectra, ratios, kinds, scores| {
        let code = RUST(mode, spectra, ratios, kinds, scores);
        if code == 0 {
            ratios.copy_from_slice(&unsquared(spectra, ratios.len()));
        }
        code
    });
}
