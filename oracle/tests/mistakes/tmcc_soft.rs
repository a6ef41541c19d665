//! Mistakes in the soft TMCC value.

use crate::{is_found, is_found_at_boundary, quiet};
use oracle::harness::call::Call;
use oracle::ops::tmcc_soft::{Port, TmccCall};

const RUST: Port = TmccCall::RUST;

#[test]
fn mistakes_in_the_soft_value_are_found() {
    is_found::<TmccCall>(
        "a sum that starts at +0.0",
        |mode, kinds, spectra, filter, value| {
            let code = RUST(mode, kinds, spectra, filter, value);
            if code == 0 {
                *value += 0.0;
            }
            code
        },
    );
    is_found::<TmccCall>(
        "a filter that keeps all",
        |mode, kinds, spectra, filter, value| {
            let filter = if filter == 1 { 2 } else { filter };
            RUST(mode, kinds, spectra, filter, value)
        },
    );
}

#[test]
fn a_refusal_that_quiets_nans_is_found() {
    is_found_at_boundary::<TmccCall>("value", |mode, kinds, spectra, filter, value| {
        let code = RUST(mode, kinds, spectra, filter, value);
        if code != 0 {
            quiet(value);
        }
        code
    });
}
