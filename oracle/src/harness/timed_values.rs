//! Times functions of one value: over a list of inputs, for each value.

use super::timing::{Effort, Row, time};
use std::fmt::Debug;
use std::hint::black_box;

/// A function of a value beside one of the Rust, timed for each value.
pub fn value_row<I: Copy>(
    operation: String,
    part: &'static str,
    inputs: &[I],
    effort: &Effort,
    mut port: impl FnMut(I) -> u64,
    mut rust: impl FnMut(I) -> u64,
) -> Row {
    let port = |_| all_of(inputs, &mut port);
    let rust = |_| all_of(inputs, &mut rust);
    Row {
        operation,
        part,
        times: time(effort, port, rust).per(inputs.len()),
    }
}

/// The function at each input. It gives bits; those of all results are put together, so that each
/// is needed.
fn all_of<I: Copy>(inputs: &[I], mut function: impl FnMut(I) -> u64) {
    let inputs = black_box(inputs).iter();
    black_box(inputs.fold(0, |all, &input| all ^ function(input)));
}

/// The function of the port is first seen to agree with the Rust's.
pub fn agree<I: Copy + Debug>(
    inputs: &[I],
    mut port: impl FnMut(I) -> u64,
    mut rust: impl FnMut(I) -> u64,
) {
    for &input in inputs {
        assert_eq!(port(input), rust(input), "{input:?}");
    }
}
