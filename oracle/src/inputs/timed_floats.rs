//! Floats with which the functions of floats are timed, and the rows of the norms.
//!
//! Acquisition has whole parts; of these the root is given sums of two squares, and narrowing their
//! roots.

use super::angles;
use super::floats::alike_64;
use crate::complex::C64;
use crate::harness::rng::Rng;
use crate::harness::timed_values::{agree, value_row};
use crate::harness::timing::{Effort, Row};
use std::fmt::Debug;

/// Number of inputs of a function of floats.
pub const FLOATS: usize = 4096;

/// Limits of whole parts, and their words.
pub const WHOLE: [(u32, &str); 2] = [
    (1 << 15, "whole parts up to 2^15"),
    (1 << 23, "whole parts up to 2^23"),
];

/// The words of finite numbers.
pub const ANY: &str = "any finite bits";

/// Pairs of whole numbers up to `limit`, with either sign.
pub fn whole_pairs(limit: u32) -> Vec<C64> {
    let mut rng = Rng::new(1);
    let mut part = || rng.below(2 * limit as usize + 1) as f64 - f64::from(limit);
    (0..FLOATS).map(|_| C64::new(part(), part())).collect()
}

/// Random bits of finite numbers.
pub fn finite_numbers(count: usize) -> Vec<f64> {
    let mut rng = Rng::new(1);
    let any = || Some(f64::from_bits(rng.next_u64()));
    let finite = std::iter::from_fn(any).filter(|x| x.is_finite());
    finite.take(count).collect()
}

/// Random bits of pairs of finite numbers.
pub fn finite_pairs() -> Vec<C64> {
    let numbers = finite_numbers(2 * FLOATS);
    let pair = |parts: &[f64]| C64::new(parts[0], parts[1]);
    numbers.chunks_exact(2).map(pair).collect()
}

/// Both parts of guesses that were found, in any octant.
fn guessed_pairs() -> Vec<C64> {
    let mut rng = Rng::new(1);
    let any = || Some(angles::guess(&mut rng).value());
    let finite = |pair: &C64| pair.re.is_finite() && pair.im.is_finite();
    std::iter::from_fn(any)
        .filter(finite)
        .take(FLOATS)
        .collect()
}

/// Pairs whose parts are of about one size.
fn alike_pairs() -> Vec<C64> {
    let mut rng = Rng::new(1);
    (0..FLOATS).map(|_| alike_64(&mut rng).value()).collect()
}

/// What angle and fractional offset are timed on, with its words.
pub fn timed_pairs() -> Vec<(&'static str, Vec<C64>)> {
    let mut pairs = vec![("parts of guesses", guessed_pairs())];
    pairs.extend(WHOLE.map(|(limit, what)| (what, whole_pairs(limit))));
    pairs.push(("parts of about one size", alike_pairs()));
    pairs.push((ANY, finite_pairs()));
    pairs
}

/// A norm beside that of the comparison, with which it is first seen to agree, and beside `hypot`.
pub fn norm_rows<I: Copy + Debug>(
    operation: String,
    inputs: &[I],
    effort: &Effort,
    port: impl Fn(I) -> u64,
    sqrt: impl Fn(I) -> u64,
    hypot: impl Fn(I) -> u64,
) -> [Row; 2] {
    agree(inputs, &port, &sqrt);
    let part = "`sqrt`, the norm of the comparison";
    [
        value_row(operation.clone(), part, inputs, effort, &port, &sqrt),
        value_row(operation, "`hypot`", inputs, effort, &port, &hypot),
    ]
}
