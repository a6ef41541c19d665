//! The norm of a pair of `f32`.

use super::Operation;
use crate::complex::{C32, hypot};
use crate::harness::function::Function;
use crate::harness::rng::Rng;
use crate::harness::run::Plan;
use crate::harness::stored::Record;
use crate::harness::tally::Row;
use crate::harness::timing::{self, Effort};
use crate::harness::value::Value;
use crate::inputs::floats::{self, Pair};
use crate::inputs::timed_floats::{ANY, FLOATS, WHOLE, norm_rows, whole_pairs};
use sillurwy::ffi;

pub const OPERATION: Operation = Operation {
    name: "norm32",
    number: Some(15),
    part: "floats",
    streams: &[STREAM],
    compare,
    bench,
    stored,
};

// ---- The operation, and what is compared

/// The stream of its random numbers.
const STREAM: u64 = 402;

/// Norm of a pair of `f32`.
pub fn function() -> Function<Pair<u32>, f32> {
    Function {
        name: "norm32",
        port: |pair| ffi::norm32(pair.value().re, pair.value().im),
        rust: |pair| pair.value().norm(),
        near: None,
        departs: Some(|pair, port| {
            let norm = hypot::C32::new(pair.value().re, pair.value().im).norm();
            norm.compared_bits() != port.compared_bits()
        }),
        special: floats::special_pairs_32(),
        classes: floats::NORM_32,
    }
}

fn compare(plan: &Plan) -> Vec<Row> {
    vec![function().compare(plan.seed, STREAM, plan.floats)]
}

// ---- The benchmark

// The Rust's, called once for each value, as the port's is: inlined, the compiler would do several
// values at once.

#[inline(never)]
extern "C" fn rust_norm(re: f32, im: f32) -> f32 {
    C32::new(re, im).norm()
}

#[inline(never)]
extern "C" fn rust_hypot(re: f32, im: f32) -> f32 {
    re.hypot(im)
}

/// Random bits of pairs of finite numbers.
fn finite_pairs() -> Vec<C32> {
    let mut rng = Rng::new(1);
    let any = || Some(f32::from_bits(rng.next_u64() as u32));
    let finite = std::iter::from_fn(any).filter(|x| x.is_finite());
    let numbers: Vec<f32> = finite.take(2 * FLOATS).collect();
    let pair = |parts: &[f32]| C32::new(parts[0], parts[1]);
    numbers.chunks_exact(2).map(pair).collect()
}

fn rows(what: &str, inputs: &[C32], effort: &Effort) -> [timing::Row; 2] {
    norm_rows(
        format!("norm32, {what}"),
        inputs,
        effort,
        |x| u64::from(ffi::norm32(x.re, x.im).to_bits()),
        |x| u64::from(rust_norm(x.re, x.im).to_bits()),
        |x| u64::from(rust_hypot(x.re, x.im).to_bits()),
    )
}

fn bench(effort: &Effort) -> Vec<timing::Row> {
    let whole = WHOLE.map(|(limit, what)| {
        let pairs = whole_pairs(limit).into_iter();
        let short = pairs.map(|x| C32::new(x.re as f32, x.im as f32));
        rows(what, &short.collect::<Vec<_>>(), effort)
    });
    let any = rows(ANY, &finite_pairs(), effort);
    whole.into_iter().flatten().chain(any).collect()
}

// ---- Stored answers

fn stored(rng: &mut Rng) -> Vec<Record> {
    function().stored(rng, |record, pair| {
        record.exact_floats(&[pair.value().re, pair.value().im])
    })
}

#[cfg(test)]
mod tests {
    use super::*;

    #[test]
    fn some_of_each_are_stored() {
        let records = stored(&mut Rng::new(1));
        assert!(records.len() > 180 && records.len() <= 120 + 180);
        // The head, two floats, and the norm behind how many are written.
        let size = 22 + 2 * 4 + 3 + 4;
        assert!(records.iter().all(|record| record.stored(15).len() == size));
    }
}
