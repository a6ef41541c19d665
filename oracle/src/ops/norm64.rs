//! The norm of a pair of `f64`.

use super::Operation;
use crate::complex::{C64, hypot};
use crate::harness::function::Function;
use crate::harness::rng::Rng;
use crate::harness::run::Plan;
use crate::harness::stored::Record;
use crate::harness::tally::Row;
use crate::harness::timing::{self, Effort};
use crate::harness::value::Value;
use crate::inputs::floats::{self, Pair};
use crate::inputs::timed_floats::{ANY, WHOLE, finite_pairs, norm_rows, whole_pairs};
use sillurwy::ffi;

pub const OPERATION: Operation = Operation {
    name: "norm64",
    number: Some(16),
    part: "floats",
    streams: &[STREAM],
    compare,
    bench,
    stored,
};

// ---- The operation, and what is compared

/// The stream of its random numbers.
const STREAM: u64 = 403;

/// Norm of a pair of `f64`.
pub fn function() -> Function<Pair<u64>, f64> {
    Function {
        name: "norm64",
        port: |pair| ffi::norm64(pair.value().re, pair.value().im),
        rust: |pair| pair.value().norm(),
        near: None,
        departs: Some(|pair, port| {
            let norm = hypot::C64::new(pair.value().re, pair.value().im).norm();
            norm.compared_bits() != port.compared_bits()
        }),
        special: floats::special_pairs_64(),
        classes: floats::NORM_64,
    }
}

fn compare(plan: &Plan) -> Vec<Row> {
    vec![function().compare(plan.seed, STREAM, plan.floats)]
}

// ---- The benchmark

// The Rust's, called once for each value, as the port's is: inlined, the compiler would do several
// values at once.

#[inline(never)]
extern "C" fn rust_norm(re: f64, im: f64) -> f64 {
    C64::new(re, im).norm()
}

#[inline(never)]
extern "C" fn rust_hypot(re: f64, im: f64) -> f64 {
    re.hypot(im)
}

fn rows(what: &str, inputs: &[C64], effort: &Effort) -> [timing::Row; 2] {
    norm_rows(
        format!("norm64, {what}"),
        inputs,
        effort,
        |x| ffi::norm64(x.re, x.im).to_bits(),
        |x| rust_norm(x.re, x.im).to_bits(),
        |x| rust_hypot(x.re, x.im).to_bits(),
    )
}

fn bench(effort: &Effort) -> Vec<timing::Row> {
    let whole = WHOLE.map(|(limit, what)| rows(what, &whole_pairs(limit), effort));
    let any = rows(ANY, &finite_pairs(), effort);
    whole.into_iter().flatten().chain(any).collect()
}

// ---- Stored answers

fn stored(rng: &mut Rng) -> Vec<Record> {
    function().stored(rng, |record, pair| record.wide(&[pair.re, pair.im]))
}

#[cfg(test)]
mod tests {
    use super::*;

    #[test]
    fn some_of_each_are_stored() {
        let records = stored(&mut Rng::new(1));
        assert!(records.len() > 180 && records.len() <= 120 + 180);
        // The head, two numbers, and the norm behind how many are written.
        let size = 22 + 2 * 8 + 3 + 8;
        assert!(records.iter().all(|record| record.stored(16).len() == size));
    }
}
