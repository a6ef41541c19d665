//! Narrowing: the `f32` nearest to a number.

use super::Operation;
use crate::harness::function::Function;
use crate::harness::rng::Rng;
use crate::harness::run::Plan;
use crate::harness::stored::Record;
use crate::harness::tally::Row;
use crate::harness::timed_values::{agree, value_row};
use crate::harness::timing::{self, Effort};
use crate::inputs::floats::{self, One};
use crate::inputs::timed_floats::{ANY, FLOATS, WHOLE, finite_numbers, whole_pairs};
use sillurwy::ffi;

pub const OPERATION: Operation = Operation {
    name: "narrow",
    number: Some(14),
    part: "floats",
    streams: &[STREAM],
    compare,
    bench,
    stored,
};

// ---- The operation, and what is compared

/// The stream of its random numbers.
const STREAM: u64 = 401;

/// Narrowing to `f32`.
pub fn function() -> Function<One, f32> {
    Function {
        name: "narrow",
        port: |x| ffi::narrow(x.value()),
        rust: |x| x.value() as f32,
        near: None,
        departs: None,
        special: floats::special_ones(),
        classes: floats::NARROW,
    }
}

fn compare(plan: &Plan) -> Vec<Row> {
    vec![function().compare(plan.seed, STREAM, plan.floats)]
}

// ---- The benchmark

/// The Rust's, called once for each value, as the port's is: inlined, the compiler would do several
/// values at once.
#[inline(never)]
extern "C" fn rust(x: f64) -> f32 {
    x as f32
}

fn narrow_row(what: &str, inputs: &[f64], effort: &Effort) -> timing::Row {
    let port = |x| u64::from(ffi::narrow(x).to_bits());
    let cast = |x| u64::from(rust(x).to_bits());
    agree(inputs, port, cast);
    let operation = format!("narrow, {what}");
    value_row(operation, "`as f32`", inputs, effort, port, cast)
}

fn bench(effort: &Effort) -> Vec<timing::Row> {
    let whole = WHOLE.map(|(limit, what)| {
        let pairs = whole_pairs(limit);
        let norms: Vec<f64> = pairs.iter().map(|x| x.norm()).collect();
        narrow_row(what, &norms, effort)
    });
    let mut rows = Vec::from(whole);
    rows.push(narrow_row(ANY, &finite_numbers(FLOATS), effort));
    rows
}

// ---- Stored answers

fn stored(rng: &mut Rng) -> Vec<Record> {
    function().stored(rng, |record, x| record.wide(&[x.0]))
}

#[cfg(test)]
mod tests {
    use super::*;

    #[test]
    fn some_of_each_are_stored() {
        let records = stored(&mut Rng::new(1));
        assert!(records.len() > 180 && records.len() <= 120 + 180);
        // The head, a number, and the narrow one behind how many are written.
        let size = 22 + 8 + 3 + 4;
        assert!(records.iter().all(|record| record.stored(14).len() == size));
    }
}
