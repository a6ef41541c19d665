//! The root: the `f64` nearest to a number's root.

use super::Operation;
use crate::harness::function::Function;
use crate::harness::rng::Rng;
use crate::harness::run::Plan;
use crate::harness::stored::Record;
use crate::harness::tally::Row;
use crate::harness::timed_values::{agree, value_row};
use crate::harness::timing::{self, Effort};
use crate::inputs::floats::{self, One};
use crate::inputs::timed_floats::{FLOATS, WHOLE, finite_numbers, whole_pairs};
use sillurwy::ffi;

pub const OPERATION: Operation = Operation {
    name: "root",
    number: Some(13),
    part: "floats",
    streams: &[STREAM],
    compare,
    bench,
    stored,
};

// ---- The operation, and what is compared

/// The stream of its random numbers.
const STREAM: u64 = 400;

/// The nearest root.
pub fn function() -> Function<One, f64> {
    Function {
        name: "root",
        port: |x| ffi::root(x.value()),
        rust: |x| x.value().sqrt(),
        near: None,
        departs: None,
        special: floats::special_ones(),
        classes: floats::ROOT,
    }
}

fn compare(plan: &Plan) -> Vec<Row> {
    vec![function().compare(plan.seed, STREAM, plan.floats)]
}

// ---- The benchmark

/// The Rust's, called once for each value, as the port's is: inlined, the compiler would do several
/// values at once.
#[inline(never)]
extern "C" fn rust(x: f64) -> f64 {
    x.sqrt()
}

/// Random bits of subnormals above zero: most have nearly all digits.
fn subnormals() -> Vec<f64> {
    let mut rng = Rng::new(1);
    let number = |_| f64::from_bits(1 + rng.next_u64() % (f64::MIN_POSITIVE.to_bits() - 1));
    (0..FLOATS).map(number).collect()
}

/// Subnormals above zero that have any count of digits.
fn short_subnormals() -> Vec<f64> {
    let mut rng = Rng::new(1);
    let leading = f64::MIN_POSITIVE.to_bits() / 2;
    let number = |_| f64::from_bits((rng.next_u64() % leading + leading) >> rng.below(52));
    (0..FLOATS).map(number).collect()
}

fn root_row(what: &str, inputs: &[f64], effort: &Effort) -> timing::Row {
    let port = |x| ffi::root(x).to_bits();
    let sqrt = |x| rust(x).to_bits();
    agree(inputs, port, sqrt);
    let operation = format!("root, {what}");
    value_row(operation, "`sqrt`", inputs, effort, port, sqrt)
}

fn bench(effort: &Effort) -> Vec<timing::Row> {
    let whole = WHOLE.map(|(limit, what)| {
        let pairs = whole_pairs(limit);
        let squares: Vec<f64> = pairs.iter().map(|x| x.norm_sqr()).collect();
        root_row(what, &squares, effort)
    });
    let numbers = finite_numbers(FLOATS);
    let sizes: Vec<f64> = numbers.iter().map(|x| x.abs()).collect();
    let mut rows = Vec::from(whole);
    rows.push(root_row("any finite bits above zero", &sizes, effort));
    rows.push(root_row("subnormals", &subnormals(), effort));
    let what = "subnormals of any number of digits";
    rows.push(root_row(what, &short_subnormals(), effort));
    rows
}

// ---- Stored answers

fn stored(rng: &mut Rng) -> Vec<Record> {
    function().stored(rng, |record, x| record.wide(&[x.0]))
}

#[cfg(test)]
mod tests {
    use super::*;

    #[test]
    fn some_of_each_are_stored() {
        let records = stored(&mut Rng::new(1));
        assert!(records.len() > 180 && records.len() <= 120 + 180);
        // The head, a number, and the root behind how many are written.
        let size = 22 + 8 + 3 + 8;
        assert!(records.iter().all(|record| record.stored(13).len() == size));
    }
}
