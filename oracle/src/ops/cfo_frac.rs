//! The fractional offset that both parts of a guess tell, in carrier spacings.
//!
//! The request makes it from the angle, so it equals the angle's twin negated and divided, bit for bit.
//! The Rust's own, a field of its guess, is made from `atan2`: the port's is held near that.

use super::Operation;
use super::angle::{LIMIT, TURN, apart, has_angle, twin};
use crate::complex::C64;
use crate::harness::function::{Function, Near};
use crate::harness::rng::Rng;
use crate::harness::run::Plan;
use crate::harness::stored::Record;
use crate::harness::tally::{Farthest, Row};
use crate::harness::timed_values::{agree, value_row};
use crate::harness::timing::{self, Effort};
use crate::inputs::angles;
use crate::inputs::floats::{self, Pair};
use crate::inputs::timed_floats::timed_pairs;
use sillurwy::ffi;
use std::f64::consts::PI;

pub const OPERATION: Operation = Operation {
    name: "cfo_frac",
    number: Some(21),
    part: "floats",
    streams: &[STREAM],
    compare,
    bench,
    stored,
};

// ---- The operation

/// How it is called: real and imaginary part.
pub type Port = fn(f64, f64) -> f64;

/// The Rust's, as its `detect_mode` has it.
pub fn rust(re: f64, im: f64) -> f64 {
    -C64::new(re, im).arg() / (2.0 * PI)
}

/// The request's.
pub fn right(re: f64, im: f64) -> f64 {
    f64::from(-twin(re, im)) / f64::from(TURN)
}

/// How far apart two offsets are round the circle, in the angle's units.
fn units_apart(one: f64, other: f64) -> f64 {
    let turn = f64::from(TURN);
    apart(one * turn, other * turn)
}

/// How far an offset of the port is from the Rust's. Where the parts have no angle the request names the
/// answer, +0.0, and everything else is infinitely far.
fn distance(parts: Pair<u64>, port: f64, rust: f64) -> f64 {
    if has_angle(parts) {
        return units_apart(port, rust);
    }
    if port.to_bits() == 0 {
        0.0
    } else {
        f64::INFINITY
    }
}

/// The Rust's offset of finite parts lies elsewhere on the circle.
fn departs(parts: Pair<u64>, port: f64) -> bool {
    let C64 { re, im, .. } = parts.value();
    let finite = re.is_finite() && im.is_finite();
    finite && units_apart(port, rust(re, im)) > LIMIT
}

// ---- The offset of a guess

/// What a port gives for both parts of a guess that was found, beside the Rust's own field.
#[derive(Debug, Clone, Copy)]
pub struct OfGuess {
    /// Both parts.
    pub parts: C64,
    /// The port's.
    pub port: f64,
    /// The Rust's.
    pub rust: f64,
}

impl OfGuess {
    fn bits(&self) -> Pair<u64> {
        Pair {
            re: self.parts.re.to_bits(),
            im: self.parts.im.to_bits(),
        }
    }

    /// How far the port's is from the Rust's.
    pub fn farthest(&self) -> Farthest {
        Farthest {
            distance: distance(self.bits(), self.port, self.rust),
            at: format!("parts of {}", self.bits()),
        }
    }

    /// What is wrong with it: it is too far from the Rust's, or a part is −0.0, which a sum from +0.0 on
    /// never is.
    pub fn difference(&self) -> Option<String> {
        let Farthest { distance, at } = self.farthest();
        let near = distance <= LIMIT;
        if !near {
            return Some(format!("fractional offset: {distance} units off, {at}"));
        }
        let zero = |part: f64| part == 0.0 && part.is_sign_negative();
        (zero(self.parts.re) || zero(self.parts.im)).then(|| format!("a part is −0.0: {at}"))
    }
}

// ---- What is compared

/// The stream of its random numbers.
const STREAM: u64 = 406;

/// The fractional offset of a pair.
pub fn function() -> Function<Pair<u64>, f64> {
    Function {
        name: "cfo_frac",
        port: |pair| ffi::cfo_frac(pair.value().re, pair.value().im),
        rust: |pair| right(pair.value().re, pair.value().im),
        near: Some(Near {
            distance: |pair, port| {
                let C64 { re, im, .. } = pair.value();
                distance(pair, port, rust(re, im))
            },
            limit: LIMIT,
        }),
        departs: Some(departs),
        special: floats::special_pairs_64(),
        classes: angles::ANGLE,
    }
}

fn compare(plan: &Plan) -> Vec<Row> {
    vec![function().compare(plan.seed, STREAM, plan.floats)]
}

// ---- The benchmark

/// The Rust's, called once for each value, as the port's is.
#[inline(never)]
extern "C" fn rust_cfo_frac(re: f64, im: f64) -> f64 {
    rust(re, im)
}

fn bench(effort: &Effort) -> Vec<timing::Row> {
    let port = |x: C64| ffi::cfo_frac(x.re, x.im).to_bits();
    let row = |(what, inputs): (&str, Vec<C64>)| {
        agree(&inputs, port, |x| right(x.re, x.im).to_bits());
        value_row(
            format!("cfo_frac, {what}"),
            "`cfo_frac`, by `atan2`",
            &inputs,
            effort,
            port,
            |x| rust_cfo_frac(x.re, x.im).to_bits(),
        )
    };
    timed_pairs().into_iter().map(row).collect()
}

// ---- Stored answers

fn stored(rng: &mut Rng) -> Vec<Record> {
    let same_everywhere = Function {
        classes: angles::STORED,
        ..function()
    };
    same_everywhere.stored(rng, |record, pair| record.wide(&[pair.re, pair.im]))
}

#[cfg(test)]
mod tests {
    use super::*;

    #[test]
    fn the_request_and_the_rust_beside_each_other() {
        // Both parts, the request's, the Rust's.
        let zero = 0.0_f64;
        for (re, im, here, there) in [
            (0.0, 1.0, -0.25, -0.25),
            (-1.0, 0.0, -0.5, -0.5),
            (-1.0, -0.0, -0.5, 0.5),
            (0.0, 0.0, zero, -zero),
            (0.0, -0.0, zero, zero),
            (-0.0, 0.0, zero, -0.5),
            (-0.0, -0.0, zero, 0.5),
            (f64::INFINITY, 0.0, zero, -zero),
            (1.0, f64::INFINITY, zero, -0.25),
            (f64::NEG_INFINITY, f64::INFINITY, zero, -0.375),
        ] {
            for offset in [right, ffi::cfo_frac] as [Port; 2] {
                assert_eq!(offset(re, im).to_bits(), here.to_bits(), "{re}, {im}");
            }
            assert_eq!(rust(re, im).to_bits(), there.to_bits(), "{re}, {im}");
        }
        assert_eq!(right(f64::NAN, 1.0).to_bits(), 0);
        assert_eq!(ffi::cfo_frac(f64::NAN, 1.0).to_bits(), 0);
        assert!(rust(f64::NAN, 1.0).is_nan());
    }

    #[test]
    fn only_zeros_depart() {
        let departing = |parts: &Pair<u64>| {
            let C64 { re, im, .. } = parts.value();
            departs(*parts, right(re, im))
        };
        let departing: Vec<Pair<u64>> = function().special.into_iter().filter(departing).collect();
        let minus = (-0.0_f64).to_bits();
        let wanted = [0, minus].map(|im| Pair { re: minus, im });
        assert_eq!(departing, wanted);
    }

    #[test]
    fn the_sign_is_that_of_carriers_above_their_bins() {
        // Samples of a carrier that is e spacings above its bin, a symbol's n samples apart.
        let (n, e) = (2048.0, 0.2);
        let sample = |i: f64| {
            let (im, re) = (2.0 * PI * e * i / n).sin_cos();
            C64::new(re, im)
        };
        let product = sample(5.0) * sample(5.0 + n).conj();
        assert!(units_apart(ffi::cfo_frac(product.re, product.im), e) <= LIMIT);
    }

    #[test]
    fn some_of_each_are_stored() {
        let records = stored(&mut Rng::new(1));
        assert!(records.len() > 180 && records.len() <= 120 + 180);
        // The head, two numbers, and the offset behind how many are written.
        let size = 22 + 2 * 8 + 3 + 8;
        assert!(records.iter().all(|record| record.stored(21).len() == size));
    }
}
