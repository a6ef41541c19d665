//! Mistakes in the fractional offset.

use crate::floats::{each_is_found, found, is_right};
use oracle::harness::function::Function;
use oracle::inputs::floats::Pair;
use oracle::ops::cfo_frac::{self, function as cfo_frac};
use sillurwy::ffi;
use std::f64::consts::TAU;

fn angle(pair: Pair<u64>) -> f64 {
    f64::from(ffi::angle(pair.value().re, pair.value().im))
}

/// The Rust's own.
fn rust(pair: Pair<u64>) -> f64 {
    cfo_frac::rust(pair.value().re, pair.value().im)
}

/// Divided, then taken from +0.0, which gives the bits of a whole number that is negated first.
fn right(pair: Pair<u64>) -> f64 {
    0.0 - angle(pair) / 65536.0
}

#[test]
fn the_port_has_no_difference() {
    is_right(cfo_frac);
    assert_eq!(found(cfo_frac(), right).0, 0);
}

#[test]
fn zeros_are_the_departures() {
    let row = cfo_frac().compare(1, 0, 0);
    assert_eq!((row.differences(), row.departures()), (0, Some(2)));
}

#[test]
fn mistakes_in_the_fractional_offset_are_found() {
    each_is_found(
        cfo_frac,
        &[
            // Not negated.
            |pair| angle(pair) / 65536.0,
            // Negated as a float: −0.0 for angle 0.
            |pair| -angle(pair) / 65536.0,
            // Divided by one too few.
            |pair| 0.0 - angle(pair) / 65535.0,
            // Divided by half a turn.
            |pair| 0.0 - angle(pair) / 32768.0,
            // In radians.
            |pair| 0.0 - angle(pair) / 65536.0 * TAU,
            // From 0 up to 1.
            |pair| right(pair).rem_euclid(1.0),
            // Half a turn as a half above zero.
            |pair| {
                if right(pair) == -0.5 {
                    0.5
                } else {
                    right(pair)
                }
            },
            // The angle in multiples of 8, which is up to four units off.
            |pair| 0.0 - (angle(pair) / 8.0).round() * 8.0 / 65536.0,
            // The Rust's own.
            rust,
            // The Rust's own, to the nearest unit.
            |pair| match rust(pair) {
                turns if turns.is_nan() => 0.0,
                turns => (turns * 65536.0).round() / 65536.0 + 0.0,
            },
            // NaN for a NaN.
            |pair| {
                if rust(pair).is_nan() {
                    f64::NAN
                } else {
                    right(pair)
                }
            },
            // The other way round of real and imaginary part.
            |pair| ffi::cfo_frac(pair.value().im, pair.value().re),
        ],
    );
}

#[test]
fn distances_alone_find_mistakes() {
    let by_distance = |port: fn(Pair<u64>) -> f64| {
        let function = Function {
            rust: port,
            ..cfo_frac()
        };
        found(function, port)
    };
    assert_eq!(by_distance(right).0, 0);
    let mistakes: [fn(Pair<u64>) -> f64; 6] = [
        |pair| angle(pair) / 65536.0,
        |pair| 0.0 - angle(pair) / 65536.0 * TAU,
        |pair| 0.0 - (angle(pair) / 8.0).round() * 8.0 / 65536.0,
        |pair| 0.0 - angle(pair) / 65535.0,
        // Where there is no angle: −0.0, and what the Rust has.
        |pair| -angle(pair) / 65536.0,
        rust,
    ];
    for (index, mistake) in mistakes.into_iter().enumerate() {
        let (differences, smallest) = by_distance(mistake);
        assert!(differences > 0, "mistake {index}");
        assert!(
            smallest.contains("\n    distance: "),
            "mistake {index}: {smallest}"
        );
    }
}
