//! Mistakes in the root.

use crate::floats::{each_is_found, found, is_right};
use oracle::inputs::floats::One;
use oracle::ops::root::function as root;

#[test]
fn the_port_has_no_difference() {
    is_right(root);
}

#[test]
fn the_rust_differs_nowhere_from_itself() {
    let rust = root().rust;
    assert_eq!(found(root(), rust), (0, String::new()));
}

#[test]
fn one_wrong_result_is_found() {
    let (differences, smallest) = found(root(), |x| match x.value() {
        4.0 => 2.0_f64.next_up(),
        x => x.sqrt(),
    });
    assert_eq!(differences, 1);
    let wanted = "bits 0x4010000000000000\n    \
                  result: oracle 0x4000000000000000, port 0x4000000000000001";
    assert_eq!(smallest, wanted);
}

#[test]
fn nans_are_alike() {
    let other_nan = |x: One| match x.value().sqrt() {
        root if root.is_nan() => f64::from_bits(0xfff8_0000_1234_5678),
        root => root,
    };
    assert_eq!(found(root(), other_nan).0, 0);
}

#[test]
fn zeros_are_not_alike() {
    let (differences, smallest) = found(root(), |x| x.value().sqrt() + 0.0);
    assert_eq!(differences, 1);
    assert!(smallest.starts_with("bits 0x8000000000000000\n"));
}

/// The root of a normal number, made of whole numbers. It is rounded up one time too many: also where
/// what the square leaves equals the root. That is at two numbers in each range from 4^n to 4^(n+1).
fn root_rounded_up_too_often(x: One) -> f64 {
    if !x.value().is_normal() || x.value() < 0.0 {
        return x.value().sqrt();
    }
    let (exponent, fraction) = (x.0 >> 52, x.0 % (1 << 52));
    let number = u128::from((fraction + (1 << 52)) << ((exponent + 1) % 2)) << 52;
    let root = number.isqrt();
    let up = u64::from(number - root * root >= root);
    f64::from_bits((((exponent + 1021) / 2) << 52) + root as u64 + up)
}

#[test]
fn mistakes_in_the_root_are_found() {
    let (_, smallest) = found(root(), root_rounded_up_too_often);
    assert!(
        smallest.starts_with("bits 0x0010000000000001\n"),
        "{smallest}"
    );
    each_is_found(
        root,
        &[
            // Through a shorter format.
            |x| f64::from((x.value() as f32).sqrt()),
            // Rounded down.
            |x| {
                let root = x.value().sqrt();
                let above = root.mul_add(root, -x.value()) > 0.0;
                if above { root.next_down() } else { root }
            },
            // Subnormals taken for zero.
            |x| {
                if x.value().is_subnormal() {
                    0.0
                } else {
                    x.value().sqrt()
                }
            },
            // The sign dropped.
            |x| x.value().abs().sqrt(),
            // A number in the place of a NaN.
            |x| {
                if x.value() < 0.0 {
                    0.0
                } else {
                    x.value().sqrt()
                }
            },
            // A NaN in the place of a number.
            |x| {
                if x.value() == f64::INFINITY {
                    f64::NAN
                } else {
                    x.value().sqrt()
                }
            },
        ],
    );
}
