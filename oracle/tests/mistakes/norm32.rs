//! Mistakes in the norm of a pair of `f32`.

use crate::floats::{each_is_found, is_right};
use oracle::ops::norm32::function as norm32;

#[test]
fn the_port_has_no_difference() {
    is_right(norm32);
}

#[test]
fn mistakes_in_the_norm_are_found() {
    each_is_found(
        norm32,
        &[
            // The squares in f32.
            |pair| pair.value().norm_sqr().sqrt(),
            // An infinite part outweighs a NaN.
            |pair| pair.value().re.hypot(pair.value().im),
            // One part left out where the other is far larger.
            |pair| {
                let (re, im) = (pair.value().re.abs(), pair.value().im.abs());
                if re > 2048.0 * im {
                    re
                } else {
                    pair.value().norm()
                }
            },
            // A norm of subnormals taken for zero.
            |pair| match pair.value().norm() {
                norm if norm.is_subnormal() => 0.0,
                norm => norm,
            },
        ],
    );
}
