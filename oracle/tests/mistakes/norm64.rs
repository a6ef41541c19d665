//! Mistakes in the norm of a pair of `f64`.

use crate::floats::{each_is_found, is_right};
use oracle::inputs::floats::Pair;
use oracle::ops::norm64::function as norm64;

#[test]
fn the_port_has_no_difference() {
    is_right(norm64);
}

#[test]
fn mistakes_in_the_norm_are_found() {
    each_is_found(
        norm64,
        &[
            // Nothing overflows.
            |pair: Pair<u64>| pair.value().re.hypot(pair.value().im),
            // One rounding too few.
            |pair| {
                let (re, im) = (pair.value().re, pair.value().im);
                re.mul_add(re, im * im).sqrt()
            },
        ],
    );
}
