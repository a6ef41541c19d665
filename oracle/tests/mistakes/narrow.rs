//! Mistakes in narrowing.

use crate::floats::{each_is_found, is_right};
use oracle::ops::narrow::function as narrow;

#[test]
fn the_port_has_no_difference() {
    is_right(narrow);
}

#[test]
fn mistakes_in_narrowing_are_found() {
    each_is_found(
        narrow,
        &[
            // Ties away from zero.
            |x| match x.value() {
                value if value.is_finite() => {
                    f64::from_bits((x.0 + (1 << 28)) & !0x1fff_ffff) as f32
                }
                value => value as f32,
            },
            // Cut off.
            |x| match x.value() {
                value if value.is_finite() => f64::from_bits(x.0 & !0x1fff_ffff) as f32,
                value => value as f32,
            },
            // Subnormals taken for zero.
            |x| match x.value() as f32 {
                y if y.is_subnormal() => 0.0_f32.copysign(y),
                y => y,
            },
            // The largest in the place of infinity.
            |x| match x.value() {
                value if value.is_finite() => (value as f32).clamp(f32::MIN, f32::MAX),
                value => value as f32,
            },
            // The tie between zero and the smallest goes up.
            |x| match x.value() {
                value if value == 2.0_f64.powi(-150) => f32::from_bits(1),
                value => value as f32,
            },
        ],
    );
}
