//! The nearest root, and narrowing. They refuse nothing.

use crate::ffi;

/// The `f64` nearest to the square root; a NaN below zero.
///
/// ```
/// assert_eq!(sillurwy::ieee::root(2.0), std::f64::consts::SQRT_2);
/// assert!(sillurwy::ieee::root(-1.0).is_nan());
/// ```
pub fn root(x: f64) -> f64 {
    ffi::root(x)
}

/// The `f32` nearest to a number; a tie goes to the even one.
///
/// ```
/// assert_eq!(sillurwy::ieee::narrow(0.1), 0.1_f32);
/// assert_eq!(sillurwy::ieee::narrow(1e300), f32::INFINITY);
/// ```
pub fn narrow(x: f64) -> f32 {
    ffi::narrow(x)
}
