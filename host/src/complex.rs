//! Norms of pairs. They refuse nothing.

use crate::ffi;

/// The norm of a pair of `f32`: squares, sum and root in `f64`, then narrowed.
///
/// ```
/// assert_eq!(sillurwy::complex::norm32(3.0, 4.0), 5.0);
/// // The square overflows in f32 and does not in f64.
/// assert_eq!(sillurwy::complex::norm32(3e38, 0.0), 3e38);
/// ```
pub fn norm32(re: f32, im: f32) -> f32 {
    ffi::norm32(re, im)
}

/// The norm of a pair of `f64`: the root of the rounded sum of rounded squares.
///
/// ```
/// assert_eq!(sillurwy::complex::norm64(3.0, 4.0), 5.0);
/// ```
pub fn norm64(re: f64, im: f64) -> f64 {
    ffi::norm64(re, im)
}
