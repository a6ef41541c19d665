//! Complex numbers: a pair of floats by value, each operation rounded once, in num-complex's order.
//!
//! Stands in for the crate num-complex, which isdb-rs uses. The oracle's two norms have exact roots:
//! the square root of `f64` is the nearest one. Those of [`hypot`] are num-complex's.

use std::iter::Sum;
use std::marker::PhantomData;
use std::ops::{Add, AddAssign, Div, Mul, Neg, Sub};

/// The pair (re, im), with the norm `N`.
#[derive(Debug, Clone, Copy, PartialEq, Default)]
pub struct Complex<T, N> {
    /// Real part.
    pub re: T,
    /// Imaginary part.
    pub im: T,
    norm: PhantomData<N>,
}

/// A norm of pairs of `T`.
pub trait Norm<T> {
    /// The norm of (re, im).
    fn norm(re: T, im: T) -> T;
}

/// The requirement's norms.
#[derive(Debug, Clone, Copy, PartialEq, Default)]
pub struct Exact;

/// num-complex's norms.
#[derive(Debug, Clone, Copy, PartialEq, Default)]
pub struct Hypot;

/// Complex baseband value.
pub type C32 = Complex<f32, Exact>;
/// Complex value of the sums that isdb-rs takes in `f64`.
pub type C64 = Complex<f64, Exact>;

/// The same pairs with num-complex's norms.
pub mod hypot {
    use super::{Complex, Hypot};

    /// Complex baseband value.
    pub type C32 = Complex<f32, Hypot>;
    /// Complex value of the sums that isdb-rs takes in `f64`.
    pub type C64 = Complex<f64, Hypot>;
}

impl<T, N> Complex<T, N> {
    /// The pair (re, im).
    pub const fn new(re: T, im: T) -> Self {
        let norm = PhantomData;
        Self { re, im, norm }
    }
}

impl<T: Copy + Neg<Output = T>, N> Complex<T, N> {
    /// (a, −b).
    pub fn conj(self) -> Self {
        Self::new(self.re, -self.im)
    }
}

impl<T: Copy + Add<Output = T> + Mul<Output = T>, N> Complex<T, N> {
    /// aa + bb.
    pub fn norm_sqr(self) -> T {
        self.re * self.re + self.im * self.im
    }
}

impl<T, N: Norm<T>> Complex<T, N> {
    /// The norm.
    #[inline]
    pub fn norm(self) -> T {
        N::norm(self.re, self.im)
    }
}

impl<N> Complex<f64, N> {
    /// The angle, in radians.
    pub fn arg(self) -> f64 {
        self.im.atan2(self.re)
    }
}

impl Norm<f32> for Exact {
    /// Squares and sum in `f64`, the nearest root, then to `f32`.
    #[inline]
    fn norm(re: f32, im: f32) -> f32 {
        C64::new(f64::from(re), f64::from(im)).norm() as f32
    }
}

impl Norm<f64> for Exact {
    /// The nearest root of the rounded sum of rounded squares.
    #[inline]
    fn norm(re: f64, im: f64) -> f64 {
        C64::new(re, im).norm_sqr().sqrt()
    }
}

impl Norm<f32> for Hypot {
    #[inline]
    fn norm(re: f32, im: f32) -> f32 {
        re.hypot(im)
    }
}

impl Norm<f64> for Hypot {
    #[inline]
    fn norm(re: f64, im: f64) -> f64 {
        re.hypot(im)
    }
}

impl<T: Add<Output = T>, N> Add for Complex<T, N> {
    type Output = Self;
    fn add(self, other: Self) -> Self {
        Self::new(self.re + other.re, self.im + other.im)
    }
}

impl<T: Copy + Add<Output = T>, N: Copy> AddAssign for Complex<T, N> {
    fn add_assign(&mut self, other: Self) {
        *self = *self + other;
    }
}

impl<T: Sub<Output = T>, N> Sub for Complex<T, N> {
    type Output = Self;
    fn sub(self, other: Self) -> Self {
        Self::new(self.re - other.re, self.im - other.im)
    }
}

impl<T, N> Mul for Complex<T, N>
where
    T: Copy + Mul<Output = T> + Add<Output = T> + Sub<Output = T>,
{
    type Output = Self;
    /// (ac − bd, ad + bc).
    fn mul(self, other: Self) -> Self {
        Self::new(
            self.re * other.re - self.im * other.im,
            self.re * other.im + self.im * other.re,
        )
    }
}

impl<T: Copy + Mul<Output = T>, N> Mul<T> for Complex<T, N> {
    type Output = Self;
    fn mul(self, factor: T) -> Self {
        Self::new(self.re * factor, self.im * factor)
    }
}

impl<T: Copy + Div<Output = T>, N> Div<T> for Complex<T, N> {
    type Output = Self;
    fn div(self, divisor: T) -> Self {
        Self::new(self.re / divisor, self.im / divisor)
    }
}

impl<T: Default + Add<Output = T>, N: Default> Sum for Complex<T, N> {
    /// From the left, starting at (+0.0, +0.0).
    fn sum<I: Iterator<Item = Self>>(iter: I) -> Self {
        iter.fold(Self::default(), |sum, x| sum + x)
    }
}

#[cfg(test)]
mod tests {
    use super::*;

    #[test]
    fn product_conjugate_and_size() {
        let (x, y) = (C32::new(1.0, 2.0), C32::new(3.0, -5.0));
        assert_eq!(x * y, C32::new(13.0, 1.0));
        assert_eq!(x.conj(), C32::new(1.0, -2.0));
        assert_eq!(y.norm_sqr(), 34.0);
        assert_eq!(x * 2.0, C32::new(2.0, 4.0));
        assert_eq!(x / 2.0, C32::new(0.5, 1.0));
    }

    #[test]
    fn angle_by_the_signs_of_zero() {
        let turns = |re, im| C64::new(re, im).arg() / std::f64::consts::TAU;
        assert_eq!([turns(2.0, 0.0), turns(0.0, 3.0)], [0.0, 0.25]);
        assert_eq!([turns(-2.0, 0.0), turns(-2.0, -0.0)], [0.5, -0.5]);
    }

    #[test]
    fn norm_squares_in_f64() {
        assert_eq!(C32::new(3.0, 4.0).norm(), 5.0);
        // The square overflows in f32 and does not in f64.
        assert_eq!(C32::new(3e38, 0.0).norm(), 3e38);
        assert_eq!(C32::new(f32::INFINITY, 1.0).norm(), f32::INFINITY);
    }

    #[test]
    fn hypot_is_infinite_beside_a_nan() {
        assert!(C32::new(f32::INFINITY, f32::NAN).norm().is_nan());
        assert!(C64::new(f64::INFINITY, f64::NAN).norm().is_nan());
        let (short, long) = (f32::INFINITY, f64::INFINITY);
        assert_eq!(hypot::C32::new(short, f32::NAN).norm(), short);
        assert_eq!(hypot::C64::new(long, f64::NAN).norm(), long);
    }

    #[test]
    fn sum_starts_at_positive_zero() {
        let sum: C32 = [C32::new(-0.0, -0.0)].into_iter().sum();
        assert!(sum.re.is_sign_positive() && sum.im.is_sign_positive());
    }
}
