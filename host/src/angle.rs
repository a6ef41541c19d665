//! The angle of a pair. It refuses nothing.

use crate::ffi;

/// An angle in 1/65536 of a turn: above -32,768 and at most 32,768, half a turn.
#[derive(Debug, Clone, Copy, PartialEq, Eq, PartialOrd, Ord, Hash)]
pub struct Angle(pub i32);

impl Angle {
    /// The angle in turns, exactly: above -0.5 and at most 0.5.
    ///
    /// ```
    /// use sillurwy::angle::angle;
    ///
    /// assert_eq!(angle(0.0, -3.0).turns(), -0.25);
    /// ```
    pub fn turns(self) -> f64 {
        f64::from(self.0) / 65536.0
    }
}

/// The angle of a pair of `f64`, worked out with whole numbers and a fixed table.
///
/// It is less than one unit from the true angle: docs/ANGLE.md has how and why. On axes and diagonals
/// it is exact. An infinity or a NaN in either part gives 0, and so do two zeros; the sign of a zero
/// does not matter.
///
/// ```
/// use sillurwy::angle::{angle, Angle};
///
/// assert_eq!(angle(1.0, 0.0), Angle(0));
/// assert_eq!(angle(2.5, 2.5), Angle(8192));
/// assert_eq!(angle(-1.0, -0.0), Angle(32768));
/// for none in [(-0.0, 0.0), (f64::INFINITY, 1.0), (1.0, f64::NAN)] {
///     assert_eq!(angle(none.0, none.1), Angle(0));
/// }
/// // The true angle is 5414.9.
/// let Angle(units) = angle(7.0, 4.0);
/// assert!([5414, 5415].contains(&units));
/// // A quarter turn adds 16384 round the circle.
/// assert_eq!(angle(-4.0, 7.0), Angle(units + 16384));
/// assert_eq!(angle(4.0, -7.0), Angle(units - 16384));
/// // Another sign of the imaginary part changes the angle's, and a power of two leaves it.
/// assert_eq!(angle(7.0, -4.0), Angle(-units));
/// assert_eq!(angle(7.0 / 1024.0, 4.0 / 1024.0), Angle(units));
/// ```
pub fn angle(re: f64, im: f64) -> Angle {
    Angle(ffi::angle(re, im))
}
