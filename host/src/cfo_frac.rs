//! The fractional carrier offset. It refuses nothing.

use crate::ffi;

/// The fractional carrier offset that both parts of a guess's summed correlation tell, in carrier spacings,
/// each of which is a turn in n samples: from -0.5 up to, not including, 0.5.
/// [`ModeGuess::cfo_frac`](crate::guess::ModeGuess::cfo_frac) has that of a guess, and what its sign
/// means.
///
/// It is the [`angle`](crate::angle::angle) of the pair, negated as a whole number and then divided by
/// 65,536. Angle 0 gives `+0.0`, and so do two zeros, an infinity or a NaN.
///
/// ```
/// use sillurwy::cfo_frac::cfo_frac;
///
/// // Samples that turn on by an eighth in n samples: x[i] times the conjugate of x[i + n] lies an
/// // eighth of a turn below the real axis.
/// assert_eq!(cfo_frac(3.0, -3.0), 0.125);
/// // Half a turn is one and the same either way.
/// assert_eq!(cfo_frac(-3.0, 0.0), -0.5);
/// assert_eq!(cfo_frac(-3.0, -0.0), -0.5);
/// assert_eq!(cfo_frac(3.0, 0.0).to_bits(), 0.0_f64.to_bits());
/// assert_eq!(cfo_frac(f64::NAN, 3.0).to_bits(), 0.0_f64.to_bits());
/// ```
pub fn cfo_frac(re: f64, im: f64) -> f64 {
    ffi::cfo_frac(re, im)
}
