//! The ratio of one bin.

use crate::ffi;
use crate::refusal::{accepted, Refusal};

/// The ratio of one bin, from its pairs alone in symbol order: |sum of p·p| / sum of |p|², where p is
/// the product of a pair and the conjugate of the pair before it.
///
/// It has no unit, and the pairs may be in any. Over many symbols a carrier that repeats itself, or
/// changes its sign alone, has about 1, and one that carries data about 0. It is not below zero; it may
/// be above 1 by rounding, and where a sum or the norm overflows it may be a NaN, infinite or `0.0`. It
/// is `0.0` where the divisor is not above zero, and so for a single pair.
///
/// Refused: [`BadFloats`](Refusal::BadFloats) for an odd number of floats, or more pairs than
/// [`MOST_SPECTRA`](crate::MOST_SPECTRA), since a spectrum has one pair of the bin;
/// [`NoSpectra`](Refusal::NoSpectra) for none.
///
/// ```
/// use sillurwy::ratio::bin_ratio;
/// use sillurwy::Refusal;
///
/// // The same pair, but for its sign: each product is 25 or -25, and its square 625.
/// assert_eq!(bin_ratio(&[3.0, 4.0, -3.0, -4.0, -3.0, -4.0])?, 1.0);
/// // A step without a turn and one of a quarter: the squares are 1 and -1.
/// assert_eq!(bin_ratio(&[1.0, 0.0, 1.0, 0.0, 0.0, 1.0])?, 0.0);
/// // A single pair has no product.
/// assert_eq!(bin_ratio(&[3.0, 4.0])?, 0.0);
/// assert_eq!(bin_ratio(&[3.0, 4.0, 3.0]), Err(Refusal::BadFloats));
/// assert_eq!(bin_ratio(&[]), Err(Refusal::NoSpectra));
/// # Ok::<(), sillurwy::Refusal>(())
/// ```
///
/// Each ratio that [`integer_cfo`](crate::shift::integer_cfo) and
/// [`detect_kinds`](crate::segment_kinds::detect_kinds) give is, bit for bit, what this gives for that
/// bin's pairs. They take spectra one behind another, where the pairs of a bin lie a spectrum apart.
///
/// ```
/// use sillurwy::params::Mode;
/// use sillurwy::ratio::bin_ratio;
/// use sillurwy::shift::integer_cfo;
///
/// // Five spectra of whole numbers, and the two floats that each has of a bin.
/// let n = Mode::M1.fft_size();
/// let spectra: Vec<f32> = (0..5 * 2 * n).map(|i| (i * i % 251) as f32 - 125.0).collect();
/// let (_, ratios) = integer_cfo(Mode::M1, &spectra, 20)?;
/// for (bin, ratio) in ratios.iter().enumerate() {
///     let pair = |spectrum: &[f32]| [spectrum[2 * bin], spectrum[2 * bin + 1]];
///     let pairs: Vec<f32> = spectra.chunks(2 * n).flat_map(pair).collect();
///     assert_eq!(bin_ratio(&pairs)?.to_bits(), ratio.to_bits());
/// }
/// # Ok::<(), sillurwy::Refusal>(())
/// ```
pub fn bin_ratio(pairs: &[f32]) -> Result<f32, Refusal> {
    let mut ratio = 0.0;
    accepted(ffi::bin_ratio(pairs, &mut ratio))?;
    Ok(ratio)
}
