//! The integer frequency offset.

use crate::ffi;
use crate::params::Mode;
use crate::refusal::{accepted, Refusal};

/// A shift and its score.
#[derive(Debug, Clone, Copy, PartialEq)]
pub struct Shift {
    /// Bins by which the spectra are shifted.
    pub shift: i64,
    /// The mean ratio of the pattern's bins there.
    pub score: f32,
}

/// The shift of spectra, and the ratio of each bin.
///
/// Each spectrum has n pairs, by bin; `bound` is the largest shift that is tried, either way.
///
/// Refused: [`BadFloats`](Refusal::BadFloats) unless whole spectra, at most
/// [`MOST_SPECTRA`](crate::MOST_SPECTRA); [`NoSpectra`](Refusal::NoSpectra);
/// [`BadBound`](Refusal::BadBound) above n/2.
///
/// ```
/// use sillurwy::params::Mode;
/// use sillurwy::shift::integer_cfo;
///
/// // Three equal spectra: every ratio is 1, and of equal scores the lowest shift is kept.
/// let spectra: Vec<f32> = [1.0, 0.0].repeat(3 * Mode::M1.fft_size());
/// let (shift, ratios) = integer_cfo(Mode::M1, &spectra, 20)?;
/// assert_eq!((shift.shift, shift.score), (-20, 1.0));
/// assert_eq!(ratios, vec![1.0; 2048]);
/// # Ok::<(), sillurwy::Refusal>(())
/// ```
pub fn integer_cfo(
    mode: Mode,
    spectra: &[f32],
    bound: usize,
) -> Result<(Shift, Vec<f32>), Refusal> {
    let mut ratios = vec![0.0; mode.fft_size()];
    let shift = integer_cfo_lent(mode, spectra, bound, &mut ratios)?;
    Ok((shift, ratios))
}

/// [`integer_cfo`] with n lent ratios.
///
/// Refused: [`BadFloats`](Refusal::BadFloats) and [`NoSpectra`](Refusal::NoSpectra) as above;
/// [`BadLength`](Refusal::BadLength) unless n ratios; [`BadBound`](Refusal::BadBound).
///
/// ```
/// use sillurwy::params::Mode;
/// use sillurwy::shift::integer_cfo_lent;
/// use sillurwy::Refusal;
///
/// let mut ratios = vec![7.0; 2048];
/// let spectra = vec![0.0; 2 * 2048];
/// let refused = integer_cfo_lent(Mode::M1, &spectra, 1025, &mut ratios);
/// assert_eq!(refused, Err(Refusal::BadBound));
/// assert_eq!(ratios, vec![7.0; 2048]);
/// ```
pub fn integer_cfo_lent(
    mode: Mode,
    spectra: &[f32],
    bound: usize,
    ratios: &mut [f32],
) -> Result<Shift, Refusal> {
    let (mut shift, mut score) = (0, 0.0);
    accepted(ffi::integer_cfo(
        mode.number(),
        spectra,
        bound,
        ratios,
        &mut shift,
        &mut score,
    ))?;
    Ok(Shift { shift, score })
}
