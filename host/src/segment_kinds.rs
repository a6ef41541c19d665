//! The kinds of the thirteen segments.

use crate::ffi;
use crate::params::{kinds_from_codes, Kinds, Mode, SEGMENTS};
use crate::refusal::{accepted, Refusal};

/// The kinds and their scores, by segment number.
#[derive(Debug, Clone, Copy, PartialEq)]
pub struct DetectedKinds {
    /// The kind of each segment.
    pub kinds: Kinds,
    /// The score of each segment.
    pub scores: [f32; SEGMENTS],
}

/// The kinds of the segments, and the ratio of each carrier.
///
/// Each spectrum has k_total pairs, by carrier.
///
/// Refused: [`BadFloats`](Refusal::BadFloats) unless whole spectra, at most
/// [`MOST_SPECTRA`](crate::MOST_SPECTRA); [`NoSpectra`](Refusal::NoSpectra).
///
/// ```
/// use sillurwy::params::{Mode, SegmentKind};
/// use sillurwy::segment_kinds::detect_kinds;
///
/// // Silence: every ratio is 0.
/// let silence = vec![0.0; 3 * 2 * Mode::M1.total_carriers()];
/// let (found, ratios) = detect_kinds(Mode::M1, &silence)?;
/// assert_eq!(found.kinds, [SegmentKind::Coherent; 13]);
/// assert_eq!(ratios, vec![0.0; 1405]);
/// # Ok::<(), sillurwy::Refusal>(())
/// ```
pub fn detect_kinds(mode: Mode, spectra: &[f32]) -> Result<(DetectedKinds, Vec<f32>), Refusal> {
    let mut ratios = vec![0.0; mode.total_carriers()];
    let found = detect_kinds_lent(mode, spectra, &mut ratios)?;
    Ok((found, ratios))
}

/// [`detect_kinds`] with k_total lent ratios.
///
/// Refused: [`BadFloats`](Refusal::BadFloats) and [`NoSpectra`](Refusal::NoSpectra) as above;
/// [`BadLength`](Refusal::BadLength) unless k_total ratios.
///
/// ```
/// use sillurwy::params::Mode;
/// use sillurwy::segment_kinds::detect_kinds_lent;
/// use sillurwy::Refusal;
///
/// let mut ratios = vec![7.0; 1405];
/// let refused = detect_kinds_lent(Mode::M1, &[], &mut ratios);
/// assert_eq!(refused, Err(Refusal::NoSpectra));
/// assert_eq!(ratios, vec![7.0; 1405]);
/// ```
pub fn detect_kinds_lent(
    mode: Mode,
    spectra: &[f32],
    ratios: &mut [f32],
) -> Result<DetectedKinds, Refusal> {
    let (mut codes, mut scores) = ([0; SEGMENTS], [0.0; SEGMENTS]);
    accepted(ffi::detect_kinds(
        mode.number(),
        spectra,
        ratios,
        &mut codes,
        &mut scores,
    ))?;
    let kinds = kinds_from_codes(&codes)?;
    Ok(DetectedKinds { kinds, scores })
}
