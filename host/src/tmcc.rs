//! The soft TMCC value.

use crate::ffi;
use crate::params::{kind_codes, Kinds, Mode, SegmentKind};
use crate::refusal::{accepted, Refusal};

/// The soft value of the TMCC carriers between two spectra, the earlier first, each of k_total pairs
/// by carrier. A filter takes segments of one kind, none takes all.
///
/// Refused: [`BadFloats`](Refusal::BadFloats) unless two spectra.
///
/// ```
/// use sillurwy::params::{Mode, SegmentKind};
/// use sillurwy::tmcc::tmcc_soft;
///
/// let kinds = [SegmentKind::Coherent; 13];
/// let mut spectra: Vec<f32> = [1.0, 0.0].repeat(2 * 1405);
/// // Thirteen TMCC carriers that stay as they were, then thirteen that are negated.
/// assert_eq!(tmcc_soft(Mode::M1, &kinds, &spectra, None)?, 13.0);
/// spectra[2 * 1405..].iter_mut().for_each(|part| *part = -*part);
/// assert_eq!(tmcc_soft(Mode::M1, &kinds, &spectra, None)?, -13.0);
/// # Ok::<(), sillurwy::Refusal>(())
/// ```
pub fn tmcc_soft(
    mode: Mode,
    kinds: &Kinds,
    spectra: &[f32],
    filter: Option<SegmentKind>,
) -> Result<f32, Refusal> {
    const ALL: u8 = 2;
    let mut value = 0.0;
    accepted(ffi::tmcc_soft(
        mode.number(),
        &kind_codes(kinds),
        spectra,
        filter.map_or(ALL, SegmentKind::code),
        &mut value,
    ))?;
    Ok(value)
}
