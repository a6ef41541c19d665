//! The scattered-pilot phase.

use crate::ffi;
use crate::params::{kind_codes, Kinds, Mode, Phase};
use crate::refusal::{accepted, Refusal};

/// The phase, if there is one. A call that was refused gives neither of these, but a [`Refusal`].
#[derive(Debug, Clone, Copy, PartialEq)]
pub enum PilotPhase {
    /// No segment is coherent.
    NoScatteredPilots,
    /// The phase of spectrum 0, the first, and the share of the votes that it has.
    Phase(Phase, f32),
}

/// The phase, and how the spectra voted.
#[derive(Debug, Clone, Copy, PartialEq)]
pub struct PilotAnswer {
    /// The phase.
    pub phase: PilotPhase,
    /// The votes for each phase, one from every spectrum, heard or not; all 0 without scattered pilots.
    pub counts: [u32; 4],
    /// Of the votes of the spectra that were heard: the largest of their four counts less the largest
    /// of the other three. At most the number of spectra heard; 0 where none is heard, and without
    /// scattered pilots. The phase with the most of these votes can be another than the answer.
    pub lead: u32,
}

/// The phase of the scattered pilots in spectrum 0, the first; [`Phase::at`] has that of the others.
///
/// Each spectrum has k_total pairs, by carrier, and votes once; there may be none. The lead leaves
/// out the votes of spectra that were not heard: a recording begins with such if the carrier was not
/// up yet. The others keep their places. A spectrum is heard where the pilots of at least one of the
/// four phases have energy above zero, which a NaN is not. The energy is summed in `f32` over the
/// pairs of the phase's pilots that lie 12 carriers apart: the product of the two sizes, which is 0
/// where it is too small for an `f32`.
///
/// Refused: [`BadFloats`](Refusal::BadFloats) unless whole spectra, at most
/// [`MOST_SPECTRA`](crate::MOST_SPECTRA).
///
/// ```
/// use sillurwy::params::{Mode, Phase, SegmentKind};
/// use sillurwy::pilot_phase::{detect_sp_phase, PilotPhase};
/// use sillurwy::Refusal;
///
/// // No spectra: ties go to the larger phase.
/// let answer = detect_sp_phase(Mode::M1, &[SegmentKind::Coherent; 13], &[])?;
/// assert_eq!(answer.phase, PilotPhase::Phase(Phase::P3, 0.0));
///
/// // Zeros vote, and are not heard.
/// let silence = [0.0; 2 * 1405];
/// let answer = detect_sp_phase(Mode::M1, &[SegmentKind::Coherent; 13], &silence)?;
/// assert_eq!((answer.counts, answer.lead), ([1, 0, 0, 0], 0));
///
/// // No coherent segment is an answer. A refusal is none, whatever the kinds are.
/// let kinds = [SegmentKind::Differential; 13];
/// let answer = detect_sp_phase(Mode::M1, &kinds, &[])?;
/// assert_eq!(answer.phase, PilotPhase::NoScatteredPilots);
/// assert_eq!((answer.counts, answer.lead), ([0; 4], 0));
/// assert_eq!(detect_sp_phase(Mode::M1, &kinds, &[0.0; 3]), Err(Refusal::BadFloats));
/// # Ok::<(), Refusal>(())
/// ```
pub fn detect_sp_phase(mode: Mode, kinds: &Kinds, spectra: &[f32]) -> Result<PilotAnswer, Refusal> {
    let (mut found, mut number, mut share) = (0, 0, 0.0);
    let (mut counts, mut lead) = ([0; 4], 0);
    accepted(ffi::detect_sp_phase(
        mode.number(),
        &kind_codes(kinds),
        spectra,
        &mut found,
        &mut number,
        &mut share,
        &mut counts,
        &mut lead,
    ))?;
    let phase = match found {
        0 => PilotPhase::NoScatteredPilots,
        _ => PilotPhase::Phase(Phase::from_number(number)?, share),
    };
    Ok(PilotAnswer {
        phase,
        counts,
        lead,
    })
}
