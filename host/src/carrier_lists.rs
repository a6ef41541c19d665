//! The data list and the continual list.

use crate::ffi;
use crate::params::{kind_codes, Kinds, Mode, Phase, SEGMENTS};
use crate::refusal::{accepted, Refusal};

/// Numbers of the data list in a mode: 13 × nc.
pub fn data_list_length(mode: Mode) -> usize {
    SEGMENTS * mode.data_carriers_per_segment()
}

/// The most numbers that the continual list has in a mode, whatever the kinds.
pub fn continual_list_most(mode: Mode) -> usize {
    SEGMENTS * (mode.carriers_per_segment() - mode.data_carriers_per_segment()) + 1
}

/// The data carriers of the band, in segment-number order, ascending within a segment.
///
/// Refused: never, since mode, phase and kinds are known.
///
/// ```
/// use sillurwy::carrier_lists::data_list;
/// use sillurwy::params::{Mode, Phase, SegmentKind};
///
/// let data = data_list(Mode::M1, Phase::P0, &[SegmentKind::Coherent; 13])?;
/// assert_eq!(data.len(), 13 * 96);
/// // Segment 0 lies in the middle of the band; its first carrier is a pilot.
/// assert_eq!(data[0], 649);
/// # Ok::<(), sillurwy::Refusal>(())
/// ```
pub fn data_list(mode: Mode, phase: Phase, kinds: &Kinds) -> Result<Vec<u32>, Refusal> {
    let mut out = vec![0; data_list_length(mode)];
    data_list_lent(mode, phase, kinds, &mut out)?;
    Ok(out)
}

/// [`data_list`] into a lent slice of [`data_list_length`] numbers.
///
/// Refused: [`BadLength`](Refusal::BadLength) for a slice of another length.
///
/// ```
/// use sillurwy::carrier_lists::{data_list_length, data_list_lent};
/// use sillurwy::params::{Mode, Phase, SegmentKind};
///
/// let mut data = vec![0; data_list_length(Mode::M3)];
/// data_list_lent(Mode::M3, Phase::P2, &[SegmentKind::Differential; 13], &mut data)?;
/// assert_eq!(data.len(), 4992);
/// # Ok::<(), sillurwy::Refusal>(())
/// ```
pub fn data_list_lent(
    mode: Mode,
    phase: Phase,
    kinds: &Kinds,
    out: &mut [u32],
) -> Result<(), Refusal> {
    accepted(ffi::data_list(
        mode.number(),
        phase.number(),
        &kind_codes(kinds),
        out,
    ))
}

/// The continual carriers: all TMCC, then all AC, then all CP, each ascending, then the edge.
///
/// Refused: never, since mode and kinds are known.
///
/// ```
/// use sillurwy::carrier_lists::continual_list;
/// use sillurwy::params::{Mode, SegmentKind};
///
/// let continual = continual_list(Mode::M1, &[SegmentKind::Coherent; 13])?;
/// assert_eq!(continual.len(), 13 * (1 + 2) + 1);
/// assert_eq!(continual.last(), Some(&1404));
/// # Ok::<(), sillurwy::Refusal>(())
/// ```
pub fn continual_list(mode: Mode, kinds: &Kinds) -> Result<Vec<u32>, Refusal> {
    let mut out = vec![0; continual_list_most(mode)];
    let count = continual_list_lent(mode, kinds, &mut out)?;
    out.truncate(count);
    Ok(out)
}

/// [`continual_list`] into a lent slice; the answer is the count. What lies beyond it keeps its
/// contents. [`continual_list_most`] numbers are enough.
///
/// Refused: [`BadLength`](Refusal::BadLength) for a slice shorter than the count.
///
/// ```
/// use sillurwy::carrier_lists::{continual_list_lent, continual_list_most};
/// use sillurwy::params::{Mode, SegmentKind};
///
/// let mut continual = vec![0; continual_list_most(Mode::M3)];
/// let count = continual_list_lent(Mode::M3, &[SegmentKind::Coherent; 13], &mut continual)?;
/// assert_eq!((count, continual.len()), (157, 625));
/// # Ok::<(), sillurwy::Refusal>(())
/// ```
pub fn continual_list_lent(mode: Mode, kinds: &Kinds, out: &mut [u32]) -> Result<usize, Refusal> {
    let mut count = 0;
    accepted(ffi::continual_list(
        mode.number(),
        &kind_codes(kinds),
        out,
        &mut count,
    ))?;
    Ok(count)
}
