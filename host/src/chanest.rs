//! The channel, from the pilots.

use crate::ffi;
use crate::params::{kind_codes, Kinds, Mode, Phase};
use crate::refusal::{accepted, Refusal};

/// The largest time window.
pub const MOST_WINDOW: usize = 64;

/// Floats of the grid in a mode: k_total/3 + 2 pairs.
pub fn grid_length(mode: Mode) -> usize {
    2 * (mode.total_carriers() / 3 + 2)
}

/// The pilot grid of one spectrum: the channel at every third carrier, in pairs, from the pilots of the
/// spectra around it. Points that are not estimated are zeros.
///
/// The spectra are consecutive, each of k_total pairs by carrier; `index` is the current one, `phase`
/// its phase, `w` the time window. Where
/// [`detect_sp_phase`](crate::pilot_phase::detect_sp_phase) gave a phase, which is that of spectrum
/// 0, the current one has [`phase.at(index)`](Phase::at).
///
/// Refused: [`BadFloats`](Refusal::BadFloats) unless whole spectra, at most
/// [`MOST_SPECTRA`](crate::MOST_SPECTRA); [`NoSpectra`](Refusal::NoSpectra);
/// [`BadIndex`](Refusal::BadIndex); [`BadWindow`](Refusal::BadWindow) above [`MOST_WINDOW`].
///
/// ```
/// use sillurwy::chanest::estimate_grid;
/// use sillurwy::frame::{role_map, CarrierRole};
/// use sillurwy::params::{Mode, Phase, SegmentKind};
/// use sillurwy::pilot_phase::{detect_sp_phase, PilotPhase};
/// use sillurwy::prbs::sign_map;
/// use sillurwy::Refusal;
///
/// // Segment 11 has the lowest place. It alone is coherent, 36 points, and the 37th closes it.
/// let mut kinds = [SegmentKind::Differential; 13];
/// kinds[11] = SegmentKind::Coherent;
///
/// // Seven spectra of the pilots alone, through a channel of 2i. The first one has phase 2.
/// let signs = sign_map(Mode::M1)?;
/// let mut spectra = Vec::new();
/// for symbol in 0..7 {
///     let roles = role_map(Mode::M1, Phase::P2.at(symbol), &kinds)?;
///     for (role, sign) in roles.iter().zip(&signs) {
///         let pilot = if *sign == 0 { 4.0 / 3.0 } else { -4.0 / 3.0 };
///         let sent = matches!(role, CarrierRole::Sp | CarrierRole::Cp);
///         spectra.extend([0.0, if sent { 2.0 * pilot } else { 0.0 }]);
///     }
/// }
///
/// // The phase that is found is that of spectrum 0; the grid is that of spectrum 3.
/// let found = detect_sp_phase(Mode::M1, &kinds, &spectra)?;
/// let PilotPhase::Phase(first, _) = found.phase else {
///     panic!("a segment is coherent");
/// };
/// assert_eq!(first, Phase::P2);
/// let grid = estimate_grid(Mode::M1, first.at(3), &kinds, &spectra, 3, 1)?;
/// assert_eq!(grid[..2 * 37], [0.0, 2.0].repeat(37));
/// assert_eq!(grid[2 * 37..], [0.0; 2 * (470 - 37)]);
///
/// let refused = estimate_grid(Mode::M1, first, &kinds, &spectra, 7, 1);
/// assert_eq!(refused, Err(Refusal::BadIndex));
/// # Ok::<(), Refusal>(())
/// ```
pub fn estimate_grid(
    mode: Mode,
    phase: Phase,
    kinds: &Kinds,
    spectra: &[f32],
    index: usize,
    w: usize,
) -> Result<Vec<f32>, Refusal> {
    let mut grid = vec![0.0; grid_length(mode)];
    estimate_grid_lent(mode, phase, kinds, spectra, index, w, &mut grid)?;
    Ok(grid)
}

/// [`estimate_grid`] into a lent slice of [`grid_length`] floats. Points that are not estimated keep
/// their contents.
///
/// Refused: as above; last, [`BadLength`](Refusal::BadLength) for a slice of another length.
///
/// ```
/// use sillurwy::chanest::{estimate_grid_lent, grid_length};
/// use sillurwy::params::{Mode, Phase, SegmentKind};
///
/// let kinds = [SegmentKind::Differential; 13];
/// let mut grid = vec![7.0; grid_length(Mode::M1)];
/// let silence = vec![0.0; 2 * 1405];
/// estimate_grid_lent(Mode::M1, Phase::P0, &kinds, &silence, 0, 1, &mut grid)?;
/// assert_eq!(grid, vec![7.0; 940]);
/// # Ok::<(), sillurwy::Refusal>(())
/// ```
pub fn estimate_grid_lent(
    mode: Mode,
    phase: Phase,
    kinds: &Kinds,
    spectra: &[f32],
    index: usize,
    w: usize,
    grid: &mut [f32],
) -> Result<(), Refusal> {
    let code = ffi::estimate_grid(
        mode.number(),
        phase.number(),
        &kind_codes(kinds),
        spectra,
        index,
        w,
        grid,
    );
    accepted(code).map_err(|refusal| match refusal {
        Refusal::BadCarrier => Refusal::BadIndex,
        Refusal::BadSymbols => Refusal::BadWindow,
        other => other,
    })
}
