//! Roles of carriers.

use crate::ffi;
use crate::params::{kind_codes, Kinds, Mode, Phase};
use crate::refusal::{accepted, Refusal};

/// Role of a carrier in a symbol.
///
/// ```
/// use sillurwy::frame::CarrierRole;
///
/// assert_eq!(CarrierRole::from_byte(3), Some(CarrierRole::Tmcc));
/// assert_eq!(CarrierRole::Edge.byte(), 6);
/// ```
#[derive(Debug, Clone, Copy, PartialEq, Eq, Hash)]
#[repr(u8)]
pub enum CarrierRole {
    /// Data.
    Data = 0,
    /// Scattered pilot.
    Sp = 1,
    /// Continual pilot: carrier 0 of a differential segment.
    Cp = 2,
    /// TMCC.
    Tmcc = 3,
    /// AC1, in all segments.
    Ac1 = 4,
    /// AC2, in differential segments only.
    Ac2 = 5,
    /// The band's last carrier.
    Edge = 6,
}

impl CarrierRole {
    /// Every role, by its byte.
    pub const ALL: [CarrierRole; 7] = [
        CarrierRole::Data,
        CarrierRole::Sp,
        CarrierRole::Cp,
        CarrierRole::Tmcc,
        CarrierRole::Ac1,
        CarrierRole::Ac2,
        CarrierRole::Edge,
    ];

    /// Its byte in the role map, 0 to 6.
    pub fn byte(self) -> u8 {
        self as u8
    }

    /// The role of a byte of the role map.
    pub fn from_byte(byte: u8) -> Option<CarrierRole> {
        Self::ALL.get(usize::from(byte)).copied()
    }
}

/// The role of each carrier of the band, in a symbol of this phase.
///
/// Refused: never, since mode, phase and kinds are known.
///
/// ```
/// use sillurwy::frame::{role_map, CarrierRole};
/// use sillurwy::params::{Mode, Phase, SegmentKind};
///
/// let roles = role_map(Mode::M1, Phase::P0, &[SegmentKind::Coherent; 13])?;
/// assert_eq!(roles.len(), 1405);
/// assert_eq!(roles[648], CarrierRole::Sp);
/// assert_eq!(roles[683], CarrierRole::Ac1);
/// assert_eq!(roles[697], CarrierRole::Tmcc);
/// # Ok::<(), sillurwy::Refusal>(())
/// ```
pub fn role_map(mode: Mode, phase: Phase, kinds: &Kinds) -> Result<Vec<CarrierRole>, Refusal> {
    let mut out = vec![0; mode.total_carriers()];
    role_map_lent(mode, phase, kinds, &mut out)?;
    let role = |byte| CarrierRole::from_byte(byte).expect("a role map has bytes of roles");
    Ok(out.into_iter().map(role).collect())
}

/// [`role_map`] into a lent slice of k_total bytes, each the [`byte`](CarrierRole::byte) of a role.
///
/// Refused: [`BadLength`](Refusal::BadLength) for a slice of another length.
///
/// ```
/// use sillurwy::frame::{role_map_lent, CarrierRole};
/// use sillurwy::params::{Mode, Phase, SegmentKind};
///
/// let mut roles = vec![0; Mode::M3.total_carriers()];
/// for phase in Phase::ALL {
///     role_map_lent(Mode::M3, phase, &[SegmentKind::Coherent; 13], &mut roles)?;
///     let pilots = roles.iter().filter(|&&r| r == CarrierRole::Sp.byte()).count();
///     assert_eq!(pilots, 13 * 36);
/// }
/// # Ok::<(), sillurwy::Refusal>(())
/// ```
pub fn role_map_lent(
    mode: Mode,
    phase: Phase,
    kinds: &Kinds,
    out: &mut [u8],
) -> Result<(), Refusal> {
    accepted(ffi::role_map(
        mode.number(),
        phase.number(),
        &kind_codes(kinds),
        out,
    ))
}
