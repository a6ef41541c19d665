//! The role of one carrier.

use crate::ffi;
use crate::frame::CarrierRole;
use crate::ofdm::BandCarrier;
use crate::params::{kind_codes, Kinds, Mode, Phase};
use crate::refusal::{accepted, Refusal};

/// The role of carrier k alone, in a symbol of this phase, from the tables of its own segment: no
/// map is built.
///
/// Refused: [`BadCarrier`](Refusal::BadCarrier) at or above k_total.
///
/// ```
/// use sillurwy::carrier_role::carrier_role;
/// use sillurwy::frame::CarrierRole;
/// use sillurwy::ofdm::BandCarrier;
/// use sillurwy::params::{Kinds, Mode, Phase, SegmentKind};
/// use sillurwy::Refusal;
///
/// let role = |kinds: &Kinds, k| carrier_role(Mode::M1, Phase::P0, kinds, BandCarrier(k));
/// let mut kinds = [SegmentKind::Coherent; 13];
/// assert_eq!(role(&kinds, 648), Ok(CarrierRole::Sp));
/// assert_eq!(role(&kinds, 683), Ok(CarrierRole::Ac1));
/// assert_eq!(role(&kinds, 697), Ok(CarrierRole::Tmcc));
/// assert_eq!(role(&kinds, 1404), Ok(CarrierRole::Edge));
/// assert_eq!(role(&kinds, 1405), Err(Refusal::BadCarrier));
/// // Segment 0 lies in the middle of the band, from carrier 648 on.
/// kinds[0] = SegmentKind::Differential;
/// assert_eq!(role(&kinds, 648), Ok(CarrierRole::Cp));
/// assert_eq!(role(&kinds, 651), Ok(CarrierRole::Ac2));
/// ```
///
/// It is the role that [`role_map`](crate::frame::role_map) has for the carrier.
///
/// ```
/// use sillurwy::carrier_role::carrier_role;
/// use sillurwy::frame::role_map;
/// use sillurwy::ofdm::BandCarrier;
/// use sillurwy::params::{Mode, Phase, SegmentKind};
///
/// let mut kinds = [SegmentKind::Coherent; 13];
/// kinds[0] = SegmentKind::Differential;
/// for mode in Mode::ALL {
///     for phase in Phase::ALL {
///         for (k, role) in role_map(mode, phase, &kinds)?.into_iter().enumerate() {
///             assert_eq!(carrier_role(mode, phase, &kinds, BandCarrier(k))?, role);
///         }
///     }
/// }
/// # Ok::<(), sillurwy::Refusal>(())
/// ```
pub fn carrier_role(
    mode: Mode,
    phase: Phase,
    kinds: &Kinds,
    k: BandCarrier,
) -> Result<CarrierRole, Refusal> {
    let mut byte = 0;
    accepted(ffi::carrier_role(
        mode.number(),
        phase.number(),
        &kind_codes(kinds),
        k.0,
        &mut byte,
    ))?;
    Ok(CarrierRole::from_byte(byte).expect("a carrier has the byte of a role"))
}
