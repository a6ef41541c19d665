//! Pilot signs.

use crate::ffi;
use crate::params::Mode;
use crate::refusal::{accepted, Refusal};

/// The pilot sign of each carrier of the band: 0 for +4/3, 1 for −4/3.
///
/// Refused: never, since the mode is known.
///
/// ```
/// use sillurwy::params::Mode;
///
/// let signs = sillurwy::prbs::sign_map(Mode::M1)?;
/// assert_eq!(signs[..12], [1, 1, 1, 1, 1, 1, 1, 1, 1, 1, 1, 0]);
/// assert_eq!(signs[1404], 1);
/// # Ok::<(), sillurwy::Refusal>(())
/// ```
pub fn sign_map(mode: Mode) -> Result<Vec<u8>, Refusal> {
    let mut out = vec![0; mode.total_carriers()];
    sign_map_lent(mode, &mut out)?;
    Ok(out)
}

/// [`sign_map`] into a lent slice of k_total bytes.
///
/// Refused: [`BadLength`](Refusal::BadLength) for a slice of another length.
///
/// ```
/// use sillurwy::params::Mode;
/// use sillurwy::{prbs, Refusal};
///
/// let mut signs = vec![0; 2809];
/// prbs::sign_map_lent(Mode::M2, &mut signs)?;
/// assert_eq!(signs[2808], 0);
/// assert_eq!(prbs::sign_map_lent(Mode::M1, &mut signs), Err(Refusal::BadLength));
/// # Ok::<(), Refusal>(())
/// ```
pub fn sign_map_lent(mode: Mode, out: &mut [u8]) -> Result<(), Refusal> {
    accepted(ffi::sign_map(mode.number(), out))
}
