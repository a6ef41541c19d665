//! Carriers and bins.

use crate::ffi;
use crate::params::Mode;
use crate::refusal::{accepted, Refusal};

/// A carrier's number in the band: 0 is the lowest frequency, k_total - 1 the edge.
#[derive(Debug, Clone, Copy, PartialEq, Eq, PartialOrd, Ord, Hash)]
pub struct BandCarrier(pub usize);

/// A bin of the FFT: bin 0 is the centre carrier.
#[derive(Debug, Clone, Copy, PartialEq, Eq, PartialOrd, Ord, Hash)]
pub struct FftBin(pub usize);

/// The FFT bin of a carrier.
///
/// Refused: [`BadCarrier`](Refusal::BadCarrier) at or above k_total.
///
/// ```
/// use sillurwy::ofdm::{carrier_bin, BandCarrier, FftBin};
/// use sillurwy::params::Mode;
/// use sillurwy::Refusal;
///
/// assert_eq!(carrier_bin(Mode::M1, BandCarrier(0)), Ok(FftBin(1346)));
/// assert_eq!(carrier_bin(Mode::M1, BandCarrier(702)), Ok(FftBin(0)));
/// assert_eq!(carrier_bin(Mode::M1, BandCarrier(1405)), Err(Refusal::BadCarrier));
/// ```
pub fn carrier_bin(mode: Mode, k: BandCarrier) -> Result<FftBin, Refusal> {
    let mut bin = 0;
    accepted(ffi::carrier_bin(mode.number(), k.0, &mut bin))?;
    Ok(FftBin(bin))
}
