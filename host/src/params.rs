//! Modes, guard intervals, kinds and phases with their codes; the sizes of a mode.
//!
//! A code from outside becomes an enum here, once; behind it a wrong code cannot occur.

use crate::Refusal;

/// The segments of the band.
pub const SEGMENTS: usize = 13;

/// The kinds of the thirteen segments, in segment-number order.
pub type Kinds = [SegmentKind; SEGMENTS];

/// System mode.
///
/// ```
/// use sillurwy::params::Mode;
///
/// let mode = Mode::from_number(3)?;
/// assert_eq!(mode, Mode::M3);
/// assert_eq!(mode.fft_size(), 8192);
/// assert_eq!(mode.total_carriers(), 5617);
/// # Ok::<(), sillurwy::Refusal>(())
/// ```
#[derive(Debug, Clone, Copy, PartialEq, Eq, Hash)]
#[repr(u8)]
pub enum Mode {
    /// 108 carriers a segment, 2k FFT.
    M1 = 1,
    /// 216 carriers a segment, 4k FFT.
    M2 = 2,
    /// 432 carriers a segment, 8k FFT.
    M3 = 3,
}

impl Mode {
    /// Every mode.
    pub const ALL: [Mode; 3] = [Mode::M1, Mode::M2, Mode::M3];

    /// 1, 2 or 3.
    pub fn number(self) -> u8 {
        self as u8
    }

    /// The mode of a number, or [`Refusal::BadMode`].
    pub fn from_number(number: u8) -> Result<Mode, Refusal> {
        let mode = Self::ALL.into_iter().find(|m| m.number() == number);
        mode.ok_or(Refusal::BadMode)
    }

    /// Carriers of a segment, c.
    pub fn carriers_per_segment(self) -> usize {
        match self {
            Mode::M1 => 108,
            Mode::M2 => 216,
            Mode::M3 => 432,
        }
    }

    /// Data carriers of a segment, nc.
    pub fn data_carriers_per_segment(self) -> usize {
        match self {
            Mode::M1 => 96,
            Mode::M2 => 192,
            Mode::M3 => 384,
        }
    }

    /// Carriers of the band with its edge, k_total.
    pub fn total_carriers(self) -> usize {
        match self {
            Mode::M1 => 1405,
            Mode::M2 => 2809,
            Mode::M3 => 5617,
        }
    }

    /// Bins of the FFT, n.
    pub fn fft_size(self) -> usize {
        match self {
            Mode::M1 => 2048,
            Mode::M2 => 4096,
            Mode::M3 => 8192,
        }
    }
}

/// Guard interval ratio.
///
/// ```
/// use sillurwy::params::{GuardInterval, Mode};
///
/// let guard = GuardInterval::from_denominator(8)?;
/// assert_eq!(guard.samples(Mode::M3), 1024);
/// # Ok::<(), sillurwy::Refusal>(())
/// ```
#[derive(Debug, Clone, Copy, PartialEq, Eq, Hash)]
#[repr(u8)]
pub enum GuardInterval {
    /// 1/4.
    G1_4 = 4,
    /// 1/8.
    G1_8 = 8,
    /// 1/16.
    G1_16 = 16,
    /// 1/32.
    G1_32 = 32,
}

impl GuardInterval {
    /// Every guard interval.
    pub const ALL: [GuardInterval; 4] = [
        GuardInterval::G1_4,
        GuardInterval::G1_8,
        GuardInterval::G1_16,
        GuardInterval::G1_32,
    ];

    /// 4, 8, 16 or 32.
    pub fn denominator(self) -> u8 {
        self as u8
    }

    /// The guard interval of a denominator, or [`Refusal::BadGuard`].
    pub fn from_denominator(denominator: u8) -> Result<GuardInterval, Refusal> {
        let guard = Self::ALL
            .into_iter()
            .find(|g| g.denominator() == denominator);
        guard.ok_or(Refusal::BadGuard)
    }

    /// Samples of the guard in a mode.
    pub fn samples(self, mode: Mode) -> usize {
        mode.fft_size() / usize::from(self.denominator())
    }
}

/// Kind of a segment.
#[derive(Debug, Clone, Copy, PartialEq, Eq, Hash)]
#[repr(u8)]
pub enum SegmentKind {
    /// With scattered pilots.
    Coherent = 0,
    /// With a continual pilot.
    Differential = 1,
}

impl SegmentKind {
    /// 0 coherent, 1 differential.
    pub fn code(self) -> u8 {
        self as u8
    }

    /// The kind of a code, or [`Refusal::BadKinds`].
    pub fn from_code(code: u8) -> Result<SegmentKind, Refusal> {
        match code {
            0 => Ok(SegmentKind::Coherent),
            1 => Ok(SegmentKind::Differential),
            _ => Err(Refusal::BadKinds),
        }
    }
}

/// The kinds of thirteen codes in segment-number order, or [`Refusal::BadKinds`].
///
/// ```
/// use sillurwy::params::{kinds_from_codes, SegmentKind};
/// use sillurwy::Refusal;
///
/// let kinds = kinds_from_codes(&[0, 0, 0, 0, 0, 0, 0, 0, 0, 0, 0, 0, 1])?;
/// assert_eq!(kinds[12], SegmentKind::Differential);
/// assert_eq!(kinds_from_codes(&[0; 12]), Err(Refusal::BadKinds));
/// # Ok::<(), Refusal>(())
/// ```
pub fn kinds_from_codes(codes: &[u8]) -> Result<Kinds, Refusal> {
    let codes: &[u8; SEGMENTS] = codes.try_into().map_err(|_| Refusal::BadKinds)?;
    let mut kinds = [SegmentKind::Coherent; SEGMENTS];
    for (kind, &code) in kinds.iter_mut().zip(codes) {
        *kind = SegmentKind::from_code(code)?;
    }
    Ok(kinds)
}

/// Phase of the scattered pilots in a symbol. It goes up by one from symbol to symbol; after 3 comes 0.
///
/// ```
/// use sillurwy::params::Phase;
///
/// assert_eq!(Phase::from_number(3)?.next(), Phase::P0);
/// # Ok::<(), sillurwy::Refusal>(())
/// ```
#[derive(Debug, Clone, Copy, PartialEq, Eq, Hash)]
#[repr(u8)]
pub enum Phase {
    /// Pilots at places 0, 12, 24 and so on.
    P0 = 0,
    /// Pilots at places 3, 15, 27 and so on.
    P1 = 1,
    /// Pilots at places 6, 18, 30 and so on.
    P2 = 2,
    /// Pilots at places 9, 21, 33 and so on.
    P3 = 3,
}

impl Phase {
    /// Every phase.
    pub const ALL: [Phase; 4] = [Phase::P0, Phase::P1, Phase::P2, Phase::P3];

    /// 0 to 3.
    pub fn number(self) -> u8 {
        self as u8
    }

    /// The phase of a number, or [`Refusal::BadPhase`].
    pub fn from_number(number: u8) -> Result<Phase, Refusal> {
        let phase = Self::ALL.get(usize::from(number)).copied();
        phase.ok_or(Refusal::BadPhase)
    }

    /// The phase of the next symbol.
    pub fn next(self) -> Phase {
        self.at(1)
    }

    /// The phase of spectrum `index`, where spectrum 0 has `self`: (phase + index) mod 4.
    ///
    /// [`detect_sp_phase`](crate::pilot_phase::detect_sp_phase) answers for spectrum 0, and
    /// [`estimate_grid`](crate::chanest::estimate_grid) asks for the phase of spectrum `index`.
    ///
    /// ```
    /// use sillurwy::params::Phase;
    ///
    /// assert_eq!(Phase::P2.at(0), Phase::P2);
    /// assert_eq!(Phase::P2.at(3), Phase::P1);
    /// assert_eq!(Phase::P2.at(1023), Phase::P1);
    /// ```
    pub fn at(self, index: usize) -> Phase {
        let phases = Self::ALL.len();
        Self::ALL[(usize::from(self.number()) + index % phases) % phases]
    }
}

// The C functions take lists of codes.

pub(crate) fn mode_codes(modes: &[Mode]) -> Vec<u8> {
    modes.iter().map(|mode| mode.number()).collect()
}

pub(crate) fn guard_codes(guards: &[GuardInterval]) -> Vec<u8> {
    guards.iter().map(|guard| guard.denominator()).collect()
}

pub(crate) fn kind_codes(kinds: &Kinds) -> [u8; SEGMENTS] {
    kinds.map(SegmentKind::code)
}

#[cfg(test)]
mod tests {
    use super::*;

    #[test]
    fn a_phase_at_an_index_is_that_many_symbols_on() {
        for phase in Phase::ALL {
            let mut stepped = phase;
            for index in 0..100 {
                assert_eq!(phase.at(index), stepped);
                stepped = stepped.next();
            }
        }
        let order = [Phase::P1, Phase::P2, Phase::P3, Phase::P0];
        assert_eq!(Phase::ALL.map(Phase::next), order);
    }

    #[test]
    fn a_phase_is_there_for_every_index() {
        for phase in Phase::ALL {
            // The largest index is 3 mod 4.
            assert_eq!(phase.at(usize::MAX), phase.at(3));
            assert_eq!(phase.at(usize::MAX - 3), phase);
            for index in (0..usize::BITS).map(|digit| usize::MAX >> digit) {
                let sum = u128::from(phase.number()) + index as u128;
                assert_eq!(u128::from(phase.at(index).number()), sum % 4);
            }
        }
    }
}
