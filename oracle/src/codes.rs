//! The numbers that the port's operations take and give, and what they stand for in the Rust.

use crate::isdb::frame::{AcKind, CarrierRole, SegmentKind};
use crate::isdb::params::{GuardInterval, Mode, SEGMENTS};

/// Refusal: a mode other than 1, 2, 3.
pub const BAD_MODE: u8 = 1;
/// Refusal: not 13 kinds of 0 or 1.
pub const BAD_KINDS: u8 = 2;
/// Refusal: a phase above 3.
pub const BAD_PHASE: u8 = 3;
/// Refusal: a carrier at or above k_total.
pub const BAD_CARRIER: u8 = 4;
/// Refusal: an index of no spectrum.
pub const BAD_INDEX: u8 = 4;
/// Refusal: a filter of the soft TMCC value other than 0, 1, 2.
pub const BAD_FILTER: u8 = 3;
/// Refusal: floats that are not whole spectra or samples, or too many of them.
pub const BAD_FLOATS: u8 = 5;
/// Refusal: no spectra.
pub const NO_SPECTRA: u8 = 6;
/// Refusal: an output of the wrong length, or too short a scratch.
pub const BAD_LENGTH: u8 = 7;
/// Refusal: a bound above n/2.
pub const BAD_BOUND: u8 = 8;
/// Refusal: a guard other than 4, 8, 16, 32.
pub const BAD_GUARD: u8 = 9;
/// Refusal: more than 64 symbols.
pub const BAD_SYMBOLS: u8 = 10;
/// Refusal: a time window above 64.
pub const BAD_WINDOW: u8 = 10;
/// Refusal: a line that has not the form of a question.
pub const BAD_LINE: u8 = 11;

/// The modes, lowest first.
pub const MODES: [Mode; 3] = [Mode::M1, Mode::M2, Mode::M3];
/// The guards' denominators.
pub const GUARDS: [u8; 4] = [4, 8, 16, 32];
/// Number of scattered-pilot phases.
pub const PHASES: u8 = 4;
/// Number of ways to choose 13 kinds.
pub const KINDS: u16 = 1 << SEGMENTS;

/// The kinds of the thirteen segments, in segment-number order.
pub type Kinds = [SegmentKind; SEGMENTS];

/// The mode of a number, or the refusal.
pub fn mode_of(number: u8) -> Result<Mode, u8> {
    Mode::from_number(number).ok_or(BAD_MODE)
}

/// The modes of a list of numbers, or the refusal.
pub fn modes_of(numbers: &[u8]) -> Result<Vec<Mode>, u8> {
    numbers.iter().map(|&number| mode_of(number)).collect()
}

/// The guards of a list of denominators, or the refusal.
pub fn guards_of(numbers: &[u8]) -> Result<Vec<GuardInterval>, u8> {
    let guard =
        |&number: &u8| GuardInterval::from_denominator(usize::from(number)).ok_or(BAD_GUARD);
    numbers.iter().map(guard).collect()
}

/// The phase of a number, or the refusal.
pub fn phase_of(number: u8) -> Result<usize, u8> {
    if number < PHASES {
        Ok(usize::from(number))
    } else {
        Err(BAD_PHASE)
    }
}

/// The kind of a byte, or the refusal.
fn kind_of(byte: u8) -> Result<SegmentKind, u8> {
    match byte {
        0 => Ok(SegmentKind::Coherent),
        1 => Ok(SegmentKind::Differential),
        _ => Err(BAD_KINDS),
    }
}

/// The kinds of thirteen bytes, or the refusal.
pub fn kinds_of(bytes: &[u8]) -> Result<Kinds, u8> {
    let bytes: &[u8; SEGMENTS] = bytes.try_into().map_err(|_| BAD_KINDS)?;
    let mut kinds = [SegmentKind::Coherent; SEGMENTS];
    for (kind, &byte) in kinds.iter_mut().zip(bytes) {
        *kind = kind_of(byte)?;
    }
    Ok(kinds)
}

/// The kind bytes of a choice: bit s of `choice` is the kind of segment s.
pub fn kind_bytes(choice: u16) -> [u8; SEGMENTS] {
    std::array::from_fn(|s| u8::from(choice >> s & 1 == 1))
}

/// The kinds of a choice.
pub fn kinds_of_choice(choice: u16) -> Kinds {
    kinds_of(&kind_bytes(choice)).expect("every kind byte is 0 or 1")
}

/// The letter of a kind in the segment list.
pub fn kind_letter(kind: SegmentKind) -> char {
    match kind {
        SegmentKind::Coherent => 'C',
        SegmentKind::Differential => 'D',
    }
}

/// The byte of a role in the role map.
pub fn role_byte(role: CarrierRole) -> u8 {
    match role {
        CarrierRole::Data => 0,
        CarrierRole::Sp => 1,
        CarrierRole::Cp => 2,
        CarrierRole::Tmcc => 3,
        CarrierRole::Ac(AcKind::Ac1) => 4,
        CarrierRole::Ac(AcKind::Ac2) => 5,
        CarrierRole::EdgeCp => 6,
    }
}
