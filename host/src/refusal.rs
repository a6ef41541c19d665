//! Refusals.

use std::error::Error;
use std::fmt;

/// Why an operation was refused. Where several reasons are true, the operation gives the first in
/// the order that its documentation lists.
///
/// ```
/// use sillurwy::params::Mode;
/// use sillurwy::Refusal;
///
/// let refusal = Mode::from_number(4).unwrap_err();
/// assert_eq!(refusal, Refusal::BadMode);
/// assert_eq!(refusal.number(), 1);
/// assert_eq!(refusal.to_string(), "refused, 1: a mode other than 1, 2, 3");
/// ```
#[derive(Debug, Clone, Copy, PartialEq, Eq, Hash)]
#[non_exhaustive]
pub enum Refusal {
    /// 1: a mode other than 1, 2, 3.
    BadMode,
    /// 2: not thirteen kinds of 0 or 1.
    BadKinds,
    /// 3: a phase above 3. (The same number refuses a filter of the soft TMCC value, which cannot
    /// be wrong here.)
    BadPhase,
    /// 4: a carrier at or above k_total.
    BadCarrier,
    /// 4 as well: an index of no spectrum.
    BadIndex,
    /// 5: floats that are not whole spectra or samples, or too many of them.
    BadFloats,
    /// 6: no spectra.
    NoSpectra,
    /// 7: an output of the wrong length, or too short a scratch.
    BadLength,
    /// 8: a bound above n/2.
    BadBound,
    /// 9: a guard other than 4, 8, 16, 32.
    BadGuard,
    /// 10: more than 64 symbols.
    BadSymbols,
    /// 10 as well: a time window above 64.
    BadWindow,
}

impl Refusal {
    /// A refusal of each number, from 1 on.
    const ALL: [Refusal; 10] = [
        Refusal::BadMode,
        Refusal::BadKinds,
        Refusal::BadPhase,
        Refusal::BadCarrier,
        Refusal::BadFloats,
        Refusal::NoSpectra,
        Refusal::BadLength,
        Refusal::BadBound,
        Refusal::BadGuard,
        Refusal::BadSymbols,
    ];

    /// Its number.
    pub fn number(self) -> u8 {
        match self {
            Refusal::BadMode => 1,
            Refusal::BadKinds => 2,
            Refusal::BadPhase => 3,
            Refusal::BadCarrier | Refusal::BadIndex => 4,
            Refusal::BadFloats => 5,
            Refusal::NoSpectra => 6,
            Refusal::BadLength => 7,
            Refusal::BadBound => 8,
            Refusal::BadGuard => 9,
            Refusal::BadSymbols | Refusal::BadWindow => 10,
        }
    }

    /// The refusal of a number; of 4 and 10 it is the carrier's and the symbols'.
    pub fn from_number(number: u8) -> Option<Refusal> {
        Self::ALL.into_iter().find(|r| r.number() == number)
    }

    /// Its meaning in words.
    pub fn meaning(self) -> &'static str {
        match self {
            Refusal::BadMode => "a mode other than 1, 2, 3",
            Refusal::BadKinds => "not thirteen kinds of 0 or 1",
            Refusal::BadPhase => "a phase above 3",
            Refusal::BadCarrier => "a carrier at or above k_total",
            Refusal::BadIndex => "an index of no spectrum",
            Refusal::BadFloats => "floats that are not whole spectra or samples, or too many",
            Refusal::NoSpectra => "no spectra",
            Refusal::BadLength => "an output of the wrong length, or too short a scratch",
            Refusal::BadBound => "a bound above n/2",
            Refusal::BadGuard => "a guard other than 4, 8, 16, 32",
            Refusal::BadSymbols => "more than 64 symbols",
            Refusal::BadWindow => "a time window above 64",
        }
    }
}

impl fmt::Display for Refusal {
    fn fmt(&self, f: &mut fmt::Formatter<'_>) -> fmt::Result {
        write!(f, "refused, {}: {}", self.number(), self.meaning())
    }
}

impl Error for Refusal {}

/// What a C function returned: 0, or the number of a refusal.
pub(crate) fn accepted(code: u8) -> Result<(), Refusal> {
    match code {
        0 => Ok(()),
        _ => Err(Refusal::from_number(code).expect("an operation refuses by a known number")),
    }
}

#[cfg(test)]
mod tests {
    use super::*;

    #[test]
    fn numbers_run_from_1_on() {
        let numbers: Vec<u8> = Refusal::ALL.iter().map(|r| r.number()).collect();
        assert_eq!(numbers, (1..=10).collect::<Vec<u8>>());
        assert_eq!(Refusal::from_number(0), None);
        assert_eq!(Refusal::from_number(11), None);
        assert_eq!(accepted(0), Ok(()));
        assert_eq!(accepted(8), Err(Refusal::BadBound));
    }
}
