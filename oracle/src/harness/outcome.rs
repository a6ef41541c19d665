//! What comes of one call to the port, compared with the oracle's answer: the code, every lent buffer,
//! and what lies around it.

use super::lent::{Lent, Pattern, Shown};
use super::tally::Farthest;

/// The values that a call writes from the start of its output, or the number of its refusal.
pub type Answer<T> = Result<Vec<T>, u8>;

/// What came of comparing a call part by part: its code, what it was lent, what it was shown. Parts
/// after the first difference are not compared.
#[derive(Debug)]
pub struct Compared {
    /// The first difference.
    pub difference: Option<String>,
    /// NaNs that were lent and had to be left, whose bytes were compared.
    pub nans_left: u64,
}

impl Compared {
    /// The code.
    pub fn of_code<A>(port: u8, answer: &Result<A, u8>) -> Self {
        let oracle = answer.as_ref().err().copied().unwrap_or(0);
        Self {
            difference: (port != oracle).then(|| format!("code: oracle {oracle}, port {port}")),
            nans_left: 0,
        }
    }

    /// A lent buffer, and what an accepted call writes to it.
    pub fn lent<A, T: Pattern>(
        mut self,
        lent: &Lent<T>,
        name: &str,
        answer: &Result<A, u8>,
        written: impl FnOnce(&A) -> Vec<T>,
    ) -> Self {
        if self.difference.is_none() {
            let answer = answer.as_ref().map(written).map_err(|&refusal| refusal);
            self.difference = lent.difference(name, &answer);
            self.nans_left += lent.nans_left(&answer);
        }
        self
    }

    /// What else must hold: the first thing that does not.
    pub fn also(mut self, broken: impl FnOnce() -> Option<String>) -> Self {
        self.difference = self.difference.or_else(broken);
        self
    }

    /// Values that were lent to be read.
    pub fn shown<T: Pattern>(mut self, shown: &Shown<'_, T>, name: &str) -> Self {
        self.difference = self.difference.or_else(|| shown.written(name));
        self
    }
}

/// What came of a call.
#[derive(Debug)]
pub struct Outcome {
    /// The oracle refuses it.
    pub refused: bool,
    /// The first difference, if any.
    pub difference: Option<String>,
    /// If the untouched Rust departs from the port; none where it was not asked.
    pub departs: Option<bool>,
    /// NaNs that were lent and had to be left, whose bytes were compared.
    pub nans_left: u64,
    /// How far something of it was from what it had to come near; none where nothing had to.
    pub farthest: Option<Farthest>,
}

impl Outcome {
    /// The outcome where the oracle gave `answer`.
    pub fn of<T>(answer: &Result<T, u8>, compared: Compared) -> Self {
        Self {
            refused: answer.is_err(),
            difference: compared.difference,
            departs: None,
            nans_left: compared.nans_left,
            farthest: None,
        }
    }

    /// The outcome where the oracle and the untouched Rust gave answers, each of which is `compared`
    /// with what the port gave.
    pub fn of_both<T>(
        answer: &Result<T, u8>,
        untouched: &Result<T, u8>,
        compared: impl Fn(&Result<T, u8>) -> Compared,
    ) -> Self {
        Self {
            departs: Some(compared(untouched).difference.is_some()),
            ..Self::of(answer, compared(answer))
        }
    }
}
