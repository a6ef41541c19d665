//! A call of an operation: what every operation says of its calls, so that one comparison serves all.

use super::outcome::Outcome;
use super::rng::Rng;
use std::cmp::Ordering;
use std::fmt;

/// A call of one operation. The order of calls makes the smallest failing one the plainest.
pub trait Call: Clone + Ord + fmt::Display + Send + Sync + 'static {
    /// The operation's words in the tables, with which its calls begin when they are shown.
    const TITLE: &'static str;
    /// The stream of its random numbers. No two operations have the same one.
    const STREAM: u64;
    /// How the operation is called: a function, so that a mistake can be put in the port's place.
    type Port: Copy + Send + Sync;
    /// The port that is linked.
    const LINKED: Self::Port;
    /// The Rust in the place of the port, writing as the port does.
    const RUST: Self::Port;

    /// Makes the call to a port and compares it with the oracle, and with the untouched Rust where that
    /// differs. The salt varies what is lent.
    fn run(&self, port: Self::Port, salt: u64) -> Outcome;

    /// The floats that it hands over.
    fn floats(&mut self) -> Option<&mut Floats> {
        None
    }

    /// The calls at the boundaries of the refusals. The arguments are combined in full, so that wherever
    /// several refusals hold at once the call shows which one is given; only the longest inputs are
    /// combined with a few.
    fn boundary() -> Vec<Unfilled<Self>>;

    /// A random call.
    fn random(rng: &mut Rng) -> Self;
}

/// A call whose floats are still to be made: that many.
pub type Unfilled<C> = (C, usize);

/// Hands an answer to `write`, or gives the number of the refusal: how the Rust stands in the port's
/// place.
pub fn write_answer<T>(answer: Result<T, u8>, write: impl FnOnce(T)) -> u8 {
    match answer {
        Ok(value) => {
            write(value);
            0
        }
        Err(refusal) => refusal,
    }
}

/// The refusal unless `good` holds.
pub fn accept(good: bool, refusal: u8) -> Result<(), u8> {
    if good { Ok(()) } else { Err(refusal) }
}

/// Floats that a call hands over. Fewer of them are less, then fewer that are not zero, then lower
/// bits.
#[derive(Debug, Clone, Default)]
pub struct Floats(pub Vec<f32>);

impl Floats {
    /// The places of those that are not +0.0.
    fn not_zero(&self) -> impl Iterator<Item = usize> {
        let floats = &self.0;
        (0..floats.len()).filter(|&at| floats[at].to_bits() != 0)
    }

    fn bits(&self) -> impl Iterator<Item = u32> {
        self.0.iter().map(|float| float.to_bits())
    }
}

impl PartialEq for Floats {
    fn eq(&self, other: &Self) -> bool {
        self.cmp(other) == Ordering::Equal
    }
}

impl Eq for Floats {}

impl PartialOrd for Floats {
    fn partial_cmp(&self, other: &Self) -> Option<Ordering> {
        Some(self.cmp(other))
    }
}

impl Ord for Floats {
    fn cmp(&self, other: &Self) -> Ordering {
        let size = |floats: &Self| (floats.0.len(), floats.not_zero().count());
        size(self)
            .cmp(&size(other))
            .then_with(|| self.bits().cmp(other.bits()))
    }
}

/// Floats that are shown one by one.
const SHOWN: usize = 24;

impl fmt::Display for Floats {
    fn fmt(&self, f: &mut fmt::Formatter<'_>) -> fmt::Result {
        let count = self.not_zero().count();
        write!(f, "{} floats, {count} of them not 0", self.0.len())?;
        for (index, at) in self.not_zero().take(SHOWN).enumerate() {
            let sign = if index == 0 { ": " } else { ", " };
            write!(f, "{sign}[{at}] = {:#010x}", self.0[at].to_bits())?;
        }
        write!(f, "{}", if count > SHOWN { ", …" } else { "" })
    }
}
