//! What is claimed of the port under changes of a capture, tried out on numbers: what must stay, stays
//! bit for bit. The requirement's section "What demand 3 compares" says what is compared. All changes
//! of a case are made together, and the port is compared with itself.

use super::lent::Pattern;
use super::rng::Rng;
use super::run::count_cases;
use super::simpler::simpler;
use super::tally::{Provisos, Row};
use crate::inputs::changes::Changed;
use std::fmt;
use std::sync::atomic::{AtomicU64, Ordering};

/// What is claimed of one operation under changes, by its other arguments.
pub trait Claim: Clone + Ord + fmt::Debug + Send + Sync + Sized {
    /// Its words in the table.
    const TITLE: &'static str;
    /// The stream of its random numbers.
    const STREAM: u64;
    /// How the operation is called.
    type Port: Copy + Send + Sync;

    /// A random case.
    fn random(rng: &mut Rng) -> Changed<Self>;

    /// Makes both calls.
    fn verdict(port: Self::Port, case: &Changed<Self>) -> Verdict;
}

/// What came of a case.
#[derive(Debug)]
pub struct Verdict {
    /// The capture was refused before it was changed.
    pub refused: bool,
    /// The first thing that is not as claimed.
    pub broken: Option<String>,
    /// If the case meets the proviso of the claim; none where it has none.
    pub proviso: Option<bool>,
}

/// The first difference between two lists of floats, all NaNs alike.
pub fn floats_differ<T: Pattern>(name: &str, wanted: &[T], found: &[T]) -> Option<String> {
    let at = (0..wanted.len()).find(|&at| !wanted[at].alike(found[at]))?;
    let (wanted, found) = (wanted[at].shown(), found[at].shown());
    Some(format!("{name}[{at}]: wanted {wanted}, found {found}"))
}

/// The difference between two values.
pub fn differ<T: PartialEq + fmt::Debug>(name: &str, wanted: T, found: T) -> Option<String> {
    (wanted != found).then(|| format!("{name}: wanted {wanted:?}, found {found:?}"))
}

/// Compares two answers if both calls were accepted, else the refusals.
pub fn both<T>(
    before: &Result<T, u8>,
    after: &Result<T, u8>,
    compare: impl FnOnce(&T, &T) -> Option<String>,
) -> Verdict {
    let broken = match (before, after) {
        (Ok(before), Ok(after)) => compare(before, after),
        _ => differ("refusal", before.as_ref().err(), after.as_ref().err()),
    };
    Verdict {
        refused: before.is_err(),
        broken,
        proviso: None,
    }
}

/// The answer of an accepted call, or the refusal.
pub fn accepted<T>(code: u8, answer: impl FnOnce() -> T) -> Result<T, u8> {
    if code == 0 { Ok(answer()) } else { Err(code) }
}

/// Random cases of a claim.
pub fn claim<C: Claim>(port: C::Port, seed: u64, cases: usize) -> Row {
    let (asked, met) = (AtomicU64::new(0), AtomicU64::new(0));
    let mut tally = count_cases(cases, |index, tally| {
        let case = C::random(&mut Rng::for_case(seed, C::STREAM, index as u64));
        let Verdict {
            refused,
            broken,
            proviso,
        } = C::verdict(port, &case);
        if let Some(holds) = proviso {
            asked.fetch_add(1, Ordering::Relaxed);
            met.fetch_add(u64::from(holds), Ordering::Relaxed);
        }
        tally.count(refused, broken, || case);
    });
    tally.simplify(|case, found| {
        let broken = |case: &Changed<C>| C::verdict(port, case).broken;
        simpler(case, found, |case| Some(&mut case.floats), broken)
    });
    tally.row(C::TITLE).with_provisos(Provisos {
        asked: asked.into_inner(),
        met: met.into_inner(),
    })
}
