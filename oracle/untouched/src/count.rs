//! Random calls of an operation, counted by kind of input and by what departs.

use crate::held::{Departs, Held};
use crate::input_kind::{InputKind, KINDS};
use oracle::harness::call::Floats;
use oracle::harness::rng::Rng;
use oracle::harness::simpler::simpler;
use oracle::harness::tally::on_all_processors;
use std::collections::BTreeMap;

/// What was counted of one kind of input.
#[derive(Debug, Clone, Copy, Default)]
pub struct Row {
    /// Calls that were not refused.
    pub cases: u64,
    /// Those whose answers depart.
    pub answer: u64,
    /// Those of which only floats depart.
    pub float: u64,
}

/// What was counted of an operation.
#[derive(Debug)]
pub struct Counted<C> {
    /// Calls that the oracle refused.
    pub refused: u64,
    /// Of each kind of input.
    pub rows: BTreeMap<InputKind, Row>,
    /// The smallest departing call of each kind, for answers and for floats, and what was found.
    pub smallest: BTreeMap<(InputKind, Departs), (C, String)>,
}

impl<C: Held> Default for Counted<C> {
    fn default() -> Self {
        Self {
            refused: 0,
            rows: KINDS.map(|kind| (kind, Row::default())).into(),
            smallest: BTreeMap::new(),
        }
    }
}

/// Calls in a job of one thread.
const JOB: usize = 64;

impl<C: Held> Counted<C> {
    /// Counts `cases` random calls, the same as those of the comparison with the port.
    pub fn random(seed: u64, cases: usize) -> Self {
        Self::of(cases, |index| {
            C::random(&mut Rng::for_case(seed, C::STREAM, index))
        })
    }

    /// The same, with one pair of an infinity and a NaN put into each.
    pub fn with_odd_pair(seed: u64, cases: usize) -> Self {
        Self::of(cases, |index| {
            let mut rng = Rng::for_case(seed, C::STREAM, index);
            let mut call = C::random(&mut rng);
            if let Some(Floats(floats)) = call.floats() {
                put_odd_pair(&mut rng, floats);
            }
            call
        })
    }

    fn of(cases: usize, call: impl Fn(u64) -> C + Sync) -> Self {
        let parts = on_all_processors(cases.div_ceil(JOB), |job| {
            let mut part = Self::default();
            for index in job * JOB..cases.min((job + 1) * JOB) {
                part.count(call(index as u64));
            }
            part
        });
        let mut all = Self::default();
        parts.into_iter().for_each(|part| all.add(part));
        all.simplify();
        all
    }

    fn count(&mut self, call: C) {
        let Ok(both) = call.held() else {
            self.refused += 1;
            return;
        };
        let kind = InputKind::of(call.given());
        let row = self.rows.entry(kind).or_default();
        row.cases += 1;
        let Some(departs) = both.departs() else {
            return;
        };
        match departs {
            Departs::Answer => row.answer += 1,
            Departs::Float => row.float += 1,
        }
        self.keep_smaller((kind, departs), (call, both.shown()));
    }

    fn keep_smaller(&mut self, key: (InputKind, Departs), found: (C, String)) {
        let kept = self.smallest.get(&key);
        if kept.is_none_or(|kept| found.0 < kept.0) {
            self.smallest.insert(key, found);
        }
    }

    fn add(&mut self, other: Self) {
        self.refused += other.refused;
        for (kind, row) in other.rows {
            let sum = self.rows.entry(kind).or_default();
            sum.cases += row.cases;
            sum.answer += row.answer;
            sum.float += row.float;
        }
        for (key, found) in other.smallest {
            self.keep_smaller(key, found);
        }
    }

    /// Makes each smallest call simpler, as long as it stays of its kind and departs in its way.
    fn simplify(&mut self) {
        let found: Vec<_> = std::mem::take(&mut self.smallest).into_iter().collect();
        let simple = on_all_processors(found.len(), |index| {
            let (key, found) = found[index].clone();
            (key, simplest(key, found))
        });
        self.smallest = simple.into_iter().collect();
    }
}

/// Puts an infinity and a NaN into some pair, in either order.
fn put_odd_pair(rng: &mut Rng, floats: &mut [f32]) {
    let pairs = floats.len() / 2;
    if pairs == 0 {
        return;
    }
    let at = 2 * rng.below(pairs);
    let infinite = *rng.pick(&[f32::INFINITY, f32::NEG_INFINITY]);
    let (one, other) = *rng.pick(&[(0, 1), (1, 0)]);
    floats[at + one] = infinite;
    floats[at + other] = f32::NAN;
}

/// How often a call is gone through.
const ROUNDS: usize = 8;

/// A call that still departs in the same way, with as many floats put to zero as can be, and then
/// with as few binary digits as can be.
fn simplest<C: Held>(key: (InputKind, Departs), mut found: (C, String)) -> (C, String) {
    let departs = |call: &C| {
        let both = call.held().ok()?;
        let same = (InputKind::of(call.given()), both.departs()?) == key;
        same.then(|| both.shown())
    };
    for _ in 0..ROUNDS {
        let before = found.0.clone();
        found = simpler(found.0, found.1, C::floats, departs);
        if found.0 == before {
            break;
        }
    }
    rounder(found, departs)
}

/// The most floats that are rounded.
const ROUNDED: usize = 64;

/// A call that still departs, whose floats have few binary digits; the first of those that are not
/// zero.
fn rounder<C: Held>(
    (mut call, mut found): (C, String),
    departs: impl Fn(&C) -> Option<String>,
) -> (C, String) {
    let not_zero = |&at: &usize| call.given()[at].to_bits() != 0;
    let places: Vec<usize> = (0..call.given().len()).filter(not_zero).collect();
    for at in places.into_iter().take(ROUNDED) {
        for simple in rounded(call.given()[at]) {
            let mut other = call.clone();
            let Some(Floats(floats)) = other.floats() else {
                break;
            };
            floats[at] = simple;
            if let Some(shown) = departs(&other) {
                (call, found) = (other, shown);
                break;
            }
        }
    }
    (call, found)
}

/// Numbers near `x`, those with fewer binary digits first; before them 1, for a finite `x`.
fn rounded(x: f32) -> Vec<f32> {
    if !x.is_finite() {
        return Vec::new();
    }
    let cut = |digits: u32| f32::from_bits(x.to_bits() >> (23 - digits) << (23 - digits));
    let mut simple: Vec<f32> = (0..23).map(cut).collect();
    simple.insert(0, 1.0);
    simple.retain(|y| y.to_bits() != x.to_bits());
    simple
}
