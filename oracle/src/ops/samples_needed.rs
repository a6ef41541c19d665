//! The samples needed: how many pairs the guess needs to try every mode and guard of two lists.

use super::Operation;
use crate::acquire::{Acquire, Oracle, Untouched};
use crate::codes::{BAD_SYMBOLS, GUARDS, MODES, guards_of, modes_of};
use crate::harness::call::{Call, Unfilled, accept, write_answer};
use crate::harness::lent::{Lent, Shown};
use crate::harness::outcome::{Compared, Outcome};
use crate::harness::rng::Rng;
use crate::harness::run::{self, Plan};
use crate::harness::stored::Record;
use crate::harness::tally::Row;
use crate::harness::timing::{self, Effort};
use crate::inputs::arguments::{
    boundary_guard_lists, boundary_mode_lists, mode_numbers, random_list,
};
use crate::inputs::timed::{in_turn, row};
use crate::isdb::rx::acquire;
use sillurwy::ffi;
use std::fmt;
use std::hint::black_box;

pub const OPERATION: Operation = Operation {
    name: "samples_needed",
    number: Some(6),
    part: "acquisition",
    streams: &[NeededCall::STREAM],
    compare,
    bench,
    stored,
};

// ---- The operation

/// Modes, guards, symbols; samples.
pub type Port = fn(&[u8], &[u8], usize, &mut usize) -> u8;

/// A call.
#[derive(Debug, Clone, PartialEq, Eq, PartialOrd, Ord)]
pub struct NeededCall {
    /// Modes.
    pub modes: Vec<u8>,
    /// Guards.
    pub guards: Vec<u8>,
    /// Symbols.
    pub symbols: usize,
}

/// The most symbols.
pub const MOST_SYMBOLS: usize = 64;

/// The answer by a norm, though none is taken.
pub fn answer<R: Acquire>(modes: &[u8], guards: &[u8], symbols: usize) -> Result<usize, u8> {
    let modes = modes_of(modes)?;
    let guards = guards_of(guards)?;
    accept(symbols <= MOST_SYMBOLS, BAD_SYMBOLS)?;
    Ok(R::samples_needed(&modes, &guards, symbols))
}

/// Writes an answer as the port does.
pub fn write(answer: Result<usize, u8>, samples: &mut usize) -> u8 {
    write_answer(answer, |needed| *samples = needed)
}

fn rust(modes: &[u8], guards: &[u8], symbols: usize, samples: &mut usize) -> u8 {
    write(answer::<Oracle>(modes, guards, symbols), samples)
}

impl NeededCall {
    /// The answer to this call by a norm.
    pub fn answer<R: Acquire>(&self) -> Result<usize, u8> {
        answer::<R>(&self.modes, &self.guards, self.symbols)
    }
}

impl fmt::Display for NeededCall {
    fn fmt(&self, f: &mut fmt::Formatter<'_>) -> fmt::Result {
        let Self {
            modes,
            guards,
            symbols,
        } = self;
        write!(
            f,
            "samples needed: modes {modes:?}, guards {guards:?}, {symbols} symbols"
        )
    }
}

// ---- The calls that are compared

impl Call for NeededCall {
    const TITLE: &'static str = "samples needed";
    const STREAM: u64 = 504;
    type Port = Port;
    const LINKED: Port = ffi::samples_needed;
    const RUST: Port = rust;

    fn run(&self, port: Port, salt: u64) -> Outcome {
        let (modes, guards) = (Shown::new(&self.modes), Shown::new(&self.guards));
        let mut samples = Lent::one(salt);
        let given = port(modes.slice(), guards.slice(), self.symbols, samples.entry());
        let compared = |answer: &_| {
            Compared::of_code(given, answer)
                .lent(&samples, "samples", answer, |&a| vec![a])
                .shown(&modes, "modes")
                .shown(&guards, "guards")
        };
        Outcome::of_both(
            &self.answer::<Oracle>(),
            &self.answer::<Untouched>(),
            compared,
        )
    }

    fn boundary() -> Vec<Unfilled<Self>> {
        let most = MOST_SYMBOLS;
        let symbols = [0, 1, most - 1, most, most + 1, 1 << 32, 1 << 63, usize::MAX];
        let mut calls = Vec::new();
        for modes in boundary_mode_lists() {
            for guards in boundary_guard_lists() {
                let call = |symbols| Self {
                    modes: modes.clone(),
                    guards: guards.clone(),
                    symbols,
                };
                calls.extend(symbols.map(|symbols| (call(symbols), 0)));
            }
        }
        calls
    }

    fn random(rng: &mut Rng) -> Self {
        let (mode, guard) = (rng.pick(&MODES).number(), *rng.pick(&GUARDS));
        Self {
            modes: random_list(rng, mode, &mode_numbers()),
            guards: random_list(rng, guard, &GUARDS),
            symbols: if rng.once_in(16) {
                (rng.next_u64() >> rng.below(64)) as usize
            } else {
                rng.below(MOST_SYMBOLS + 2)
            },
        }
    }
}

fn compare(plan: &Plan) -> Vec<Row> {
    vec![
        run::boundary::<NeededCall>(NeededCall::LINKED, plan.seed),
        run::random::<NeededCall>(NeededCall::LINKED, plan.seed, plan.captures),
    ]
}

// ---- The benchmark

fn port_needed(modes: &[u8], symbols: usize) -> usize {
    let mut samples = 0;
    let code = ffi::samples_needed(modes, &GUARDS, symbols, &mut samples);
    assert_eq!(code, 0, "the samples needed are accepted");
    samples
}

/// Over all modes and guards, for each number of symbols in turn.
fn bench(effort: &Effort) -> Vec<timing::Row> {
    let modes = mode_numbers();
    for symbols in 0..=MOST_SYMBOLS {
        let right = answer::<Oracle>(&modes, &GUARDS, symbols);
        assert_eq!(right, Ok(port_needed(&modes, symbols)));
    }
    let symbols = |i| i % (MOST_SYMBOLS + 1);
    vec![row(
        "samples needed, over all modes and guards".to_string(),
        "`samples_needed`",
        &in_turn(effort),
        |i| port_needed(&modes, symbols(i)),
        |i| {
            let (modes, guards) = black_box((&acquire::MODES, &acquire::GUARDS));
            acquire::samples_needed(modes, guards, symbols(i))
        },
    )]
}

// ---- Stored answers

fn record(modes: &[u8], guards: &[u8], symbols: usize) -> Record {
    let answer = answer::<Oracle>(modes, guards, symbols);
    Record::of(&answer)
        .bytes(modes)
        .bytes(guards)
        .number(symbols)
        .written(&answer, |&a| vec![a])
}

/// Of several lists, of none; and refused by each number.
fn stored(_: &mut Rng) -> Vec<Record> {
    vec![
        record(&[1], &[32], 4),
        record(&[1, 2, 3], &[4, 8, 16, 32], 64),
        record(&[2, 1], &[16, 8], 0),
        record(&[1, 1], &[32, 16], 7),
        record(&[], &[4], 5),
        record(&[0], &[33], 65),
        record(&[3], &[33], 65),
        record(&[3], &[4], 65),
    ]
}

#[cfg(test)]
mod tests {
    use super::*;

    #[test]
    fn every_refusal_is_stored() {
        let records = stored(&mut Rng::new(1));
        let codes: Vec<u8> = records.iter().map(Record::code).collect();
        assert_eq!(codes, [0, 0, 0, 0, 0, 1, 9, 10]);
    }
}
