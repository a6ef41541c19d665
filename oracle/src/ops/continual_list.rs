//! The continual list: the carriers that have a pilot in every symbol, and how many there are.

use super::Operation;
use crate::codes::{BAD_LENGTH, kind_bytes, kinds_of, mode_of};
use crate::harness::call::{Call, Unfilled, accept, write_answer};
use crate::harness::lent::{Lent, Shown};
use crate::harness::outcome::{Answer, Compared, Outcome};
use crate::harness::rng::Rng;
use crate::harness::run::{self, Plan};
use crate::harness::stored::Record;
use crate::harness::tally::{Row, Tally, on_all_processors};
use crate::harness::timing::{self, Effort};
use crate::inputs::arguments::{
    MODE_NUMBERS, boundary_kinds, random_kinds, random_length, random_mode, readable,
};
use crate::inputs::layouts::{self, layout, stored_layouts};
use crate::inputs::timed_layouts::{at, inputs, of_modes, row};
use crate::isdb::frame::FrameLayout;
use crate::isdb::params::{Mode, SEGMENTS};
use crate::isdb::rx;
use sillurwy::ffi;
use std::fmt;
use std::hint::black_box;

pub const OPERATION: Operation = Operation {
    name: "continual_list",
    number: Some(5),
    part: "layout",
    streams: &[ContinualCall::STREAM],
    compare,
    bench,
    stored,
};

// ---- The operation

/// Mode, kinds; carriers, count.
pub type Port = fn(u8, &[u8], &mut [u32], &mut usize) -> u8;

/// A call. In the order of calls, low numbers and coherent segments come first.
#[derive(Debug, Clone, PartialEq, Eq, PartialOrd, Ord)]
pub struct ContinualCall {
    /// Mode.
    pub mode: u8,
    /// Kinds.
    pub kinds: Vec<u8>,
    /// Lent numbers.
    pub len: usize,
}

/// Continual carriers, in the width that the port writes.
pub fn continual(layout: &FrameLayout) -> Vec<u32> {
    let narrow = |k: usize| u32::try_from(k).expect("a carrier number is small");
    rx::continual_list(layout).into_iter().map(narrow).collect()
}

/// The continual carriers, into an output of `len` numbers; the count is the length of the answer.
pub fn answer(mode: u8, kinds: &[u8], len: usize) -> Answer<u32> {
    let mode = mode_of(mode)?;
    let kinds = kinds_of(kinds)?;
    let list = continual(&FrameLayout::new(mode, kinds));
    accept(len >= list.len(), BAD_LENGTH)?;
    Ok(list)
}

/// Writes an answer as the port does.
pub fn write(answer: Answer<u32>, out: &mut [u32], count: &mut usize) -> u8 {
    write_answer(answer, |list| {
        out[..list.len()].copy_from_slice(&list);
        *count = list.len();
    })
}

fn rust(mode: u8, kinds: &[u8], out: &mut [u32], count: &mut usize) -> u8 {
    write(answer(mode, kinds, out.len()), out, count)
}

impl ContinualCall {
    fn answer(&self) -> Answer<u32> {
        answer(self.mode, &self.kinds, self.len)
    }

    /// Makes the call to a port and compares it with an answer.
    pub fn compared(&self, port: Port, answer: &Answer<u32>, salt: u64) -> Compared {
        let mut out = Lent::new(self.len, salt);
        let mut count = Lent::one(salt);
        let kinds = Shown::new(&self.kinds);
        let given = port(self.mode, kinds.slice(), out.slice(), count.entry());
        Compared::of_code(given, answer)
            .lent(&count, "count", answer, |list| vec![list.len()])
            .lent(&out, "out", answer, Vec::clone)
            .shown(&kinds, "kinds")
    }
}

impl fmt::Display for ContinualCall {
    fn fmt(&self, f: &mut fmt::Formatter<'_>) -> fmt::Result {
        let Self { mode, kinds, len } = self;
        let kinds = readable(kinds);
        write!(
            f,
            "continual list: mode {mode}, kinds {kinds}, output of {len}"
        )
    }
}

// ---- The calls that are compared

/// Number of entries in the list; of bad arguments, a number that would do in any mode.
fn continual_count(mode: u8, kinds: &[u8]) -> usize {
    match answer(mode, kinds, usize::MAX) {
        Ok(list) => list.len(),
        Err(_) => Mode::M3.total_carriers(),
    }
}

impl Call for ContinualCall {
    const TITLE: &'static str = "continual list";
    const STREAM: u64 = 104;
    type Port = Port;
    const LINKED: Port = ffi::continual_list;
    const RUST: Port = rust;

    fn run(&self, port: Port, salt: u64) -> Outcome {
        let answer = self.answer();
        Outcome::of(&answer, self.compared(port, &answer, salt))
    }

    /// Every combination of kinds and lengths around the count.
    fn boundary() -> Vec<Unfilled<Self>> {
        let mut calls = Vec::new();
        for mode in MODE_NUMBERS {
            for kinds in boundary_kinds() {
                let count = continual_count(mode, &kinds);
                for len in [0, count - 1, count, count + 1, count + 100] {
                    let kinds = kinds.clone();
                    calls.push((Self { mode, kinds, len }, 0));
                }
            }
        }
        calls
    }

    fn random(rng: &mut Rng) -> Self {
        let mode = random_mode(rng);
        let kinds = random_kinds(rng);
        let len = random_length(rng, continual_count(mode, &kinds));
        Self { mode, kinds, len }
    }
}

/// Modes and kinds in a job of one thread.
const JOB: usize = 32;

/// Counts one of all modes and choices of kinds twice: with an output that is exact or a little
/// longer, and with one that is one short.
fn compare_one(port: Port, index: usize, tallies: &mut [Tally<ContinualCall>; 2]) {
    let (layout, choice) = layout(index);
    let list = continual(&layout);
    let lengths = [list.len() + usize::from(choice % 3), list.len() - 1];
    for ((tally, answer), len) in tallies
        .iter_mut()
        .zip([Ok(list), Err(BAD_LENGTH)])
        .zip(lengths)
    {
        let call = ContinualCall {
            mode: layout.mode.number(),
            kinds: kind_bytes(choice).to_vec(),
            len,
        };
        let compared = call.compared(port, &answer, u64::from(choice));
        tally.count_outcome(Outcome::of(&answer, compared), || call);
    }
}

/// Every mode and choice of kinds. The Rust's layout is made once for both outputs.
pub fn every_one(port: Port) -> [Row; 2] {
    let parts = on_all_processors(layouts::COUNT / JOB, |job| {
        let mut tallies = [Tally::default(), Tally::default()];
        for index in job * JOB..(job + 1) * JOB {
            compare_one(port, index, &mut tallies);
        }
        tallies
    });
    let [mut enough, mut short] = [Tally::default(), Tally::default()];
    for [more_enough, more_short] in parts {
        enough.add(more_enough);
        short.add(more_short);
    }
    [
        enough.row("continual list, every one"),
        short.row("continual list, every one, one short"),
    ]
}

fn compare(plan: &Plan) -> Vec<Row> {
    let mut rows: Vec<Row> = every_one(ContinualCall::LINKED).into();
    rows.extend([
        run::boundary::<ContinualCall>(ContinualCall::LINKED, plan.seed),
        run::random::<ContinualCall>(ContinualCall::LINKED, plan.seed, plan.calls),
    ]);
    rows
}

// ---- The benchmark

/// Each call of the port is first seen to be accepted and to agree with the Rust.
fn continual_row(mode: Mode, effort: &Effort) -> timing::Row {
    let inputs = inputs();
    let number = mode.number();
    let mut out = vec![0; mode.total_carriers()];
    let mut count = 0;
    for input in &inputs {
        let code = ffi::continual_list(number, &input.bytes, &mut out, &mut count);
        let layout = FrameLayout::new(mode, input.kinds);
        assert_eq!(code, 0, "the continual list is accepted");
        assert!(out[..count] == continual(&layout));
    }
    let port = |i| {
        let input = at(&inputs, i);
        let code = ffi::continual_list(black_box(number), &input.bytes, &mut out, &mut count);
        black_box((&mut out, &mut count));
        code
    };
    let rust = |i| {
        let layout = FrameLayout::new(black_box(mode), at(&inputs, i).kinds);
        rx::continual_list(&layout)
    };
    let part = "`FrameLayout::new` and `continual_list`";
    row(("continual list", mode), part, effort, port, rust)
}

fn bench(effort: &Effort) -> Vec<timing::Row> {
    of_modes(|mode| vec![continual_row(mode, effort)])
}

// ---- Stored answers

/// The most entries that a list has in a mode.
fn most(mode: Mode) -> usize {
    continual_count(mode.number(), &[1; SEGMENTS])
}

fn record(mode: u8, kinds: &[u8], len: usize) -> Record {
    let answer = answer(mode, kinds, len);
    Record::of(&answer)
        .number(mode)
        .bytes(kinds)
        .lends(len)
        .written(&answer, Vec::clone)
        .written(&answer, |list| vec![list.len()])
}

/// Every mode eight times, with room for the most carriers; exact room, one more, one less; and
/// refused by each number, while those that come later are bad too.
fn stored(rng: &mut Rng) -> Vec<Record> {
    let layouts = stored_layouts(rng).into_iter();
    let accepted =
        layouts.map(|(mode, _, choice)| record(mode.number(), &kind_bytes(choice), most(mode)));
    let good = kind_bytes(rng.choice());
    let coherent = [0; SEGMENTS];
    let bad = [2; SEGMENTS];
    let others = [
        record(1, &coherent, 40),
        record(1, &coherent, 41),
        record(1, &coherent, 39),
        record(1, &[1; SEGMENTS], 156),
        record(3, &good, 0),
        record(0, &bad, 0),
        record(4, &good, 157),
        record(1, &bad, 0),
        record(2, &good[..12], 313),
        record(3, &[0; SEGMENTS + 1], 625),
    ];
    accepted.chain(others).collect()
}

#[cfg(test)]
mod tests {
    use super::*;
    use crate::codes::MODES;

    #[test]
    fn every_refusal_is_stored() {
        let records = stored(&mut Rng::new(1));
        let codes: Vec<u8> = records.iter().map(Record::code).collect();
        assert_eq!(codes[..24], [0; 24]);
        assert_eq!(codes[24..], [0, 0, 7, 7, 7, 1, 1, 2, 2, 2]);
    }

    #[test]
    fn stored_answers_have_every_continual_carrier() {
        let records = stored(&mut Rng::new(1));
        // Phase 0 of mode 1 is all coherent, that of mode 2 all differential.
        for (at, count) in [(0, 13 * 3 + 1), (8, 313), (16, 13 * 12 + 1)] {
            let answer = records[at].answer();
            assert_eq!(answer.len(), 3 + 4 * count + 3 + 4);
            let counted = [(count % 256) as u8, (count / 256) as u8, 0, 0];
            assert_eq!(answer[answer.len() - 4..], counted);
        }
    }

    #[test]
    fn all_differential_kinds_have_the_most() {
        // SILLURWY_CONTINUAL_LIST_MOST of sillurwy.h.
        assert_eq!(MODES.map(most), [157, 313, 625]);
    }
}
