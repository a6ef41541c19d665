//! The data list: the data carriers, in segment-number order.

use super::Operation;
use crate::codes::{BAD_LENGTH, PHASES, kind_bytes, kinds_of, mode_of, phase_of};
use crate::harness::call::{Call, Unfilled, accept, write_answer};
use crate::harness::lent::{Lent, Shown};
use crate::harness::outcome::{Answer, Compared, Outcome};
use crate::harness::rng::Rng;
use crate::harness::run::{self, Plan};
use crate::harness::stored::Record;
use crate::harness::tally::Row;
use crate::harness::timing::{self, Effort};
use crate::inputs::arguments::{
    MODE_NUMBERS, boundary_lengths, random_kinds, random_length, random_mode, random_phase,
    readable, size,
};
use crate::inputs::layouts::{self, boundary_layouts, layout, stored_layouts};
use crate::inputs::timed_layouts::{at, inputs, of_modes, row};
use crate::isdb::frame::FrameLayout;
use crate::isdb::params::{Mode, SEGMENTS};
use sillurwy::ffi;
use std::fmt;
use std::hint::black_box;

pub const OPERATION: Operation = Operation {
    name: "data_list",
    number: Some(4),
    part: "layout",
    streams: &[DataCall::STREAM],
    compare,
    bench,
    stored,
};

// ---- The operation

/// Mode, phase, kinds; carriers.
pub type Port = fn(u8, u8, &[u8], &mut [u32]) -> u8;

/// A call. In the order of calls, low numbers and coherent segments come first.
#[derive(Debug, Clone, PartialEq, Eq, PartialOrd, Ord)]
pub struct DataCall {
    /// Mode.
    pub mode: u8,
    /// Phase.
    pub phase: u8,
    /// Kinds.
    pub kinds: Vec<u8>,
    /// Lent numbers.
    pub len: usize,
}

/// Number of entries in a data list.
pub fn data_count(mode: Mode) -> usize {
    SEGMENTS * mode.data_carriers_per_segment()
}

/// The data carriers, into an output of `len` numbers.
pub fn answer(mode: u8, phase: u8, kinds: &[u8], len: usize) -> Answer<u32> {
    let mode = mode_of(mode)?;
    let kinds = kinds_of(kinds)?;
    let phase = phase_of(phase)?;
    accept(len == data_count(mode), BAD_LENGTH)?;
    Ok(FrameLayout::new(mode, kinds).data[phase].clone())
}

fn rust(mode: u8, phase: u8, kinds: &[u8], out: &mut [u32]) -> u8 {
    let answer = answer(mode, phase, kinds, out.len());
    write_answer(answer, |carriers| out.copy_from_slice(&carriers))
}

impl DataCall {
    fn answer(&self) -> Answer<u32> {
        answer(self.mode, self.phase, &self.kinds, self.len)
    }

    /// Makes the call to a port and compares it with an answer.
    pub fn compared(&self, port: Port, answer: &Answer<u32>, salt: u64) -> Compared {
        let mut out = Lent::new(self.len, salt);
        let kinds = Shown::new(&self.kinds);
        let given = port(self.mode, self.phase, kinds.slice(), out.slice());
        Compared::of_code(given, answer)
            .lent(&out, "out", answer, Vec::clone)
            .shown(&kinds, "kinds")
    }
}

impl fmt::Display for DataCall {
    fn fmt(&self, f: &mut fmt::Formatter<'_>) -> fmt::Result {
        let Self {
            mode,
            phase,
            kinds,
            len,
        } = self;
        let kinds = readable(kinds);
        write!(
            f,
            "data list: mode {mode}, phase {phase}, kinds {kinds}, output of {len}"
        )
    }
}

// ---- The calls that are compared

impl Call for DataCall {
    const TITLE: &'static str = "data list";
    const STREAM: u64 = 103;
    type Port = Port;
    const LINKED: Port = ffi::data_list;
    const RUST: Port = rust;

    fn run(&self, port: Port, salt: u64) -> Outcome {
        let answer = self.answer();
        Outcome::of(&answer, self.compared(port, &answer, salt))
    }

    fn boundary() -> Vec<Unfilled<Self>> {
        let calls = |mode| {
            let lengths = boundary_lengths(mode, data_count);
            boundary_layouts(&lengths, |phase, kinds, len| Self {
                mode,
                phase,
                kinds,
                len,
            })
        };
        MODE_NUMBERS.into_iter().flat_map(calls).collect()
    }

    fn random(rng: &mut Rng) -> Self {
        let mode = random_mode(rng);
        Self {
            mode,
            phase: random_phase(rng),
            kinds: random_kinds(rng),
            len: random_length(rng, size(mode, data_count)),
        }
    }
}

/// Every mode, choice of kinds and phase. The Rust's layout is made once for all four phases.
pub fn every_one(port: Port) -> Row {
    let tally = run::count_cases(layouts::COUNT, |index, tally| {
        let (layout, choice) = layout(index);
        for phase in 0..PHASES {
            let call = DataCall {
                mode: layout.mode.number(),
                phase,
                kinds: kind_bytes(choice).to_vec(),
                len: data_count(layout.mode),
            };
            let answer = Ok(layout.data[usize::from(phase)].clone());
            let compared = call.compared(port, &answer, u64::from(phase));
            tally.count_outcome(Outcome::of(&answer, compared), || call);
        }
    });
    tally.row("data list, every one")
}

fn compare(plan: &Plan) -> Vec<Row> {
    vec![
        every_one(DataCall::LINKED),
        run::boundary::<DataCall>(DataCall::LINKED, plan.seed),
        run::random::<DataCall>(DataCall::LINKED, plan.seed, plan.calls),
    ]
}

// ---- The benchmark

/// Each call of the port is first seen to be accepted and to agree with the Rust.
fn data_row(mode: Mode, effort: &Effort) -> timing::Row {
    let inputs = inputs();
    let number = mode.number();
    let mut out = vec![0; data_count(mode)];
    for input in &inputs {
        let code = ffi::data_list(number, input.phase, &input.bytes, &mut out);
        let layout = FrameLayout::new(mode, input.kinds);
        assert_eq!(code, 0, "the data list is accepted");
        assert!(out == layout.data[usize::from(input.phase)]);
    }
    let port = |i| {
        let input = at(&inputs, i);
        let code = ffi::data_list(black_box(number), input.phase, &input.bytes, &mut out);
        black_box(&mut out);
        code
    };
    let rust = |i| {
        let input = at(&inputs, i);
        let layout = FrameLayout::new(black_box(mode), input.kinds);
        layout.data[usize::from(input.phase)].clone()
    };
    let part = "`FrameLayout::new` and a copy of `data[phase]`";
    row(("data list", mode), part, effort, port, rust)
}

fn bench(effort: &Effort) -> Vec<timing::Row> {
    of_modes(|mode| vec![data_row(mode, effort)])
}

// ---- Stored answers

fn record(mode: u8, phase: u8, kinds: &[u8], len: usize) -> Record {
    let answer = answer(mode, phase, kinds, len);
    Record::of(&answer)
        .number(mode)
        .number(phase)
        .bytes(kinds)
        .lends(len)
        .written(&answer, Vec::clone)
}

/// Every mode and phase twice; and refused by each number, while those that come later are bad too.
fn stored(rng: &mut Rng) -> Vec<Record> {
    let layouts = stored_layouts(rng).into_iter();
    let accepted = layouts.map(|(mode, phase, choice)| {
        let (number, len) = (mode.number(), data_count(mode));
        record(number, phase, &kind_bytes(choice), len)
    });
    let good = kind_bytes(rng.choice());
    let bad = [2; SEGMENTS];
    let refused = [
        record(0, 4, &bad, 0),
        record(255, 4, &good, 1248),
        record(1, 4, &bad, 0),
        record(2, 0, &good[..12], 2496),
        record(3, 3, &[1; SEGMENTS + 1], 4992),
        record(1, 4, &good, 0),
        record(2, 5, &good, 2496),
        record(1, 3, &good, 0),
        record(1, 3, &good, 1247),
        record(2, 1, &good, 2497),
        record(3, 2, &good, 5617),
    ];
    accepted.chain(refused).collect()
}

#[cfg(test)]
mod tests {
    use super::*;

    #[test]
    fn every_refusal_is_stored() {
        let records = stored(&mut Rng::new(1));
        let codes: Vec<u8> = records.iter().map(Record::code).collect();
        assert_eq!(codes[..24], [0; 24]);
        assert_eq!(codes[24..], [1, 1, 2, 2, 2, 3, 3, 7, 7, 7, 7]);
    }

    #[test]
    fn stored_answers_have_every_data_carrier() {
        let records = stored(&mut Rng::new(1));
        for (record, nc) in records.chunks(8).zip([96, 192, 384]) {
            let size = 3 + 4 * 13 * nc;
            assert!(record.iter().all(|record| record.answer().len() == size));
        }
    }
}
