//! The role map: the role of every carrier.

use super::Operation;
use crate::codes::{BAD_LENGTH, PHASES, kind_bytes, kinds_of, mode_of, phase_of, role_byte};
use crate::harness::call::{Call, Unfilled, accept, write_answer};
use crate::harness::lent::{Lent, Shown};
use crate::harness::outcome::{Answer, Compared, Outcome};
use crate::harness::rng::Rng;
use crate::harness::run::{self, Plan};
use crate::harness::stored::Record;
use crate::harness::tally::Row;
use crate::harness::timing::{self, Effort};
use crate::inputs::arguments::{
    MODE_NUMBERS, boundary_lengths, random_kinds, random_length, random_mode, random_phase,
    readable, size,
};
use crate::inputs::layouts::{self, boundary_layouts, layout, stored_layouts};
use crate::inputs::timed_layouts::{Input, at, inputs, of_modes, row};
use crate::isdb::frame::FrameLayout;
use crate::isdb::params::{Mode, SEGMENTS};
use sillurwy::ffi;
use std::fmt;
use std::hint::black_box;

pub const OPERATION: Operation = Operation {
    name: "role_map",
    number: Some(2),
    part: "layout",
    streams: &[RoleCall::STREAM],
    compare,
    bench,
    stored,
};

// ---- The operation

/// Mode, phase, kinds; roles.
pub type Port = fn(u8, u8, &[u8], &mut [u8]) -> u8;

/// A call. In the order of calls, low numbers and coherent segments come first.
#[derive(Debug, Clone, PartialEq, Eq, PartialOrd, Ord)]
pub struct RoleCall {
    /// Mode.
    pub mode: u8,
    /// Phase.
    pub phase: u8,
    /// Kinds.
    pub kinds: Vec<u8>,
    /// Lent bytes.
    pub len: usize,
}

/// Role byte of every carrier.
pub fn roles(layout: &FrameLayout, phase: usize) -> Vec<u8> {
    layout.roles(phase).into_iter().map(role_byte).collect()
}

/// The roles, into an output of `len` bytes.
pub fn answer(mode: u8, phase: u8, kinds: &[u8], len: usize) -> Answer<u8> {
    let mode = mode_of(mode)?;
    let kinds = kinds_of(kinds)?;
    let phase = phase_of(phase)?;
    accept(len == mode.total_carriers(), BAD_LENGTH)?;
    Ok(roles(&FrameLayout::new(mode, kinds), phase))
}

fn rust(mode: u8, phase: u8, kinds: &[u8], out: &mut [u8]) -> u8 {
    let answer = answer(mode, phase, kinds, out.len());
    write_answer(answer, |roles| out.copy_from_slice(&roles))
}

impl RoleCall {
    fn answer(&self) -> Answer<u8> {
        answer(self.mode, self.phase, &self.kinds, self.len)
    }

    /// Makes the call to a port and compares it with an answer.
    pub fn compared(&self, port: Port, answer: &Answer<u8>, salt: u64) -> Compared {
        let mut out = Lent::new(self.len, salt);
        let kinds = Shown::new(&self.kinds);
        let given = port(self.mode, self.phase, kinds.slice(), out.slice());
        Compared::of_code(given, answer)
            .lent(&out, "out", answer, Vec::clone)
            .shown(&kinds, "kinds")
    }
}

impl fmt::Display for RoleCall {
    fn fmt(&self, f: &mut fmt::Formatter<'_>) -> fmt::Result {
        let Self {
            mode,
            phase,
            kinds,
            len,
        } = self;
        let kinds = readable(kinds);
        write!(
            f,
            "role map: mode {mode}, phase {phase}, kinds {kinds}, output of {len}"
        )
    }
}

// ---- The calls that are compared

impl Call for RoleCall {
    const TITLE: &'static str = "role map";
    const STREAM: u64 = 102;
    type Port = Port;
    const LINKED: Port = ffi::role_map;
    const RUST: Port = rust;

    fn run(&self, port: Port, salt: u64) -> Outcome {
        let answer = self.answer();
        Outcome::of(&answer, self.compared(port, &answer, salt))
    }

    fn boundary() -> Vec<Unfilled<Self>> {
        let calls = |mode| {
            let lengths = boundary_lengths(mode, Mode::total_carriers);
            boundary_layouts(&lengths, |phase, kinds, len| Self {
                mode,
                phase,
                kinds,
                len,
            })
        };
        MODE_NUMBERS.into_iter().flat_map(calls).collect()
    }

    fn random(rng: &mut Rng) -> Self {
        let mode = random_mode(rng);
        Self {
            mode,
            phase: random_phase(rng),
            kinds: random_kinds(rng),
            len: random_length(rng, size(mode, Mode::total_carriers)),
        }
    }
}

/// Every mode, choice of kinds and phase. The Rust's layout is made once for all four phases.
pub fn every_one(port: Port) -> Row {
    let tally = run::count_cases(layouts::COUNT, |index, tally| {
        let (layout, choice) = layout(index);
        for phase in 0..PHASES {
            let call = RoleCall {
                mode: layout.mode.number(),
                phase,
                kinds: kind_bytes(choice).to_vec(),
                len: layout.k_total,
            };
            let answer = Ok(roles(&layout, usize::from(phase)));
            let compared = call.compared(port, &answer, u64::from(phase));
            tally.count_outcome(Outcome::of(&answer, compared), || call);
        }
    });
    tally.row("role map, every one")
}

fn compare(plan: &Plan) -> Vec<Row> {
    vec![
        every_one(RoleCall::LINKED),
        run::boundary::<RoleCall>(RoleCall::LINKED, plan.seed),
        run::random::<RoleCall>(RoleCall::LINKED, plan.seed, plan.calls),
    ]
}

// ---- The benchmark

/// The port's role map beside a part of the Rust. Each call of the port is first seen to be
/// accepted and to agree with the Rust.
fn row_beside<R>(
    part: &'static str,
    mode: Mode,
    inputs: &[Input],
    effort: &Effort,
    rust: impl FnMut(usize) -> R,
) -> timing::Row {
    let number = mode.number();
    let mut out = vec![0; mode.total_carriers()];
    for input in inputs {
        let code = ffi::role_map(number, input.phase, &input.bytes, &mut out);
        let layout = FrameLayout::new(mode, input.kinds);
        assert_eq!(code, 0, "the role map is accepted");
        assert!(out == roles(&layout, usize::from(input.phase)));
    }
    let port = |i| {
        let input = at(inputs, i);
        let code = ffi::role_map(black_box(number), input.phase, &input.bytes, &mut out);
        black_box(&mut out);
        code
    };
    row(("role map", mode), part, effort, port, rust)
}

/// Beside making the layout as well, and beside a layout already made.
fn mode_rows(mode: Mode, effort: &Effort) -> Vec<timing::Row> {
    let inputs = inputs();
    let phase = |i| usize::from(at(&inputs, i).phase);
    let new = |i| FrameLayout::new(black_box(mode), at(&inputs, i).kinds);
    let made: Vec<FrameLayout> = (0..inputs.len()).map(new).collect();
    vec![
        row_beside(
            "`FrameLayout::new` and `.roles(phase)`, to bytes",
            mode,
            &inputs,
            effort,
            |i| roles(&new(i), phase(i)),
        ),
        row_beside(
            "`.roles(phase)` alone, of a layout already made, not to bytes",
            mode,
            &inputs,
            effort,
            |i| at(&made, i).roles(phase(i)),
        ),
    ]
}

fn bench(effort: &Effort) -> Vec<timing::Row> {
    of_modes(|mode| mode_rows(mode, effort))
}

// ---- Stored answers

fn record(mode: u8, phase: u8, kinds: &[u8], len: usize) -> Record {
    let answer = answer(mode, phase, kinds, len);
    Record::of(&answer)
        .number(mode)
        .number(phase)
        .bytes(kinds)
        .lends(len)
        .written(&answer, Vec::clone)
}

/// Every mode and phase twice; and refused by each number, while those that come later are bad too.
fn stored(rng: &mut Rng) -> Vec<Record> {
    let layouts = stored_layouts(rng).into_iter();
    let accepted = layouts.map(|(mode, phase, choice)| {
        let (number, len) = (mode.number(), mode.total_carriers());
        record(number, phase, &kind_bytes(choice), len)
    });
    let good = kind_bytes(rng.choice());
    let bad = [2; SEGMENTS];
    let refused = [
        record(0, 4, &bad, 0),
        record(4, 4, &good, 1405),
        record(1, 4, &bad, 0),
        record(2, 0, &good[..12], 2809),
        record(3, 3, &[0; SEGMENTS + 1], 5617),
        record(1, 4, &good, 0),
        record(2, 255, &good, 2809),
        record(1, 3, &good, 0),
        record(1, 3, &good, 1404),
        record(2, 1, &good, 2810),
        record(3, 2, &good, 1405),
    ];
    accepted.chain(refused).collect()
}

#[cfg(test)]
mod tests {
    use super::*;

    #[test]
    fn every_refusal_is_stored() {
        let records = stored(&mut Rng::new(1));
        let codes: Vec<u8> = records.iter().map(Record::code).collect();
        assert_eq!(codes[..24], [0; 24]);
        assert_eq!(codes[24..], [1, 1, 2, 2, 2, 3, 3, 7, 7, 7, 7]);
    }

    #[test]
    fn stored_answers_are_small_and_begin_with_a_plain_layout() {
        let records = stored(&mut Rng::new(1));
        let bytes: usize = records.iter().map(|record| record.stored(2).len()).sum();
        assert!(bytes < 100_000);
        let first = records[0].stored(2);
        let head = [
            2, 0, 1, 0, 0, 0, 0, 0, 0, 0, 125, 5, 0, 0, 13, 0, 0, 0, 0, 0, 1, 0,
        ];
        assert_eq!(first[..22], head);
        assert_eq!(first[22..22 + SEGMENTS], [0; SEGMENTS]);
        // How many are written. Carrier 648 is SP, 683 AC1, 697 TMCC, and the last one is the edge.
        let answer = records[0].answer();
        assert_eq!(answer[..3], [125, 5, 0]);
        assert_eq!([648, 683, 697, 1404].map(|k| answer[3 + k]), [1, 4, 3, 6]);
    }

    #[test]
    fn stored_answers_have_every_carrier() {
        let records = stored(&mut Rng::new(1));
        for (record, mode) in records.chunks(8).zip([1405, 2809, 5617]) {
            assert!(
                record
                    .iter()
                    .all(|record| record.answer().len() == 3 + mode)
            );
        }
    }
}
