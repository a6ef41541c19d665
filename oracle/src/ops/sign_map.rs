//! The sign map: the sign of every carrier's pilot.

use super::Operation;
use crate::codes::{BAD_LENGTH, MODES, mode_of};
use crate::harness::call::{Call, Unfilled, accept, write_answer};
use crate::harness::lent::Lent;
use crate::harness::outcome::{Answer, Compared, Outcome};
use crate::harness::rng::Rng;
use crate::harness::run::{self, Plan};
use crate::harness::stored::Record;
use crate::harness::tally::Row;
use crate::harness::timing::{self, Effort};
use crate::inputs::arguments::{MODE_NUMBERS, boundary_lengths, random_length, random_mode, size};
use crate::inputs::timed_layouts::{of_modes, row};
use crate::isdb::frame::{edge_w, segment_w};
use crate::isdb::ofdm_params::segment_at_position;
use crate::isdb::params::{Mode, SEGMENTS};
use sillurwy::ffi;
use std::fmt;
use std::hint::black_box;

pub const OPERATION: Operation = Operation {
    name: "sign_map",
    number: Some(3),
    part: "layout",
    streams: &[SignCall::STREAM],
    compare,
    bench,
    stored,
};

// ---- The operation

/// Mode; signs.
pub type Port = fn(u8, &mut [u8]) -> u8;

/// A call.
#[derive(Debug, Clone, PartialEq, Eq, PartialOrd, Ord)]
pub struct SignCall {
    /// Mode.
    pub mode: u8,
    /// Lent bytes.
    pub len: usize,
}

/// Sign of every carrier, 1 for −4/3.
pub fn signs(mode: Mode) -> Vec<u8> {
    let mut w = Vec::with_capacity(mode.total_carriers());
    for place in 0..SEGMENTS {
        w.extend(segment_w(mode, segment_at_position(place)));
    }
    w.push(edge_w(mode));
    w
}

/// The signs, into an output of `len` bytes.
pub fn answer(mode: u8, len: usize) -> Answer<u8> {
    let mode = mode_of(mode)?;
    accept(len == mode.total_carriers(), BAD_LENGTH)?;
    Ok(signs(mode))
}

fn rust(mode: u8, out: &mut [u8]) -> u8 {
    write_answer(answer(mode, out.len()), |signs| out.copy_from_slice(&signs))
}

impl fmt::Display for SignCall {
    fn fmt(&self, f: &mut fmt::Formatter<'_>) -> fmt::Result {
        let Self { mode, len } = self;
        write!(f, "sign map: mode {mode}, output of {len}")
    }
}

// ---- The calls that are compared

impl Call for SignCall {
    const TITLE: &'static str = "sign map";
    const STREAM: u64 = 101;
    type Port = Port;
    const LINKED: Port = ffi::sign_map;
    const RUST: Port = rust;

    fn run(&self, port: Port, salt: u64) -> Outcome {
        let answer = answer(self.mode, self.len);
        let mut out = Lent::new(self.len, salt);
        let given = port(self.mode, out.slice());
        let compared = Compared::of_code(given, &answer).lent(&out, "out", &answer, Vec::clone);
        Outcome::of(&answer, compared)
    }

    fn boundary() -> Vec<Unfilled<Self>> {
        let calls = |mode| {
            let lengths = boundary_lengths(mode, Mode::total_carriers).into_iter();
            lengths.map(move |len| (Self { mode, len }, 0))
        };
        MODE_NUMBERS.into_iter().flat_map(calls).collect()
    }

    fn random(rng: &mut Rng) -> Self {
        let mode = random_mode(rng);
        let len = random_length(rng, size(mode, Mode::total_carriers));
        Self { mode, len }
    }
}

/// Every mode.
fn every_one() -> [SignCall; 3] {
    MODES.map(|mode| SignCall {
        mode: mode.number(),
        len: mode.total_carriers(),
    })
}

fn compare(plan: &Plan) -> Vec<Row> {
    let every = run::list(SignCall::LINKED, &every_one());
    vec![
        every.row("sign map, every one"),
        run::boundary::<SignCall>(SignCall::LINKED, plan.seed),
        run::random::<SignCall>(SignCall::LINKED, plan.seed, plan.calls),
    ]
}

// ---- The benchmark

fn sign_row(mode: Mode, effort: &Effort) -> timing::Row {
    let number = mode.number();
    let mut out = vec![0; mode.total_carriers()];
    let code = ffi::sign_map(number, &mut out);
    assert_eq!(code, 0, "the sign map is accepted");
    assert!(out == signs(mode));
    let port = |_| {
        let code = ffi::sign_map(black_box(number), &mut out);
        black_box(&mut out);
        code
    };
    row(
        ("sign map", mode),
        "13 × `segment_w` and `edge_w`",
        effort,
        port,
        |_| signs(black_box(mode)),
    )
}

fn bench(effort: &Effort) -> Vec<timing::Row> {
    of_modes(|mode| vec![sign_row(mode, effort)])
}

// ---- Stored answers

fn record(mode: u8, len: usize) -> Record {
    let answer = answer(mode, len);
    Record::of(&answer)
        .number(mode)
        .lends(len)
        .written(&answer, Vec::clone)
}

/// Every mode; and refused: bad modes, an output that is empty, one short, one long, and of another
/// mode's length.
fn stored(_: &mut Rng) -> Vec<Record> {
    let every = every_one().map(|call| (call.mode, call.len));
    let bad_modes = [(0, 1405), (4, 0)];
    let bad_lengths = [(1, 0), (1, 1404), (2, 2810), (3, 2809)];
    let calls = every.into_iter().chain(bad_modes).chain(bad_lengths);
    calls.map(|(mode, len)| record(mode, len)).collect()
}

#[cfg(test)]
mod tests {
    use super::*;

    #[test]
    fn every_sign_map_and_both_refusals_are_stored() {
        let records = stored(&mut Rng::new(1));
        let codes: Vec<u8> = records.iter().map(Record::code).collect();
        assert_eq!(codes, [0, 0, 0, 1, 1, 7, 7, 7, 7]);
        // Each with how many are written.
        let sizes = records[..3].iter().map(|record| record.answer().len());
        assert_eq!(sizes.collect::<Vec<_>>(), [3 + 1405, 3 + 2809, 3 + 5617]);
    }
}
