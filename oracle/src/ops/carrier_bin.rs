//! The bin lookup: the FFT bin of a carrier.

use super::Operation;
use crate::codes::{BAD_CARRIER, MODES, mode_of};
use crate::harness::call::{Call, Unfilled, accept, write_answer};
use crate::harness::lent::Lent;
use crate::harness::outcome::{Compared, Outcome};
use crate::harness::rng::Rng;
use crate::harness::run::{self, Plan};
use crate::harness::stored::Record;
use crate::harness::tally::Row;
use crate::harness::timed_values::{agree, value_row};
use crate::harness::timing::{self, Effort};
use crate::inputs::arguments::{
    MODE_NUMBERS, boundary_carriers, random_carrier, random_mode, size,
};
use crate::inputs::timed_layouts::of_modes;
use crate::isdb::ofdm;
use crate::isdb::params::Mode;
use sillurwy::ffi;
use std::fmt;
use std::hint::black_box;

pub const OPERATION: Operation = Operation {
    name: "carrier_bin",
    number: Some(1),
    part: "layout",
    streams: &[BinCall::STREAM],
    compare,
    bench,
    stored,
};

// ---- The operation

/// Mode, carrier; bin.
pub type Port = fn(u8, usize, &mut usize) -> u8;

/// A call.
#[derive(Debug, Clone, PartialEq, Eq, PartialOrd, Ord)]
pub struct BinCall {
    /// Mode.
    pub mode: u8,
    /// Carrier.
    pub k: usize,
}

/// The bin.
pub fn answer(mode: u8, k: usize) -> Result<usize, u8> {
    let mode = mode_of(mode)?;
    accept(k < mode.total_carriers(), BAD_CARRIER)?;
    Ok(ofdm::carrier_bin(mode, k))
}

fn rust(mode: u8, k: usize, bin: &mut usize) -> u8 {
    write_answer(answer(mode, k), |found| *bin = found)
}

impl fmt::Display for BinCall {
    fn fmt(&self, f: &mut fmt::Formatter<'_>) -> fmt::Result {
        let Self { mode, k } = self;
        write!(f, "bin lookup: mode {mode}, carrier {k}")
    }
}

// ---- The calls that are compared

impl Call for BinCall {
    const TITLE: &'static str = "bin lookup";
    const STREAM: u64 = 100;
    type Port = Port;
    const LINKED: Port = ffi::carrier_bin;
    const RUST: Port = rust;

    fn run(&self, port: Port, salt: u64) -> Outcome {
        let answer = answer(self.mode, self.k);
        let mut bin = Lent::one(salt);
        let given = port(self.mode, self.k, bin.entry());
        let compared =
            Compared::of_code(given, &answer).lent(&bin, "bin", &answer, |&found| vec![found]);
        Outcome::of(&answer, compared)
    }

    fn boundary() -> Vec<Unfilled<Self>> {
        let calls = |mode| {
            let carriers = boundary_carriers(mode).into_iter();
            carriers.map(move |k| (Self { mode, k }, 0))
        };
        MODE_NUMBERS.into_iter().flat_map(calls).collect()
    }

    fn random(rng: &mut Rng) -> Self {
        let mode = random_mode(rng);
        let k = random_carrier(rng, size(mode, Mode::total_carriers));
        Self { mode, k }
    }
}

/// Every carrier of every mode.
fn every_one() -> Vec<BinCall> {
    let calls = |mode: Mode| {
        let number = mode.number();
        (0..mode.total_carriers()).map(move |k| BinCall { mode: number, k })
    };
    MODES.into_iter().flat_map(calls).collect()
}

fn compare(plan: &Plan) -> Vec<Row> {
    let every = run::list(BinCall::LINKED, &every_one());
    vec![
        every.row("bin lookup, every one"),
        run::boundary::<BinCall>(BinCall::LINKED, plan.seed),
        run::random::<BinCall>(BinCall::LINKED, plan.seed, plan.calls),
    ]
}

// ---- The benchmark

/// The Rust's, called once for each value, as the port's is: inlined, the compiler would do several
/// values at once.
#[inline(never)]
fn rust_bin(mode: Mode, k: usize) -> usize {
    ofdm::carrier_bin(mode, k)
}

/// The bin of a carrier, timed over all carriers of the band.
fn bin_row(mode: Mode, effort: &Effort) -> timing::Row {
    let carriers: Vec<usize> = (0..mode.total_carriers()).collect();
    let number = mode.number();
    let port = |k| {
        let mut bin = 0;
        let code = ffi::carrier_bin(black_box(number), k, &mut bin);
        assert_eq!(code, 0, "the bin lookup is accepted");
        bin as u64
    };
    let rust = |k| rust_bin(black_box(mode), k) as u64;
    agree(&carriers, port, rust);
    value_row(
        format!("bin lookup, mode {number}"),
        "`carrier_bin`",
        &carriers,
        effort,
        port,
        rust,
    )
}

fn bench(effort: &Effort) -> Vec<timing::Row> {
    of_modes(|mode| vec![bin_row(mode, effort)])
}

// ---- Stored answers

fn record(call: &BinCall) -> Record {
    let answer = answer(call.mode, call.k);
    Record::of(&answer)
        .number(call.mode)
        .number(call.k)
        .written(&answer, |&found| vec![found])
}

/// Every carrier of every mode, the one beyond the last of each, and bad modes.
fn stored(_: &mut Rng) -> Vec<Record> {
    let beyond = MODES.map(|mode| (mode.number(), mode.total_carriers()));
    let refused = beyond.into_iter().chain([(0, 0), (4, 5617), (255, 702)]);
    let refused = refused.map(|(mode, k)| BinCall { mode, k });
    every_one()
        .into_iter()
        .chain(refused)
        .map(|call| record(&call))
        .collect()
}

#[cfg(test)]
mod tests {
    use super::*;

    #[test]
    fn every_bin_and_both_refusals_are_stored() {
        let records = stored(&mut Rng::new(1));
        let codes: Vec<u8> = records.iter().map(Record::code).collect();
        assert_eq!(codes.len(), 1405 + 2809 + 5617 + 6);
        assert!(codes[..9831].iter().all(|&code| code == 0));
        assert_eq!(codes[9831..], [4, 4, 4, 1, 1, 1]);
        // Carrier 0 of mode 1 has bin 1346.
        assert_eq!(records[0].answer(), [1, 0, 0, 66, 5, 0, 0]);
    }
}
