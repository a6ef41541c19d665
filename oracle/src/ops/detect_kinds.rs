//! The kinds: which segments are differential, by the ratios of spectra.

use super::Operation;
use crate::acquire::{Acquire, Oracle, Untouched};
use crate::codes::{BAD_LENGTH, NO_SPECTRA, kind_bytes, mode_of};
use crate::harness::call::{Call, Floats, Unfilled, accept, write_answer};
use crate::harness::changed::{self, Claim, Verdict, accepted, both, differ, floats_differ};
use crate::harness::lent::{Lent, Shown};
use crate::harness::outcome::{Compared, Outcome};
use crate::harness::rng::Rng;
use crate::harness::run::{self, Plan};
use crate::harness::stored::Record;
use crate::harness::tally::Row;
use crate::harness::timing::{self, Effort};
use crate::inputs::arguments::{
    MODE_NUMBERS, boundary_floats, many_floats, mostly, mostly_good_mode, mostly_whole,
    random_count, size, whole_spectra,
};
use crate::inputs::captures::{self, Places, few, mostly_mode_1};
use crate::inputs::changes::{Change, Changed, spectra_to_change};
use crate::inputs::timed::{self, Capture, MIXED, captures, of_spectra, row};
use crate::inputs::whole::{Band, any_bytes, units};
use crate::isdb::frame::SegmentKind;
use crate::isdb::params::{Mode, SEGMENTS};
use crate::isdb::rx::acquire;
use sillurwy::ffi;
use std::fmt;
use std::hint::black_box;

pub const OPERATION: Operation = Operation {
    name: "detect_kinds",
    number: Some(9),
    part: "acquisition",
    streams: &[KindsCall::STREAM, KindsArguments::STREAM],
    compare,
    bench,
    stored,
};

// ---- The operation

/// Mode, spectra; ratios, kinds, scores.
pub type Port = fn(u8, &[f32], &mut [f32], &mut [u8; SEGMENTS], &mut [f32; SEGMENTS]) -> u8;

/// A call.
#[derive(Debug, Clone, PartialEq, Eq, PartialOrd, Ord)]
pub struct KindsCall {
    /// Mode.
    pub mode: u8,
    /// Spectra.
    pub spectra: Floats,
    /// Lent ratios.
    pub ratios: usize,
}

/// What it gives and leaves behind.
#[derive(Debug, Clone, PartialEq)]
pub struct KindsFound {
    /// Each segment's kind, 0 or 1.
    pub kinds: [u8; SEGMENTS],
    /// Each segment's score.
    pub scores: [f32; SEGMENTS],
    /// Each carrier's ratio.
    pub ratios: Vec<f32>,
}

/// The number that the port gives for a kind.
fn kind_byte(kind: SegmentKind) -> u8 {
    match kind {
        SegmentKind::Coherent => 0,
        SegmentKind::Differential => 1,
    }
}

/// The answer by a norm, with `ratios` lent ratios.
pub fn answer<R: Acquire>(mode: u8, spectra: &[f32], ratios: usize) -> Result<KindsFound, u8> {
    let mode = mode_of(mode)?;
    let len = mode.total_carriers();
    whole_spectra(spectra, len)?;
    accept(!spectra.is_empty(), NO_SPECTRA)?;
    accept(ratios == len, BAD_LENGTH)?;
    let spectra = R::spectra(spectra, len);
    let (kinds, scores) = R::detect_kinds(mode, &spectra);
    Ok(KindsFound {
        kinds: kinds.map(kind_byte),
        scores,
        ratios: R::continual_metric(&spectra),
    })
}

/// Writes an answer as the port does.
pub fn write(
    answer: Result<KindsFound, u8>,
    ratios: &mut [f32],
    kinds: &mut [u8; SEGMENTS],
    scores: &mut [f32; SEGMENTS],
) -> u8 {
    write_answer(answer, |found| {
        ratios.copy_from_slice(&found.ratios);
        (*kinds, *scores) = (found.kinds, found.scores);
    })
}

fn rust(
    mode: u8,
    spectra: &[f32],
    ratios: &mut [f32],
    kinds: &mut [u8; SEGMENTS],
    scores: &mut [f32; SEGMENTS],
) -> u8 {
    let answer = answer::<Oracle>(mode, spectra, ratios.len());
    write(answer, ratios, kinds, scores)
}

impl KindsCall {
    /// The answer to this call by a norm.
    pub fn answer<R: Acquire>(&self) -> Result<KindsFound, u8> {
        answer::<R>(self.mode, &self.spectra.0, self.ratios)
    }
}

impl fmt::Display for KindsCall {
    fn fmt(&self, f: &mut fmt::Formatter<'_>) -> fmt::Result {
        let Self {
            mode,
            spectra,
            ratios,
        } = self;
        write!(
            f,
            "kinds: mode {mode}, {ratios} ratios, spectra of {spectra}"
        )
    }
}

// ---- The calls that are compared

impl Call for KindsCall {
    const TITLE: &'static str = "kinds";
    const STREAM: u64 = 501;
    type Port = Port;
    const LINKED: Port = ffi::detect_kinds;
    const RUST: Port = rust;

    fn run(&self, port: Port, salt: u64) -> Outcome {
        let spectra = Shown::new(&self.spectra.0);
        let mut ratios = Lent::new(self.ratios, salt);
        let mut kinds = Lent::new(SEGMENTS, salt);
        let mut scores = Lent::new(SEGMENTS, salt);
        let given = port(
            self.mode,
            spectra.slice(),
            ratios.slice(),
            kinds.array(),
            scores.array(),
        );
        let compared = |answer: &Result<KindsFound, u8>| {
            Compared::of_code(given, answer)
                .lent(&ratios, "ratios", answer, |a| a.ratios.clone())
                .lent(&scores, "scores", answer, |a| a.scores.to_vec())
                .lent(&kinds, "kinds", answer, |a| a.kinds.to_vec())
                .shown(&spectra, "spectra")
        };
        Outcome::of_both(
            &self.answer::<Oracle>(),
            &self.answer::<Untouched>(),
            compared,
        )
    }

    fn floats(&mut self) -> Option<&mut Floats> {
        Some(&mut self.spectra)
    }

    fn boundary() -> Vec<Unfilled<Self>> {
        let mut calls = Vec::new();
        for mode in MODE_NUMBERS {
            let len = size(mode, Mode::total_carriers);
            let other = size(mode, Mode::fft_size);
            let call = |ratios| Self {
                mode,
                spectra: Floats::default(),
                ratios,
            };
            for floats in boundary_floats(len, other) {
                let ratios = [0, len - 1, len, len + 1, other, 2 * len];
                calls.extend(ratios.map(|ratios| (call(ratios), floats)));
            }
            for floats in many_floats(mode, len) {
                calls.extend([(call(len), floats), (call(len - 1), floats)]);
            }
        }
        calls
    }

    fn random(rng: &mut Rng) -> Self {
        let mode = mostly_mode_1(rng);
        let len = mode.total_carriers();
        let count = random_count(rng, mode);
        let choice = rng.choice();
        let spectra = if rng.once_in(12) {
            captures::halves(rng, len)
        } else {
            captures::spectra(rng, mode, choice, Places::Carriers, count)
        };
        Self {
            mode: mostly_good_mode(rng, mode),
            spectra: mostly_whole(rng, spectra),
            ratios: mostly(rng, len),
        }
    }
}

fn compare(plan: &Plan) -> Vec<Row> {
    vec![
        run::boundary::<KindsCall>(KindsCall::LINKED, plan.seed),
        run::random::<KindsCall>(KindsCall::LINKED, plan.seed, plan.captures),
        changed::claim::<KindsArguments>(KindsCall::LINKED, plan.seed, plan.captures),
    ]
}

// ---- Changed captures

/// The other argument.
#[derive(Debug, Clone, PartialEq, Eq, PartialOrd, Ord)]
pub struct KindsArguments {
    /// Mode.
    pub mode: Mode,
}

impl KindsArguments {
    /// The port's answer, or the refusal.
    pub fn ask(&self, port: Port, spectra: &[f32]) -> Result<KindsFound, u8> {
        let mut ratios = vec![0.0; self.mode.total_carriers()];
        let (mut kinds, mut scores) = ([0; SEGMENTS], [0.0; SEGMENTS]);
        let mode = self.mode.number();
        let code = port(mode, spectra, &mut ratios, &mut kinds, &mut scores);
        accepted(code, || KindsFound {
            kinds,
            scores,
            ratios,
        })
    }
}

impl Claim for KindsArguments {
    const TITLE: &'static str = "kinds, changed";
    const STREAM: u64 = 601;
    type Port = Port;

    fn random(rng: &mut Rng) -> Changed<Self> {
        let mode = mostly_mode_1(rng);
        let count = few(rng);
        let change = Change::random(rng, count);
        let whole = change.doublings > 0;
        Changed {
            floats: Floats(spectra_to_change(rng, mode, Places::Carriers, count, whole)),
            arguments: Self { mode },
            change,
        }
    }

    fn verdict(port: Port, case: &Changed<Self>) -> Verdict {
        let asked = &case.arguments;
        let len = asked.mode.total_carriers();
        let before = asked.ask(port, &case.floats.0);
        let after = asked.ask(port, &case.change.of(len, &case.floats.0));
        both(&before, &after, |before, after| {
            differ("kinds", &before.kinds, &after.kinds)
                .or_else(|| floats_differ("ratios", &before.ratios, &after.ratios))
                .or_else(|| floats_differ("scores", &before.scores, &after.scores))
        })
    }
}

// ---- The benchmark

fn port_kinds(mode: Mode, floats: &[f32], ratios: &mut [f32]) -> ([u8; SEGMENTS], [f32; SEGMENTS]) {
    let (mut kinds, mut scores) = ([0; SEGMENTS], [0.0; SEGMENTS]);
    let number = black_box(mode.number());
    let code = ffi::detect_kinds(number, floats, ratios, &mut kinds, &mut scores);
    assert_eq!(code, 0, "the kinds are accepted");
    (kinds, scores)
}

/// The kinds of `count` spectra.
fn kinds_row(mode: Mode, count: usize, effort: &Effort) -> timing::Row {
    let captures = captures(mode, MIXED, Places::Carriers, count);
    let mut ratios = vec![0.0; mode.total_carriers()];
    for Capture { floats, .. } in &captures {
        let (kinds, scores) = port_kinds(mode, floats, &mut ratios);
        assert_eq!(kinds, kind_bytes(MIXED));
        let found = KindsFound {
            kinds,
            scores,
            ratios: ratios.clone(),
        };
        assert!(answer::<Oracle>(mode.number(), floats, ratios.len()) == Ok(found));
    }
    let at = |i: usize| &captures[i % captures.len()];
    row(
        of_spectra("kinds", mode, count),
        "`detect_kinds`",
        effort,
        |i| port_kinds(mode, &at(i).floats, &mut ratios),
        |i| acquire::detect_kinds(mode, &at(i).spectra),
    )
}

fn bench(effort: &Effort) -> Vec<timing::Row> {
    timed::rows(effort, timed::EVERY_MODE, kinds_row)
}

// ---- Stored answers

fn record(mode: u8, floats: Vec<f32>, ratios: usize) -> Record {
    let spectra = Floats(floats);
    let answer = answer::<Oracle>(mode, &spectra.0, ratios);
    Record::of(&answer)
        .number(mode)
        .floats(&spectra)
        .lends(ratios)
        .written(&answer, |a| a.ratios.clone())
        .written(&answer, |a| a.kinds.to_vec())
        .written(&answer, |a| a.scores.to_vec())
}

/// Of bands, of units, of any numbers, of one spectrum; and refused by each number.
fn stored(rng: &mut Rng) -> Vec<Record> {
    let k = Mode::M1.total_carriers();
    let one = 2 * k;
    let band = |rng: &mut Rng, noise, count| {
        let band = Band {
            choice: rng.choice(),
            phase: rng.below(4),
            shift: 0,
            noise,
        };
        band.spectra(rng, Places::Carriers, count)
    };
    vec![
        record(1, band(rng, 10.0, 4), k),
        record(1, band(rng, 60.0, 3), k),
        record(1, units(rng, 3 * k, 16), k),
        record(1, any_bytes(rng, 2 * one), k),
        record(1, any_bytes(rng, one), k),
        record(0, any_bytes(rng, 1), 7),
        record(1, any_bytes(rng, 1), 7),
        record(1, Vec::new(), 7),
        record(1, any_bytes(rng, one), k + 1),
    ]
}

#[cfg(test)]
mod tests {
    use super::*;

    #[test]
    fn every_refusal_is_stored() {
        let records = stored(&mut Rng::new(1));
        let codes: Vec<u8> = records.iter().map(Record::code).collect();
        assert_eq!(codes, [0, 0, 0, 0, 0, 1, 5, 6, 7]);
    }
}
