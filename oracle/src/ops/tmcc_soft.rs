//! The soft TMCC value: the TMCC carriers of two spectra, compared and summed.

use super::Operation;
use crate::acquire::{Acquire, Oracle, Untouched};
use crate::codes::{BAD_FILTER, BAD_FLOATS, kind_bytes, kinds_of, kinds_of_choice, mode_of};
use crate::harness::call::{Call, Floats, Unfilled, accept, write_answer};
use crate::harness::lent::{Lent, Shown};
use crate::harness::outcome::{Compared, Outcome};
use crate::harness::rng::Rng;
use crate::harness::run::{self, Plan};
use crate::harness::stored::Record;
use crate::harness::tally::Row;
use crate::harness::timing::{self, Effort};
use crate::inputs::arguments::{
    MODE_NUMBERS, boundary_kinds, mostly_good_kinds, mostly_good_mode, mostly_whole, readable, size,
};
use crate::inputs::captures::{self, Places, mostly_mode_1};
use crate::inputs::timed::{self, Capture, MIXED, captures, in_turn, of_spectra, row};
use crate::inputs::whole::{Band, any_bytes};
use crate::isdb::frame::{FrameLayout, SegmentKind};
use crate::isdb::params::Mode;
use crate::isdb::rx::acquire;
use sillurwy::ffi;
use std::fmt;
use std::hint::black_box;

pub const OPERATION: Operation = Operation {
    name: "tmcc_soft",
    number: Some(10),
    part: "acquisition",
    streams: &[TmccCall::STREAM],
    compare,
    bench,
    stored,
};

// ---- The operation

/// Mode, kinds, spectra, filter; value.
pub type Port = fn(u8, &[u8], &[f32], u8, &mut f32) -> u8;

/// A call.
#[derive(Debug, Clone, PartialEq, Eq, PartialOrd, Ord)]
pub struct TmccCall {
    /// Mode.
    pub mode: u8,
    /// Spectra, the earlier first.
    pub spectra: Floats,
    /// Kinds.
    pub kinds: Vec<u8>,
    /// Filter.
    pub filter: u8,
}

/// The kind that a filter keeps; none keeps all.
fn filter_of(number: u8) -> Result<Option<SegmentKind>, u8> {
    match number {
        0 => Ok(Some(SegmentKind::Coherent)),
        1 => Ok(Some(SegmentKind::Differential)),
        2 => Ok(None),
        _ => Err(BAD_FILTER),
    }
}

/// The answer by a norm, though none is taken, to two spectra, the earlier first.
pub fn answer<R: Acquire>(mode: u8, kinds: &[u8], spectra: &[f32], filter: u8) -> Result<f32, u8> {
    let mode = mode_of(mode)?;
    let kinds = kinds_of(kinds)?;
    let len = mode.total_carriers();
    accept(spectra.len() == 2 * 2 * len, BAD_FLOATS)?;
    let filter = filter_of(filter)?;
    let (earlier, later) = spectra.split_at(2 * len);
    let layout = FrameLayout::new(mode, kinds);
    let value = R::tmcc_soft(&layout, &R::pairs(later), &R::pairs(earlier), filter);
    Ok(value)
}

/// Writes an answer as the port does.
pub fn write(answer: Result<f32, u8>, value: &mut f32) -> u8 {
    write_answer(answer, |soft| *value = soft)
}

fn rust(mode: u8, kinds: &[u8], spectra: &[f32], filter: u8, value: &mut f32) -> u8 {
    write(answer::<Oracle>(mode, kinds, spectra, filter), value)
}

impl TmccCall {
    /// The answer to this call by a norm.
    pub fn answer<R: Acquire>(&self) -> Result<f32, u8> {
        answer::<R>(self.mode, &self.kinds, &self.spectra.0, self.filter)
    }
}

impl fmt::Display for TmccCall {
    fn fmt(&self, f: &mut fmt::Formatter<'_>) -> fmt::Result {
        write!(
            f,
            "soft TMCC value: mode {}, kinds {}, filter {}, spectra of {}",
            self.mode,
            readable(&self.kinds),
            self.filter,
            self.spectra
        )
    }
}

// ---- The calls that are compared

impl Call for TmccCall {
    const TITLE: &'static str = "soft TMCC value";
    const STREAM: u64 = 503;
    type Port = Port;
    const LINKED: Port = ffi::tmcc_soft;
    const RUST: Port = rust;

    fn run(&self, port: Port, salt: u64) -> Outcome {
        let (kinds, spectra) = (Shown::new(&self.kinds), Shown::new(&self.spectra.0));
        let mut value = Lent::one(salt);
        let given = port(
            self.mode,
            kinds.slice(),
            spectra.slice(),
            self.filter,
            value.entry(),
        );
        let compared = |answer: &_| {
            Compared::of_code(given, answer)
                .lent(&value, "value", answer, |&a| vec![a])
                .shown(&kinds, "kinds")
                .shown(&spectra, "spectra")
        };
        Outcome::of_both(
            &self.answer::<Oracle>(),
            &self.answer::<Untouched>(),
            compared,
        )
    }

    fn floats(&mut self) -> Option<&mut Floats> {
        Some(&mut self.spectra)
    }

    fn boundary() -> Vec<Unfilled<Self>> {
        let mut calls = Vec::new();
        for mode in MODE_NUMBERS {
            let len = size(mode, Mode::total_carriers);
            let two = 4 * len;
            for kinds in boundary_kinds() {
                for filter in [0, 1, 2, 3, 255] {
                    let call = Self {
                        mode,
                        spectra: Floats::default(),
                        kinds: kinds.clone(),
                        filter,
                    };
                    let floats = [
                        0,
                        two / 2,
                        two - 2,
                        two - 1,
                        two,
                        two + 1,
                        two + 2,
                        3 * two / 2,
                    ];
                    calls.extend(floats.map(|floats| (call.clone(), floats)));
                }
            }
        }
        calls
    }

    fn random(rng: &mut Rng) -> Self {
        let mode = mostly_mode_1(rng);
        let (kinds, choice) = mostly_good_kinds(rng);
        let count = if rng.once_in(32) { rng.below(5) } else { 2 };
        let spectra = captures::spectra(rng, mode, choice, Places::Carriers, count);
        Self {
            mode: mostly_good_mode(rng, mode),
            spectra: mostly_whole(rng, spectra),
            kinds,
            filter: if rng.once_in(32) {
                rng.byte()
            } else {
                rng.byte() % 3
            },
        }
    }
}

fn compare(plan: &Plan) -> Vec<Row> {
    vec![
        run::boundary::<TmccCall>(TmccCall::LINKED, plan.seed),
        run::random::<TmccCall>(TmccCall::LINKED, plan.seed, plan.captures),
    ]
}

// ---- The benchmark

/// The filter that takes every segment.
const ALL: u8 = 2;

fn port_soft(kinds: &[u8], floats: &[f32]) -> f32 {
    let mut value = 0.0;
    let number = black_box(timed::MODE.number());
    let code = ffi::tmcc_soft(number, kinds, floats, ALL, &mut value);
    assert_eq!(code, 0, "the soft TMCC value is accepted");
    value
}

/// Of all segments. The Rust's layout is made before the time is taken.
fn bench(effort: &Effort) -> Vec<timing::Row> {
    let captures = captures(timed::MODE, MIXED, Places::Carriers, 2);
    let layout = FrameLayout::new(timed::MODE, kinds_of_choice(MIXED));
    let kinds = kind_bytes(MIXED);
    for Capture { floats, .. } in &captures {
        let right = answer::<Oracle>(timed::MODE.number(), &kinds, floats, ALL);
        assert_eq!(right, Ok(port_soft(&kinds, floats)));
    }
    let at = |i: usize| &captures[i % captures.len()];
    vec![row(
        of_spectra("soft TMCC value", timed::MODE, 2),
        "`tmcc_soft`, of a layout already made",
        &in_turn(effort),
        |i| port_soft(&kinds, &at(i).floats),
        |i| acquire::tmcc_soft(&layout, &at(i).spectra[1], &at(i).spectra[0], None),
    )]
}

// ---- Stored answers

fn record(mode: u8, kinds: &[u8], floats: Vec<f32>, filter: u8) -> Record {
    let spectra = Floats(floats);
    let answer = answer::<Oracle>(mode, kinds, &spectra.0, filter);
    Record::of(&answer)
        .number(mode)
        .bytes(kinds)
        .floats(&spectra)
        .number(filter)
        .written(&answer, |&a| vec![a])
}

/// By each filter, of bands and of any numbers, a sum of nothing; and refused by each number.
fn stored(rng: &mut Rng) -> Vec<Record> {
    let two = 4 * Mode::M1.total_carriers();
    let mut band = |filter| {
        let band = Band {
            choice: rng.choice(),
            phase: rng.below(4),
            shift: 0,
            noise: 30.0,
        };
        let floats = band.spectra(rng, Places::Carriers, 2);
        record(1, &kind_bytes(band.choice), floats, filter)
    };
    let mut records = vec![band(0), band(1), band(2)];
    let some = kind_bytes(rng.choice());
    records.extend([
        record(1, &some, any_bytes(rng, two), 2),
        record(1, &kind_bytes(0), any_bytes(rng, two), 1),
        record(0, &some[1..], any_bytes(rng, 3), 3),
        record(1, &some[1..], any_bytes(rng, 3), 3),
        record(1, &[2; 13], any_bytes(rng, 3), 3),
        record(1, &some, any_bytes(rng, 3), 3),
        record(1, &some, any_bytes(rng, two), 3),
    ]);
    records
}

#[cfg(test)]
mod tests {
    use super::*;

    #[test]
    fn every_refusal_is_stored() {
        let records = stored(&mut Rng::new(1));
        let codes: Vec<u8> = records.iter().map(Record::code).collect();
        assert_eq!(codes, [0, 0, 0, 0, 0, 1, 2, 2, 5, 3]);
    }
}
