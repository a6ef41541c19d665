//! The shift: the integer frequency offset of spectra, in bins.

use super::Operation;
use crate::acquire::{Acquire, Oracle, Untouched};
use crate::codes::{BAD_BOUND, BAD_LENGTH, NO_SPECTRA, mode_of};
use crate::harness::call::{Call, Floats, Unfilled, accept, write_answer};
use crate::harness::changed::{self, Claim, Verdict, accepted, both, differ, floats_differ};
use crate::harness::lent::{Lent, Shown};
use crate::harness::outcome::{Compared, Outcome};
use crate::harness::rng::Rng;
use crate::harness::run::{self, Plan};
use crate::harness::stored::Record;
use crate::harness::tally::Row;
use crate::harness::timing::{self, Effort};
use crate::inputs::arguments::{
    MODE_NUMBERS, boundary_floats, many_floats, mostly, mostly_good_mode, mostly_whole,
    random_count, size, whole_spectra,
};
use crate::inputs::captures::{self, Places, few, mostly_mode_1};
use crate::inputs::changes::{Change, Changed, moved_bin, spectra_to_change};
use crate::inputs::timed::{self, Capture, MIXED, captures, of_spectra, row};
use crate::inputs::whole::{Band, any_bytes, units};
use crate::isdb::frame::{SegmentKind, ac1_positions};
use crate::isdb::ofdm::carrier_bin;
use crate::isdb::ofdm_params::segment_position;
use crate::isdb::params::{Mode, SEGMENTS};
use crate::isdb::rx::acquire;
use sillurwy::ffi;
use std::fmt;
use std::hint::black_box;

pub const OPERATION: Operation = Operation {
    name: "integer_cfo",
    number: Some(8),
    part: "acquisition",
    streams: &[ShiftCall::STREAM, ShiftArguments::STREAM],
    compare,
    bench,
    stored,
};

// ---- The operation

/// Mode, spectra, bound; ratios, shift, score.
pub type Port = fn(u8, &[f32], usize, &mut [f32], &mut i64, &mut f32) -> u8;

/// A call.
#[derive(Debug, Clone, PartialEq, Eq, PartialOrd, Ord)]
pub struct ShiftCall {
    /// Mode.
    pub mode: u8,
    /// Spectra.
    pub spectra: Floats,
    /// Bound.
    pub bound: usize,
    /// Lent ratios.
    pub ratios: usize,
}

/// What it gives and leaves behind.
#[derive(Debug, Clone, PartialEq)]
pub struct Shift {
    /// The shift.
    pub shift: i64,
    /// Its score.
    pub score: f32,
    /// Each bin's ratio.
    pub ratios: Vec<f32>,
}

/// The answer by a norm, with `ratios` lent ratios.
pub fn answer<R: Acquire>(
    mode: u8,
    spectra: &[f32],
    bound: usize,
    ratios: usize,
) -> Result<Shift, u8> {
    let mode = mode_of(mode)?;
    let n = mode.fft_size();
    whole_spectra(spectra, n)?;
    accept(!spectra.is_empty(), NO_SPECTRA)?;
    accept(ratios == n, BAD_LENGTH)?;
    accept(bound <= n / 2, BAD_BOUND)?;
    let spectra = R::spectra(spectra, n);
    let (shift, score) = R::integer_cfo(mode, &spectra, bound);
    Ok(Shift {
        shift,
        score,
        ratios: R::continual_metric(&spectra),
    })
}

/// Writes an answer as the port does.
pub fn write(
    answer: Result<Shift, u8>,
    ratios: &mut [f32],
    shift: &mut i64,
    score: &mut f32,
) -> u8 {
    write_answer(answer, |found| {
        ratios.copy_from_slice(&found.ratios);
        (*shift, *score) = (found.shift, found.score);
    })
}

fn rust(
    mode: u8,
    spectra: &[f32],
    bound: usize,
    ratios: &mut [f32],
    shift: &mut i64,
    score: &mut f32,
) -> u8 {
    let answer = answer::<Oracle>(mode, spectra, bound, ratios.len());
    write(answer, ratios, shift, score)
}

impl ShiftCall {
    /// The answer to this call by a norm.
    pub fn answer<R: Acquire>(&self) -> Result<Shift, u8> {
        answer::<R>(self.mode, &self.spectra.0, self.bound, self.ratios)
    }
}

impl fmt::Display for ShiftCall {
    fn fmt(&self, f: &mut fmt::Formatter<'_>) -> fmt::Result {
        let Self {
            mode,
            spectra,
            bound,
            ratios,
        } = self;
        write!(
            f,
            "shift: mode {mode}, bound {bound}, {ratios} ratios, spectra of {spectra}"
        )
    }
}

// ---- The calls that are compared

/// Bounds around half of n, and far off.
fn boundary_bounds(n: usize) -> [usize; 7] {
    [0, 1, n / 2, n / 2 + 1, n, 1 << 63, usize::MAX]
}

/// A bound, mostly a small one.
fn random_bound(rng: &mut Rng, n: usize) -> usize {
    match rng.below(64) {
        0..4 => n / 2 - rng.below(3),
        4 => n / 2 + 1 + rng.below(3),
        5 => (rng.next_u64() >> rng.below(64)) as usize,
        6..16 => rng.below(n / 2 + 1),
        16..24 => 0,
        _ => rng.below(100),
    }
}

impl Call for ShiftCall {
    const TITLE: &'static str = "shift";
    const STREAM: u64 = 500;
    type Port = Port;
    const LINKED: Port = ffi::integer_cfo;
    const RUST: Port = rust;

    fn run(&self, port: Port, salt: u64) -> Outcome {
        let spectra = Shown::new(&self.spectra.0);
        let mut ratios = Lent::new(self.ratios, salt);
        let (mut shift, mut score) = (Lent::one(salt), Lent::one(salt));
        let given = port(
            self.mode,
            spectra.slice(),
            self.bound,
            ratios.slice(),
            shift.entry(),
            score.entry(),
        );
        let compared = |answer: &Result<Shift, u8>| {
            Compared::of_code(given, answer)
                .lent(&ratios, "ratios", answer, |a| a.ratios.clone())
                .lent(&shift, "shift", answer, |a| vec![a.shift])
                .lent(&score, "score", answer, |a| vec![a.score])
                .shown(&spectra, "spectra")
        };
        Outcome::of_both(
            &self.answer::<Oracle>(),
            &self.answer::<Untouched>(),
            compared,
        )
    }

    fn floats(&mut self) -> Option<&mut Floats> {
        Some(&mut self.spectra)
    }

    fn boundary() -> Vec<Unfilled<Self>> {
        let mut calls = Vec::new();
        for mode in MODE_NUMBERS {
            let n = size(mode, Mode::fft_size);
            let other = size(mode, Mode::total_carriers);
            let call = |bound, ratios| Self {
                mode,
                spectra: Floats::default(),
                bound,
                ratios,
            };
            for floats in boundary_floats(n, other) {
                for ratios in [0, n - 1, n, n + 1, other, 2 * n] {
                    let bounds = boundary_bounds(n);
                    calls.extend(bounds.map(|bound| (call(bound, ratios), floats)));
                }
            }
            for floats in many_floats(mode, n) {
                calls.extend([(call(9, n), floats), (call(n, n - 1), floats)]);
            }
        }
        calls
    }

    fn random(rng: &mut Rng) -> Self {
        let mode = mostly_mode_1(rng);
        let n = mode.fft_size();
        let count = random_count(rng, mode);
        let choice = rng.choice();
        let spectra = captures::spectra(rng, mode, choice, Places::Bins, count);
        Self {
            mode: mostly_good_mode(rng, mode),
            spectra: mostly_whole(rng, spectra),
            bound: random_bound(rng, n),
            ratios: mostly(rng, n),
        }
    }
}

fn compare(plan: &Plan) -> Vec<Row> {
    vec![
        run::boundary::<ShiftCall>(ShiftCall::LINKED, plan.seed),
        run::random::<ShiftCall>(ShiftCall::LINKED, plan.seed, plan.captures),
        changed::claim::<ShiftArguments>(ShiftCall::LINKED, plan.seed, plan.captures),
    ]
}

// ---- Changed captures

/// The other arguments.
#[derive(Debug, Clone, PartialEq, Eq, PartialOrd, Ord)]
pub struct ShiftArguments {
    /// Mode.
    pub mode: Mode,
    /// Bound.
    pub bound: usize,
}

/// The pattern's bins: AC1 by segment number, then the edge.
pub fn pattern(mode: Mode) -> Vec<usize> {
    let mut carriers = Vec::new();
    for segment in 0..SEGMENTS {
        let start = segment_position(segment) * mode.carriers_per_segment();
        let places = ac1_positions(mode, segment, SegmentKind::Coherent);
        carriers.extend(places.iter().map(|&place| start + usize::from(place)));
    }
    carriers.push(mode.total_carriers() - 1);
    let bin = |k: usize| carrier_bin(mode, k);
    carriers.into_iter().map(bin).collect()
}

/// A shift's score: the ratios of its pattern's bins, summed and divided by the pattern's length.
pub fn score(pattern: &[usize], ratios: &[f32], shift: i64) -> f32 {
    let ratio = |&bin: &usize| ratios[moved_bin(bin, shift, ratios.len())];
    pattern.iter().map(ratio).sum::<f32>() / pattern.len() as f32
}

impl ShiftArguments {
    /// The port's answer, or the refusal.
    pub fn ask(&self, port: Port, spectra: &[f32]) -> Result<Shift, u8> {
        let mut ratios = vec![0.0; self.mode.fft_size()];
        let (mut shift, mut score) = (0, 0.0);
        let code = port(
            self.mode.number(),
            spectra,
            self.bound,
            &mut ratios,
            &mut shift,
            &mut score,
        );
        accepted(code, || Shift {
            shift,
            score,
            ratios,
        })
    }

    /// The winner beats every other shift of the widened range, and its moved shift is in range.
    fn moves_along(&self, found: &Shift, by: i64) -> bool {
        let bound = self.bound as i64;
        let wide = bound + by.abs();
        let pattern = pattern(self.mode);
        let best = score(&pattern, &found.ratios, found.shift);
        let beaten = |shift| best > score(&pattern, &found.ratios, shift);
        (found.shift + by).abs() <= bound
            && (-wide..=wide).all(|shift| shift == found.shift || beaten(shift))
    }
}

/// The ratios moved round.
fn moved_ratios(ratios: &[f32], by: i64) -> Vec<f32> {
    let mut moved = vec![0.0; ratios.len()];
    for (bin, &ratio) in ratios.iter().enumerate() {
        moved[moved_bin(bin, by, ratios.len())] = ratio;
    }
    moved
}

/// How far to move: mostly so that the shift can stay in range.
fn random_move(rng: &mut Rng, n: usize) -> i64 {
    let signed = |rng: &mut Rng, limit: usize| rng.below(2 * limit + 1) as i64 - limit as i64;
    match rng.below(16) {
        0..3 => 0,
        3 => signed(rng, 2 * n),
        4 => signed(rng, 1) * n as i64,
        _ => signed(rng, 60),
    }
}

impl Claim for ShiftArguments {
    const TITLE: &'static str = "shift, changed";
    const STREAM: u64 = 600;
    type Port = Port;

    fn random(rng: &mut Rng) -> Changed<Self> {
        let mode = mostly_mode_1(rng);
        let n = mode.fft_size();
        let count = few(rng) + rng.below(3);
        let mut change = Change::random(rng, count);
        change.moved = random_move(rng, n);
        let bound = match rng.below(8) {
            0 => rng.below(4),
            1 => n / 2 - rng.below(2),
            _ => 60 + rng.below(80),
        };
        Changed {
            floats: Floats(spectra_to_change(
                rng,
                mode,
                Places::Bins,
                count,
                change.doublings > 0,
            )),
            arguments: Self { mode, bound },
            change,
        }
    }

    /// Ratios move round in any case. The answer stays, or, where the proviso holds, moves along.
    fn verdict(port: Port, case: &Changed<Self>) -> Verdict {
        let (asked, by) = (&case.arguments, case.change.moved);
        let n = asked.mode.fft_size();
        let before = asked.ask(port, &case.floats.0);
        let after = asked.ask(port, &case.change.of(n, &case.floats.0));
        let mut proviso = None;
        let verdict = both(&before, &after, |before, after| {
            proviso = (by != 0).then(|| asked.moves_along(before, by));
            let ratios = moved_ratios(&before.ratios, by);
            let ratios = floats_differ("ratios", &ratios, &after.ratios);
            if proviso == Some(false) {
                return ratios;
            }
            ratios
                .or_else(|| differ("shift", before.shift + by, after.shift))
                .or_else(|| floats_differ("score", &[before.score], &[after.score]))
        });
        Verdict { proviso, ..verdict }
    }
}

// ---- The benchmark

/// The bound of the shift.
const BOUND: usize = 100;

fn port_shift(mode: Mode, floats: &[f32], ratios: &mut [f32]) -> (i64, f32) {
    let (mut shift, mut score) = (0, 0.0);
    let number = black_box(mode.number());
    let code = ffi::integer_cfo(number, floats, BOUND, ratios, &mut shift, &mut score);
    assert_eq!(code, 0, "the shift is accepted");
    (shift, score)
}

/// The shift of `count` spectra.
fn shift_row(mode: Mode, count: usize, effort: &Effort) -> timing::Row {
    let captures = captures(mode, MIXED, Places::Bins, count);
    let mut ratios = vec![0.0; mode.fft_size()];
    for Capture { band, floats, .. } in &captures {
        let (shift, score) = port_shift(mode, floats, &mut ratios);
        assert_eq!(shift, band.shift);
        let found = Shift {
            shift,
            score,
            ratios: ratios.clone(),
        };
        assert!(answer::<Oracle>(mode.number(), floats, BOUND, ratios.len()) == Ok(found));
    }
    let at = |i: usize| &captures[i % captures.len()];
    row(
        of_spectra("shift", mode, count),
        "`integer_cfo`",
        effort,
        |i| port_shift(mode, &at(i).floats, &mut ratios),
        |i| acquire::integer_cfo(mode, &at(i).spectra, BOUND),
    )
}

fn bench(effort: &Effort) -> Vec<timing::Row> {
    timed::rows(effort, timed::EVERY_MODE, shift_row)
}

// ---- Stored answers

fn record(mode: u8, floats: Vec<f32>, bound: usize, ratios: usize) -> Record {
    let spectra = Floats(floats);
    let answer = answer::<Oracle>(mode, &spectra.0, bound, ratios);
    Record::of(&answer)
        .number(mode)
        .floats(&spectra)
        .number(bound)
        .lends(ratios)
        .written(&answer, |a| a.ratios.clone())
        .written(&answer, |a| vec![a.shift])
        .written(&answer, |a| vec![a.score])
}

/// Of bands, of any numbers, of units, of one spectrum; and refused by each number.
fn stored(rng: &mut Rng) -> Vec<Record> {
    let n = Mode::M1.fft_size();
    let one = 2 * n;
    let band = |rng: &mut Rng, shift, noise| {
        let band = Band {
            choice: rng.choice(),
            phase: rng.below(4),
            shift,
            noise,
        };
        band.spectra(rng, Places::Bins, 3)
    };
    vec![
        record(1, band(rng, 5, 10.0), 20, n),
        record(1, band(rng, -17, 30.0), 32, n),
        record(1, band(rng, 700, 20.0), n / 2, n),
        record(1, units(rng, 3 * n, 4), 64, n),
        record(1, any_bytes(rng, 2 * one), 0, n),
        record(1, any_bytes(rng, one), 3, n),
        record(4, any_bytes(rng, 5), n, 7),
        record(1, any_bytes(rng, 5), n, 7),
        record(2, any_bytes(rng, one), 3, 7),
        record(1, Vec::new(), n, 7),
        record(1, any_bytes(rng, one), n, n - 1),
        record(1, any_bytes(rng, one), n / 2 + 1, n),
    ]
}

#[cfg(test)]
mod tests {
    use super::*;

    #[test]
    fn every_refusal_is_stored_and_the_shifts_of_bands_are_found() {
        let records = stored(&mut Rng::new(1));
        let codes: Vec<u8> = records.iter().map(Record::code).collect();
        assert_eq!(codes, [0, 0, 0, 0, 0, 0, 1, 5, 5, 6, 7, 8]);
        for (record, shift) in records.iter().zip([5_i64, -17, 700]) {
            // Behind the ratios, each with how many are written.
            let at = 3 + 4 * Mode::M1.fft_size() + 3;
            assert_eq!(record.answer()[at..at + 8], shift.to_le_bytes());
        }
    }
}
