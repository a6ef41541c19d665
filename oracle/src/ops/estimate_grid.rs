//! The grid: the channel at the pilots of coherent segments, of one spectrum among others.

use super::Operation;
use crate::C32;
use crate::acquire::{Acquire, Oracle};
use crate::codes::{
    BAD_INDEX, BAD_LENGTH, BAD_WINDOW, KINDS, NO_SPECTRA, PHASES, kind_bytes, kinds_of,
    kinds_of_choice, mode_of, phase_of,
};
use crate::harness::call::{Call, Floats, Unfilled, accept, write_answer};
use crate::harness::lent::{Lent, Shown};
use crate::harness::outcome::{Compared, Outcome};
use crate::harness::rng::Rng;
use crate::harness::run::{self, Plan};
use crate::harness::stored::{HELD, Record};
use crate::harness::tally::Row;
use crate::harness::timing::{self, Effort, time};
use crate::inputs::arguments::{
    MODE_NUMBERS, MOST_SPECTRA, PHASE_NUMBERS, SELDOM, boundary_kinds, many_floats, mostly,
    mostly_good_kinds, mostly_good_mode, mostly_whole, readable, size, whole_spectra,
};
use crate::inputs::captures::{self, Places, mostly_mode_1};
use crate::inputs::timed::{self, COHERENT, Capture, captures, in_turn, of_spectra};
use crate::inputs::whole::{Band, any_bytes, units};
use crate::isdb::frame::FrameLayout;
use crate::isdb::params::{Mode, SEGMENTS};
use crate::isdb::rx::chanest::{ChannelEstimator, lookahead};
use sillurwy::ffi;
use std::fmt;
use std::hint::black_box;

pub const OPERATION: Operation = Operation {
    name: "estimate_grid",
    number: Some(12),
    part: "grid",
    streams: &[GridCall::STREAM],
    compare,
    bench,
    stored,
};

// ---- The operation

/// Mode, phase, kinds, spectra, index, time window; the grid.
pub type Port = fn(u8, u8, &[u8], &[f32], usize, usize, &mut [f32]) -> u8;

/// A call.
#[derive(Debug, Clone, PartialEq, Eq, PartialOrd, Ord)]
pub struct GridCall {
    /// Mode.
    pub mode: u8,
    /// Spectra.
    pub spectra: Floats,
    /// Index of the current one.
    pub index: usize,
    /// Time window.
    pub w: usize,
    /// Kinds.
    pub kinds: Vec<u8>,
    /// Phase of the current spectrum.
    pub phase: u8,
    /// Lent floats of the grid.
    pub grid: usize,
}

/// The largest time window.
pub const MOST_WINDOW: usize = 64;

/// Floats of a grid.
pub fn grid_floats(mode: Mode) -> usize {
    2 * (mode.total_carriers() / 3 + 2)
}

/// The spectrum at an offset from spectrum `index`, if there is one.
pub fn at_offset(spectra: &[Vec<C32>], index: usize, offset: i32) -> Option<&[C32]> {
    let at = index.checked_add_signed(offset as isize)?;
    spectra.get(at).map(Vec::as_slice)
}

/// What the grid holds after a call, given what it held before. No norm is taken.
pub fn answer(
    mode: u8,
    phase: u8,
    kinds: &[u8],
    spectra: &[f32],
    index: usize,
    w: usize,
    before: &[f32],
) -> Result<Vec<f32>, u8> {
    let mode = mode_of(mode)?;
    let kinds = kinds_of(kinds)?;
    let phase = phase_of(phase)?;
    let len = mode.total_carriers();
    whole_spectra(spectra, len)?;
    accept(!spectra.is_empty(), NO_SPECTRA)?;
    let spectra = Oracle::spectra(spectra, len);
    accept(index < spectra.len(), BAD_INDEX)?;
    accept(w <= MOST_WINDOW, BAD_WINDOW)?;
    accept(before.len() == grid_floats(mode), BAD_LENGTH)?;
    let mut estimator = ChannelEstimator::new(&FrameLayout::new(mode, kinds));
    estimator.grid = Oracle::pairs(before);
    let ring = |offset| at_offset(&spectra, index, offset);
    estimator.estimate(&spectra[index], ring, phase, w);
    Ok(floats(&estimator.grid))
}

/// The floats of a list of pairs.
fn floats(pairs: &[C32]) -> Vec<f32> {
    pairs.iter().flat_map(|pair| [pair.re, pair.im]).collect()
}

/// Writes an answer as the port does.
pub fn write(answer: Result<Vec<f32>, u8>, grid: &mut [f32]) -> u8 {
    write_answer(answer, |points| grid.copy_from_slice(&points))
}

fn rust(
    mode: u8,
    phase: u8,
    kinds: &[u8],
    spectra: &[f32],
    index: usize,
    w: usize,
    grid: &mut [f32],
) -> u8 {
    let answer = answer(mode, phase, kinds, spectra, index, w, grid);
    write(answer, grid)
}

impl GridCall {
    /// What the oracle leaves in a grid, given what it held before.
    pub fn answer(&self, before: &[f32]) -> Result<Vec<f32>, u8> {
        answer(
            self.mode,
            self.phase,
            &self.kinds,
            &self.spectra.0,
            self.index,
            self.w,
            before,
        )
    }
}

impl fmt::Display for GridCall {
    fn fmt(&self, f: &mut fmt::Formatter<'_>) -> fmt::Result {
        write!(
            f,
            "grid: mode {}, phase {}, kinds {}, index {}, w {}, {} floats of grid, spectra of {}",
            self.mode,
            self.phase,
            readable(&self.kinds),
            self.index,
            self.w,
            self.grid,
            self.spectra
        )
    }
}

// ---- The calls that are compared

/// The numbers around which a mode's calls are refused.
struct Sizes {
    mode: u8,
    /// Floats of a spectrum.
    one: usize,
    /// Floats of the grid.
    grid: usize,
}

impl Sizes {
    fn of(mode: u8) -> Self {
        Self {
            mode,
            one: 2 * size(mode, Mode::total_carriers),
            grid: size(mode, grid_floats),
        }
    }

    /// A call without its floats.
    fn call(&self, kinds: &[u8], phase: u8, (index, w, grid): (usize, usize, usize)) -> GridCall {
        GridCall {
            mode: self.mode,
            spectra: Floats::default(),
            index,
            w,
            kinds: kinds.to_vec(),
            phase,
            grid,
        }
    }

    /// All numbers combined.
    fn combined(&self, calls: &mut Vec<Unfilled<GridCall>>) {
        let (one, right) = (self.one, self.grid);
        let (good, bad) = (kind_bytes(0b1_0110_0101_1010), [2; SEGMENTS]);
        for floats in [0, 1, one - 1, one, one + 2, 2 * one] {
            let count = floats / one;
            for index in [0, count.max(1) - 1, count, count + 1, 1 << 63, usize::MAX] {
                for w in boundary_windows() {
                    for grid in [0, right - 1, right, right + 1, right + 2] {
                        for kinds in [good, bad] {
                            let call = |phase| self.call(&kinds, phase, (index, w, grid));
                            calls.extend([1, 4, 255].map(|phase| (call(phase), floats)));
                        }
                    }
                }
            }
        }
    }

    /// All kinds and phases, with few numbers.
    fn all_kinds(&self, calls: &mut Vec<Unfilled<GridCall>>) {
        let (one, right) = (self.one, self.grid);
        for kinds in boundary_kinds() {
            for phase in PHASE_NUMBERS {
                let call = |numbers| self.call(&kinds, phase, numbers);
                calls.extend([
                    (call((0, 1, right)), one),
                    (call((1, 2, right)), 3 * one),
                    (call((7, 65, right - 1)), one),
                    (call((0, 0, right)), one + 1),
                    (call((0, 0, right)), 0),
                ]);
            }
        }
    }

    /// Around the most spectra.
    fn many(&self, calls: &mut Vec<Unfilled<GridCall>>) {
        let last = MOST_SPECTRA - 1;
        for floats in many_floats(self.mode, self.one / 2) {
            for (index, w) in [(last, 64), (last + 1, 2), (0, 65), (last / 2, 64)] {
                let call = self.call(&[0; SEGMENTS], 3, (index, w, self.grid));
                calls.push((call, floats));
            }
        }
    }
}

/// Time windows around 0 and the largest, and far off.
fn boundary_windows() -> [usize; 6] {
    [0, 1, MOST_WINDOW, MOST_WINDOW + 1, 1 << 63, usize::MAX]
}

/// A time window, mostly a small one.
fn random_window(rng: &mut Rng) -> usize {
    match rng.below(64) {
        0 => MOST_WINDOW + 1 + rng.below(3),
        1 => (rng.next_u64() >> rng.below(64)) as usize,
        2..6 => MOST_WINDOW,
        6..10 => rng.below(MOST_WINDOW + 1),
        10..16 => 8,
        _ => rng.below(4),
    }
}

/// How many spectra: one, few, those that a time window reaches, or seldom many in mode 1.
fn random_count(rng: &mut Rng, mode: Mode, w: usize) -> usize {
    if mode == Mode::M1 && rng.once_in(SELDOM) {
        return 1 + rng.below(MOST_SPECTRA);
    }
    match rng.below(64) {
        0 => 0,
        1..10 => 1,
        10..30 => 1 + rng.below(8),
        30 => 1 + rng.below(60),
        _ => 1 + rng.below(8 * w.clamp(1, 3)),
    }
}

/// An index: first, middle, last or any; seldom outside.
fn random_index(rng: &mut Rng, count: usize) -> usize {
    match rng.below(64) {
        0 => count + rng.below(3),
        1 => (rng.next_u64() >> rng.below(64)) as usize,
        2..12 => 0,
        12..22 => count.max(1) - 1,
        22..42 => count / 2,
        _ => rng.below(count.max(1)),
    }
}

impl Call for GridCall {
    const TITLE: &'static str = "grid";
    const STREAM: u64 = 800;
    type Port = Port;
    const LINKED: Port = ffi::estimate_grid;
    const RUST: Port = rust;

    fn run(&self, port: Port, salt: u64) -> Outcome {
        let (kinds, spectra) = (Shown::new(&self.kinds), Shown::new(&self.spectra.0));
        let mut grid = Lent::new(self.grid, salt);
        let answer = self.answer(grid.slice());
        let given = port(
            self.mode,
            self.phase,
            kinds.slice(),
            spectra.slice(),
            self.index,
            self.w,
            grid.slice(),
        );
        let compared = Compared::of_code(given, &answer)
            .lent(&grid, "grid", &answer, |points| points.clone())
            .shown(&kinds, "kinds")
            .shown(&spectra, "spectra");
        Outcome::of(&answer, compared)
    }

    fn floats(&mut self) -> Option<&mut Floats> {
        Some(&mut self.spectra)
    }

    fn boundary() -> Vec<Unfilled<Self>> {
        let mut calls = Vec::new();
        for sizes in MODE_NUMBERS.map(Sizes::of) {
            sizes.combined(&mut calls);
            sizes.all_kinds(&mut calls);
            sizes.many(&mut calls);
        }
        calls
    }

    fn random(rng: &mut Rng) -> Self {
        let mode = mostly_mode_1(rng);
        let (kinds, choice) = mostly_good_kinds(rng);
        let w = random_window(rng);
        let count = random_count(rng, mode, w);
        let spectra = captures::spectra(rng, mode, choice, Places::Carriers, count);
        Self {
            mode: mostly_good_mode(rng, mode),
            spectra: mostly_whole(rng, spectra),
            index: random_index(rng, count),
            w,
            kinds,
            phase: if rng.once_in(64) {
                rng.byte()
            } else {
                rng.byte() % PHASES
            },
            grid: mostly(rng, grid_floats(mode)),
        }
    }
}

fn compare(plan: &Plan) -> Vec<Row> {
    vec![
        run::boundary::<GridCall>(GridCall::LINKED, plan.seed),
        run::random::<GridCall>(GridCall::LINKED, plan.seed, plan.captures),
    ]
}

// ---- The benchmark

/// The time window.
const W: usize = 2;

/// How many spectra there are before the current one, and after it: all that the time window
/// reaches.
fn side() -> usize {
    lookahead(W)
}

/// The phase of the current spectrum.
fn phase(capture: &Capture) -> usize {
    (capture.band.phase + side()) % 4
}

/// The port's grid.
fn port_grid(kinds: &[u8], capture: &Capture, grid: &mut [f32]) {
    let (number, phase) = (black_box(timed::MODE.number()), phase(capture) as u8);
    let code = ffi::estimate_grid(number, phase, kinds, &capture.floats, side(), W, grid);
    assert_eq!(code, 0, "the grid is accepted");
}

/// The Rust's grid.
fn rust_grid(estimator: &mut ChannelEstimator, capture: &Capture) {
    let Capture { spectra, .. } = capture;
    let ring = |offset| at_offset(spectra, side(), offset);
    estimator.estimate(&spectra[side()], ring, phase(capture), W);
}

/// Windows in turn. The Rust's layout is made before the time is taken.
fn bench(effort: &Effort) -> Vec<timing::Row> {
    let effort = &in_turn(effort);
    let captures = captures(timed::MODE, COHERENT, Places::Carriers, 2 * side() + 1);
    let layout = FrameLayout::new(timed::MODE, kinds_of_choice(COHERENT));
    let kinds = kind_bytes(COHERENT);
    let mut grid = vec![0.0; grid_floats(timed::MODE)];
    for capture in &captures {
        let (floats, phase) = (&capture.floats, phase(capture) as u8);
        let number = timed::MODE.number();
        let right = answer(number, phase, &kinds, floats, side(), W, &grid);
        port_grid(&kinds, capture, &mut grid);
        assert!(right == Ok(grid.clone()));
    }
    let at = |i: usize| &captures[i % captures.len()];
    let mut port = |i| {
        port_grid(&kinds, at(i), &mut grid);
        black_box(&mut grid);
    };
    let what = of_spectra("grid", timed::MODE, captures[0].spectra.len());
    let row = |part, times| timing::Row {
        operation: format!("{what}, time window {W}"),
        part,
        times,
    };
    let mut made = ChannelEstimator::new(&layout);
    let already_made = time(effort, &mut port, |i| {
        rust_grid(&mut made, at(i));
        black_box(&mut made);
    });
    let making = time(effort, &mut port, |i| {
        let mut estimator = ChannelEstimator::new(black_box(&layout));
        rust_grid(&mut estimator, at(i));
        black_box(estimator);
    });
    vec![
        row("`estimate`, of an estimator already made", already_made),
        row("`ChannelEstimator::new` and `estimate`", making),
    ]
}

// ---- Stored answers

impl GridCall {
    /// A call that is stored: of a mode, all coherent, with a time window of 1 and the first
    /// spectrum as the current one.
    fn stored(mode: Mode, floats: Vec<f32>) -> Self {
        Self {
            mode: mode.number(),
            spectra: Floats(floats),
            index: 0,
            w: 1,
            kinds: kind_bytes(0).to_vec(),
            phase: 0,
            grid: grid_floats(mode),
        }
    }

    /// The same with other kinds.
    fn kinds(self, choice: u16) -> Self {
        let kinds = kind_bytes(choice).to_vec();
        Self { kinds, ..self }
    }

    /// The same with another phase, index and time window.
    fn at(self, phase: u8, index: usize, w: usize) -> Self {
        Self {
            phase,
            index,
            w,
            ..self
        }
    }

    /// The record of the call and its answer. Points that are not estimated are stored as they
    /// were.
    fn record(&self) -> Record {
        let answer = self.answer(&vec![f32::from(HELD); self.grid]);
        Record::of(&answer)
            .number(self.mode)
            .number(self.phase)
            .bytes(&self.kinds)
            .floats(&self.spectra)
            .number(self.index)
            .number(self.w)
            .lends(self.grid)
            .written(&answer, |points| points.clone())
    }
}

/// A call of a band in mode 1: its kinds, `count` spectra of which `index` is the current one, and
/// the time window. The phase is the band's.
fn band(rng: &mut Rng, choice: u16, (count, index, w): (usize, usize, usize)) -> GridCall {
    let band = Band {
        choice,
        phase: rng.below(4),
        shift: 0,
        noise: 10.0,
    };
    let floats = band.spectra(rng, Places::Carriers, count);
    let phase = (band.phase + index) % 4;
    let call = GridCall::stored(Mode::M1, floats).kinds(choice);
    call.at(phase as u8, index, w)
}

/// Accepted calls in mode 1: of bands, of any numbers, of units and silence; with time windows from
/// 0 to 64, the current spectrum first, last or between, one spectrum alone, one coherent segment
/// and none.
fn in_mode_1(rng: &mut Rng) -> Vec<GridCall> {
    let one = 2 * Mode::M1.total_carriers();
    let any = |rng: &mut Rng, count: usize| GridCall::stored(Mode::M1, any_bytes(rng, count * one));
    let mixed = 0b1_0110_0101_1010;
    vec![
        band(rng, 0, (5, 2, 1)),
        band(rng, mixed, (7, 3, 2)),
        band(rng, KINDS - 1 - mixed, (3, 1, 0)),
        band(rng, KINDS - 1 - (1 << 12), (4, 2, 3)),
        band(rng, 1 << 12, (6, 5, 8)),
        any(rng, 1).at(0, 0, 1),
        any(rng, 1).at(3, 0, 0).kinds(mixed),
        any(rng, 5).at(1, 0, 2),
        any(rng, 5).at(2, 4, 64).kinds(0b0_1100_0011_0101),
        any(rng, 2).at(3, 1, 1).kinds(KINDS - 1 - 1),
        any(rng, 2).at(1, 1, 1).kinds(KINDS - 1),
        GridCall::stored(Mode::M1, units(rng, 3 * one / 2, 4)).at(2, 1, 2),
    ]
}

/// Accepted calls in modes 2 and 3, of any numbers.
fn in_other_modes(rng: &mut Rng) -> Vec<GridCall> {
    let any = |rng: &mut Rng, mode: Mode, count: usize| {
        GridCall::stored(mode, any_bytes(rng, 2 * mode.total_carriers() * count))
    };
    vec![
        any(rng, Mode::M2, 3).at(1, 1, 1).kinds(0b0_0000_0111_1000),
        any(rng, Mode::M3, 2).at(2, 0, 3).kinds(0b1_1010_0000_0110),
    ]
}

/// Refused calls, by each number in their order. What comes later is bad too.
fn refused(rng: &mut Rng) -> Vec<GridCall> {
    let one = 2 * Mode::M1.total_carriers();
    let bad = |floats| GridCall {
        grid: 5,
        ..GridCall::stored(Mode::M1, floats).at(4, 1, 65)
    };
    let part = any_bytes(rng, 5);
    let whole = any_bytes(rng, one);
    let kinds = vec![2; 13];
    vec![
        GridCall {
            mode: 4,
            kinds: kinds.clone(),
            ..bad(part.clone())
        },
        GridCall {
            kinds,
            ..bad(part.clone())
        },
        bad(part.clone()),
        bad(part).at(3, 1, 65),
        bad(Vec::new()).at(3, 1, 65),
        bad(whole.clone()).at(3, 1, 65),
        bad(whole.clone()).at(3, 0, 65),
        bad(whole).at(3, 0, 64),
    ]
}

/// Every call that is stored.
fn stored_calls(rng: &mut Rng) -> Vec<GridCall> {
    let mut calls = in_mode_1(rng);
    calls.extend(in_other_modes(rng));
    calls.extend(refused(rng));
    calls
}

fn stored(rng: &mut Rng) -> Vec<Record> {
    stored_calls(rng).iter().map(GridCall::record).collect()
}

#[cfg(test)]
mod tests {
    use super::*;

    #[test]
    fn every_number_refuses_in_its_order() {
        let records = stored(&mut Rng::new(1));
        let codes: Vec<u8> = records.iter().map(Record::code).collect();
        assert_eq!(codes[..14], [0; 14]);
        assert_eq!(codes[14..], [1, 2, 3, 5, 6, 4, 10, 7]);
    }

    #[test]
    fn a_record_has_every_part() {
        for call in stored_calls(&mut Rng::new(1)) {
            let record = call.record();
            let floats = call.spectra.0.len();
            assert!(floats <= 22_468 && call.grid <= 3748);
            let points = if record.code() == 0 { call.grid } else { 0 };
            assert_eq!(record.answer()[..2], (points as u16).to_le_bytes());
            let alike = record.answer()[2] == 1;
            let stored = if alike { 1 } else { points };
            assert_eq!(record.answer().len(), 3 + 4 * stored);
            let head = 22;
            let parts = call.kinds.len() + floats + record.answer().len();
            assert_eq!(record.stored(12).len(), head + parts);
        }
    }

    #[test]
    fn the_channel_of_a_band_is_found() {
        // With a time window of 1, points whose pilot is in the current spectrum have its value,
        // whose size is about 60.
        let call = &stored_calls(&mut Rng::new(1))[0];
        let record = call.record();
        let float = |bytes: &[u8]| f32::from_le_bytes(bytes.try_into().unwrap());
        let floats: Vec<f32> = record.answer()[3..].chunks(4).map(float).collect();
        let now = floats.chunks(2).skip(usize::from(call.phase)).step_by(4);
        for point in now.take(117) {
            let size = point[0].hypot(point[1]);
            assert!((45.0..75.0).contains(&size), "{size}");
        }
        assert_eq!(floats[2 * 469..], [f32::from(HELD); 2]);
    }
}
