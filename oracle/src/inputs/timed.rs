//! Captures that are timed: those of a band with little noise.
//!
//! The port takes floats one behind another, the Rust pairs in lists; both are made before the time is
//! taken. Each answer of the port is first seen to be that of the Rust, and what was put into the capture.
//!
//! The calls take several captures in turn. Given one alone, the processor comes to foresee the branches
//! of its few thousand roots, and keeps part of it in its nearer caches; a receiver's captures are new.

use super::captures::{Band, Places};
use crate::C32;
use crate::acquire::{Acquire, Oracle};
use crate::harness::rng::Rng;
use crate::harness::timing::{Effort, Row, thousands, time};
use crate::isdb::params::{Mode, SYMBOLS_PER_FRAME};
use std::hint::black_box;

/// The mode of what is timed in one mode alone.
pub const MODE: Mode = Mode::M3;

/// Modes, and the numbers of spectra that are timed in each.
type Counts = [(Mode, &'static [usize])];

/// Few and many, in one mode.
pub const FEW_AND_MANY: &Counts = &[(MODE, &[32, MANY])];

/// Up to those of a frame in every mode, and many in one.
pub const EVERY_MODE: &Counts = &[
    (MODE, &[8, 32, SYMBOLS_PER_FRAME, MANY]),
    (Mode::M2, &[8, 32, SYMBOLS_PER_FRAME]),
    (Mode::M1, &[8, 32, SYMBOLS_PER_FRAME]),
];

/// From so many spectra on there are few rounds, on one capture.
const MANY: usize = 1024;

/// The few rounds.
const FEW_ROUNDS: usize = 3;

/// Captures that the calls take in turn.
pub const CAPTURES: usize = 8;

/// Strength of the noise. Pilots have 4/3, data and samples 1.
pub const NOISE: f32 = 0.1;

/// How far each carrier is turned against the one below, in turns: little between two pilots.
const SLOPE: f64 = 0.002;

/// Coherent and differential segments, by a bit for each.
pub const MIXED: u16 = 0b0_0110_1001_0101;

/// Every segment coherent.
pub const COHERENT: u16 = 0;

/// Times both; each call is given its number.
pub fn row<P, R>(
    operation: String,
    part: &'static str,
    effort: &Effort,
    mut port: impl FnMut(usize) -> P,
    mut rust: impl FnMut(usize) -> R,
) -> Row {
    let port = |i| drop(black_box(port(i)));
    let rust = |i| drop(black_box(rust(i)));
    Row {
        operation,
        part,
        times: time(effort, port, rust),
    }
}

/// Spectra of a band, in the port's form and in the Rust's.
pub struct Capture {
    pub band: Band,
    pub floats: Vec<f32>,
    pub spectra: Vec<Vec<C32>>,
}

impl Capture {
    pub fn new(rng: &mut Rng, mode: Mode, choice: u16, places: Places, count: usize) -> Self {
        let mut band = Band::new(rng, mode, choice);
        (band.noise, band.slope) = (NOISE, SLOPE);
        (band.scale, band.whole) = (1.0, false);
        let floats = band.spectra(rng, places, count);
        let spectra = Oracle::spectra(&floats, places.count(mode));
        Self {
            band,
            floats,
            spectra,
        }
    }
}

/// The captures of a row, each of `count` spectra.
pub fn captures(mode: Mode, choice: u16, places: Places, count: usize) -> Vec<Capture> {
    let mut rng = Rng::new(1);
    let number = if count < MANY { CAPTURES } else { 1 };
    let capture = |_| Capture::new(&mut rng, mode, choice, places, count);
    (0..number).map(capture).collect()
}

/// The words of an operation on `count` spectra.
pub fn of_spectra(what: &str, mode: Mode, count: usize) -> String {
    let (count, mode) = (thousands(count), mode.number());
    format!("{what} of {count} spectra, mode {mode}")
}

/// The effort of rows that take captures in turn.
pub fn in_turn(effort: &Effort) -> Effort {
    Effort {
        calls: CAPTURES,
        ..*effort
    }
}

/// A row for each number of spectra of each mode. Of the many there are few rounds.
pub fn rows(effort: &Effort, counts: &Counts, row: fn(Mode, usize, &Effort) -> Row) -> Vec<Row> {
    let few = Effort {
        rounds: FEW_ROUNDS,
        calls: 1,
        ..*effort
    };
    let mut rows = Vec::new();
    for &(mode, counts) in counts {
        for &count in counts {
            let effort = if count < MANY { in_turn(effort) } else { few };
            rows.push(row(mode, count, &effort));
        }
    }
    rows
}
