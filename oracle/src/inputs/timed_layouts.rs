//! Phases and kinds with which the operations of the layout are timed, and their rows.

use super::timed;
use crate::codes::{KINDS, Kinds, MODES, PHASES, kind_bytes, kinds_of_choice};
use crate::harness::rng::Rng;
use crate::harness::timing::{Effort, Row};
use crate::isdb::params::{Mode, SEGMENTS};
use std::hint::black_box;

/// Number of inputs that the calls rotate over.
const INPUTS: usize = 32;

/// One input: a phase and kinds, in the port's form and in the Rust's.
#[derive(Debug)]
pub struct Input {
    /// Phase.
    pub phase: u8,
    /// Kinds as bytes.
    pub bytes: [u8; SEGMENTS],
    /// Kinds.
    pub kinds: Kinds,
}

impl Input {
    fn new(phase: u8, choice: u16) -> Self {
        Self {
            phase,
            bytes: kind_bytes(choice),
            kinds: kinds_of_choice(choice),
        }
    }
}

/// All coherent, all differential and mixed kinds in turn, the mixed ones from a fixed seed.
pub fn inputs() -> Vec<Input> {
    let mut rng = Rng::new(1);
    let input = |i: usize| {
        let choice = match i % 4 {
            0 => 0,
            1 => KINDS - 1,
            _ => rng.choice(),
        };
        Input::new((i / 4) as u8 % PHASES, choice)
    };
    (0..INPUTS).map(input).collect()
}

/// The one that call `i` takes.
pub fn at<T>(all: &[T], i: usize) -> &T {
    black_box(&all[i % INPUTS])
}

/// The rows of each mode, the largest first.
pub fn of_modes(rows: impl Fn(Mode) -> Vec<Row>) -> Vec<Row> {
    MODES.into_iter().rev().flat_map(rows).collect()
}

/// Times both; each call is given its number.
pub fn row<P, R>(
    (what, mode): (&str, Mode),
    part: &'static str,
    effort: &Effort,
    port: impl FnMut(usize) -> P,
    rust: impl FnMut(usize) -> R,
) -> Row {
    let operation = format!("{what}, mode {}", mode.number());
    let effort = Effort {
        calls: INPUTS,
        ..*effort
    };
    timed::row(operation, part, &effort, port, rust)
}
