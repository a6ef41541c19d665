//! Questions to the program `segments`: all of them, random ones, damaged lines, and whole inputs.

use crate::codes::{KINDS, MODES, PHASES, kind_letter, kinds_of_choice};
use crate::harness::rng::Rng;
use crate::isdb::params::{Mode, SEGMENTS};

/// The line of a question, without its line feed.
pub fn question(mode: Mode, phase: u8, choice: u16) -> Vec<u8> {
    let letters: String = kinds_of_choice(choice).map(kind_letter).iter().collect();
    format!("{},{phase},{letters}", mode.number()).into_bytes()
}

/// Every question, in the order of mode, phase and choice of kinds.
pub fn every_question() -> Vec<Vec<u8>> {
    let mut lines = Vec::new();
    for mode in MODES {
        for phase in 0..PHASES {
            lines.extend((0..KINDS).map(|choice| question(mode, phase, choice)));
        }
    }
    lines
}

/// A random question.
pub fn random_question(rng: &mut Rng) -> Vec<u8> {
    let mode = *rng.pick(&MODES);
    let phase = rng.byte() % PHASES;
    question(mode, phase, rng.choice())
}

/// Lengths that a long line has: next to the right one, and around sizes that buffers have.
const LONG_LENGTHS: [usize; 8] = [18, 34, 4095, 4096, 4097, 65535, 65537, 200_000];

/// A random line that is mostly not a question. It holds no line feed.
pub fn damaged_line(rng: &mut Rng) -> Vec<u8> {
    let mut line = random_question(rng);
    let at = rng.below(line.len());
    let byte = byte_of_a_line(rng);
    match rng.below(12) {
        0 => line[0] = random_digit(rng),
        1 => line[2] = random_digit(rng),
        2 => {
            line[0] = random_digit(rng);
            line[2] = random_digit(rng);
        }
        3 => line[at] = byte,
        4 => line[4 + at % SEGMENTS] = *rng.pick(b"cdEBAX01 ,"),
        5 => line.insert(at, byte),
        6 => drop(line.remove(at)),
        7 => line.truncate(at),
        8 => line.extend_from_within(..=at),
        9 => line.push(b'\r'),
        10 if rng.once_in(8) => line.resize(*rng.pick(&LONG_LENGTHS), *rng.pick(b"CD,1 ")),
        _ => line.clear(),
    }
    line
}

/// Any decimal digit.
fn random_digit(rng: &mut Rng) -> u8 {
    *rng.pick(b"0123456789")
}

/// Any byte but a line feed.
fn byte_of_a_line(rng: &mut Rng) -> u8 {
    match rng.byte() {
        b'\n' => 0,
        byte => byte,
    }
}

/// Inputs of which how they begin and end is what matters.
pub fn unusual_inputs() -> Vec<Vec<u8>> {
    let good: &[u8] = b"2,3,CDCDCDCDCDCDC";
    let mut inputs: Vec<Vec<u8>> = ["", "\n", "\n\n", "\r\n", "\r", "1", "1,0,", "\0"]
        .map(|text| text.as_bytes().to_vec())
        .to_vec();
    for cut in [
        good,
        &good[..16],
        b"4,3,CDCDCDCDCDCDC",
        b"2,4,CDCDCDCDCDCDC",
    ] {
        for end in ["", "\n", "\n\n", "\r\n", "\r", "C", " ", "\0"] {
            inputs.push([cut, end.as_bytes()].concat());
        }
        inputs.push([good, b"\n", cut].concat());
    }
    for len in [1 << 12, 1 << 16, 200_000, 1 << 20] {
        for around in [len - 1, len, len + 1] {
            let long = vec![b'C'; around];
            inputs.push([&long, b"\n".as_slice(), good].concat());
            inputs.push(long);
        }
    }
    inputs
}

/// Some good and some damaged lines, the last with or without its line feed.
pub fn random_input(rng: &mut Rng) -> Vec<u8> {
    let mut input = Vec::new();
    for _ in 0..rng.below(2000) {
        let good = rng.once_in(2);
        let line = if good {
            random_question(rng)
        } else {
            damaged_line(rng)
        };
        input.extend(line);
        input.push(b'\n');
    }
    if rng.once_in(2) {
        input.pop();
    }
    input
}
