//! The program `segments`: what it prints for a question, counted from the Rust's `segment_roles`.

pub mod program;

use super::Operation;
use crate::codes::{BAD_LINE, Kinds, kind_letter, mode_of, phase_of, role_byte};
use crate::harness::rng::Rng;
use crate::harness::run::Plan;
use crate::harness::tally::Row;
use crate::inputs::questions::{damaged_line, every_question, random_input, unusual_inputs};
use crate::isdb::frame::{SegmentKind, segment_roles};
use crate::isdb::ofdm_params::segment_at_position;
use crate::isdb::params::{Mode, SEGMENTS};
use std::fmt::Write;
use std::io;

/// It is not timed, and what it prints is stored beside it.
pub const OPERATION: Operation = Operation {
    name: "segments",
    number: None,
    part: "segments",
    streams: &[LINES, INPUTS],
    compare,
    bench: |_| Vec::new(),
    stored: |_| Vec::new(),
};

// ---- The operation

/// A question that has the form: its digits may still name no mode or phase.
struct Question {
    mode: u8,
    phase: u8,
    kinds: Kinds,
}

/// The value of a decimal digit, or the refusal.
fn digit(byte: u8) -> Result<u8, u8> {
    if byte.is_ascii_digit() {
        Ok(byte - b'0')
    } else {
        Err(BAD_LINE)
    }
}

/// The kind of a letter, or the refusal.
fn kind_of_letter(letter: u8) -> Result<SegmentKind, u8> {
    match letter {
        b'C' => Ok(SegmentKind::Coherent),
        b'D' => Ok(SegmentKind::Differential),
        _ => Err(BAD_LINE),
    }
}

/// Reads a line of the form `digit,digit,thirteen letters`.
fn read_question(line: &[u8]) -> Result<Question, u8> {
    let &[mode, b',', phase, b',', ref letters @ ..] = line else {
        return Err(BAD_LINE);
    };
    let letters: &[u8; SEGMENTS] = letters.try_into().map_err(|_| BAD_LINE)?;
    let mut kinds = [SegmentKind::Coherent; SEGMENTS];
    for (kind, &letter) in kinds.iter_mut().zip(letters) {
        *kind = kind_of_letter(letter)?;
    }
    Ok(Question {
        mode: digit(mode)?,
        phase: digit(phase)?,
        kinds,
    })
}

/// Prints the thirteen segments and the edge.
fn print_segments(mode: Mode, phase: usize, kinds: &Kinds, out: &mut String) {
    for place in 0..SEGMENTS {
        let segment = segment_at_position(place);
        let kind = kinds[segment];
        let first = place * mode.carriers_per_segment();
        write!(out, "{place},{segment},{},{first}", kind_letter(kind)).expect("memory suffices");
        for count in role_counts(mode, segment, kind, phase) {
            write!(out, ",{count}").expect("memory suffices");
        }
        out.push('\n');
    }
    let edge = mode.total_carriers() - 1;
    writeln!(out, "{SEGMENTS},E,E,{edge},0,0,0,0,0,0").expect("memory suffices");
}

/// How many carriers of a segment have each role: data, SP, CP, TMCC, AC1, AC2.
fn role_counts(mode: Mode, segment: usize, kind: SegmentKind, phase: usize) -> [usize; 6] {
    let mut counts = [0; 6];
    for role in segment_roles(mode, segment, kind, phase) {
        counts[usize::from(role_byte(role))] += 1;
    }
    counts
}

/// What is printed for a line, or its refusal.
fn try_answer(line: &[u8], out: &mut String) -> Result<(), u8> {
    let question = read_question(line)?;
    let mode = mode_of(question.mode)?;
    let phase = phase_of(question.phase)?;
    print_segments(mode, phase, &question.kinds, out);
    Ok(())
}

/// What is printed for a line: fourteen lines, or one that refuses it.
pub fn answer(line: &[u8]) -> String {
    let mut out = String::new();
    if let Err(refusal) = try_answer(line, &mut out) {
        writeln!(out, "refused,{refusal}").expect("memory suffices");
    }
    out
}

/// True if an answer is a refusal.
pub fn is_refusal(answer: &[u8]) -> bool {
    answer.starts_with(b"refused,")
}

/// The lines of an input. The last one may lack its line feed; empty input has no line.
pub fn lines(input: &[u8]) -> Vec<&[u8]> {
    let mut lines: Vec<&[u8]> = input.split(|&byte| byte == b'\n').collect();
    // What follows the last line feed is a line only where it has a byte.
    if lines.last().is_some_and(|line| line.is_empty()) {
        lines.pop();
    }
    lines
}

// ---- The inputs that are compared

/// Streams of the damaged lines and of the whole inputs.
const LINES: u64 = 200;
const INPUTS: u64 = 300;

/// Damaged lines besides those that are asked for.
const DAMAGED_LINES: usize = 4096;

/// Random whole inputs.
const RANDOM_INPUTS: u64 = 64;

fn damaged_lines(plan: &Plan) -> Vec<Vec<u8>> {
    let line = |index| damaged_line(&mut Rng::for_case(plan.seed, LINES, index as u64));
    (0..DAMAGED_LINES + plan.calls).map(line).collect()
}

/// Inputs that each take a run of the program.
fn whole_inputs(plan: &Plan) -> Vec<Vec<u8>> {
    let random = |index| random_input(&mut Rng::for_case(plan.seed, INPUTS, index));
    let mut inputs = unusual_inputs();
    inputs.extend((0..RANDOM_INPUTS).map(random));
    inputs
}

fn try_compare(plan: &Plan) -> io::Result<Vec<Row>> {
    let program = program::path();
    let every = program::compare_lines(&program, &every_question())?;
    let damaged = program::compare_lines(&program, &damaged_lines(plan))?;
    let inputs = program::compare_inputs(&program, &whole_inputs(plan))?;
    Ok(vec![
        every.row("segments, every question"),
        damaged.row("segments, damaged lines"),
        inputs.row("segments, whole inputs"),
    ])
}

fn compare(plan: &Plan) -> Vec<Row> {
    try_compare(plan).unwrap_or_else(|error| {
        let program = program::path();
        let why = format!("could not run {}: {error}", program.display());
        vec![Row::not_run(why)]
    })
}
