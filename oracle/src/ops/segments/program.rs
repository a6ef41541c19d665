//! Runs the program `segments` and compares what it prints with the oracle's answers.

use super::{answer, is_refusal, lines};
use crate::harness::tally::Tally;
use std::fmt;
use std::io::{self, Read, Write};
use std::path::{Path, PathBuf};
use std::process::{Command, ExitStatus, Stdio};
use std::thread;

/// Where the program lies: SILLURWY_SEGMENTS, else target/bin/segments of the repository.
pub fn path() -> PathBuf {
    match std::env::var_os("SILLURWY_SEGMENTS") {
        Some(path) => PathBuf::from(path),
        None => Path::new(env!("CARGO_MANIFEST_DIR")).join("../target/bin/segments"),
    }
}

/// What a run of the program gave.
struct Run {
    output: Vec<u8>,
    status: ExitStatus,
}

/// Runs the program over an input. A thread of its own writes the input, so that neither side waits
/// for the other with a full pipe.
fn run(program: &Path, input: &[u8]) -> io::Result<Run> {
    let mut child = Command::new(program)
        .stdin(Stdio::piped())
        .stdout(Stdio::piped())
        .spawn()?;
    let mut stdin = child.stdin.take().expect("the input is piped");
    let mut stdout = child.stdout.take().expect("the output is piped");
    let mut output = Vec::new();
    thread::scope(|scope| {
        // A program that ends early closes the pipe; its output then shows it.
        scope.spawn(move || drop(stdin.write_all(input)));
        stdout.read_to_end(&mut output)
    })?;
    let status = child.wait()?;
    Ok(Run { output, status })
}

/// A piece of input, shorter ones first.
#[derive(Debug, PartialEq, Eq, PartialOrd, Ord)]
pub struct Input {
    len: usize,
    bytes: Vec<u8>,
}

impl Input {
    fn new(bytes: &[u8]) -> Self {
        Self {
            len: bytes.len(),
            bytes: bytes.to_vec(),
        }
    }
}

impl fmt::Display for Input {
    fn fmt(&self, f: &mut fmt::Formatter<'_>) -> fmt::Result {
        write!(f, "segments: {} ({} bytes)", quoted(&self.bytes), self.len)
    }
}

/// Bytes as a string in quotes, cut where it is long.
fn quoted(bytes: &[u8]) -> String {
    const SHOWN: usize = 80;
    let dots = if bytes.len() > SHOWN { "..." } else { "" };
    let shown = &bytes[..bytes.len().min(SHOWN)];
    format!("\"{}\"{dots}", shown.escape_ascii())
}

/// The first line in which two outputs differ.
fn difference(oracle: &[u8], port: &[u8]) -> Option<String> {
    if oracle == port {
        return None;
    }
    let line = |output: &[u8], at: usize| match output.split_inclusive(|&b| b == b'\n').nth(at) {
        Some(line) => quoted(line),
        None => "nothing".to_string(),
    };
    // One of the two ends or differs at some line, since they are not equal.
    let at = (0..).find(|&at| line(oracle, at) != line(port, at))?;
    let (wanted, given) = (line(oracle, at), line(port, at));
    Some(format!(
        "line {} printed: oracle {wanted}, port {given}",
        at + 1
    ))
}

/// Cuts an output into answers: a refusal is one line, any other answer ends with the edge.
fn split_answers(output: &[u8]) -> Vec<&[u8]> {
    let mut answers = Vec::new();
    let (mut start, mut end) = (0, 0);
    for line in output.split_inclusive(|&byte| byte == b'\n') {
        end += line.len();
        if is_refusal(line) || line.starts_with(b"13,") {
            answers.push(&output[start..end]);
            start = end;
        }
    }
    if start < end {
        answers.push(&output[start..end]);
    }
    answers
}

/// A difference in how the program ended.
fn status_difference(status: ExitStatus) -> Option<String> {
    (!status.success()).then(|| format!("the program ended with {status}"))
}

/// Asks all questions in one run and compares answer by answer.
pub fn compare_lines(program: &Path, questions: &[Vec<u8>]) -> io::Result<Tally<Input>> {
    let mut input = questions.join(&b'\n');
    input.push(b'\n');
    let run = run(program, &input)?;
    let given = split_answers(&run.output);
    let mut tally = Tally::default();
    for (i, question) in questions.iter().enumerate() {
        let wanted = answer(question).into_bytes();
        let found = difference(&wanted, given.get(i).copied().unwrap_or_default());
        tally.count(is_refusal(&wanted), found, || Input::new(question));
    }
    let surplus = given.len().saturating_sub(questions.len());
    let end = (surplus > 0).then(|| format!("{surplus} answers too many"));
    if let Some(found) = end.or_else(|| status_difference(run.status)) {
        tally.count(false, Some(found), || Input::new(&input));
    }
    Ok(tally)
}

/// Runs the program once over each input and compares the whole outputs.
pub fn compare_inputs(program: &Path, inputs: &[Vec<u8>]) -> io::Result<Tally<Input>> {
    let mut tally = Tally::default();
    for input in inputs {
        let run = run(program, input)?;
        let answers: Vec<String> = lines(input).into_iter().map(answer).collect();
        let refused = answers.iter().any(|answer| is_refusal(answer.as_bytes()));
        let found = difference(answers.concat().as_bytes(), &run.output)
            .or_else(|| status_difference(run.status));
        tally.count(refused, found, || Input::new(input));
    }
    Ok(tally)
}

#[cfg(test)]
mod tests {
    use super::*;

    #[test]
    fn answers_are_told_apart() {
        let good = answer(b"1,0,CCCCCCCCCCCCC");
        let output = format!("refused,11\n{good}refused,3\n{good}0,11");
        let parts = split_answers(output.as_bytes());
        let wanted = ["refused,11\n", &good, "refused,3\n", &good, "0,11"];
        assert_eq!(parts, wanted.map(str::as_bytes));
    }

    #[test]
    fn a_difference_names_the_line() {
        assert_eq!(difference(b"a\nb\n", b"a\nb\n"), None);
        let found = difference(b"a\nb\n", b"a\nc\n").unwrap();
        assert_eq!(found, "line 2 printed: oracle \"b\\n\", port \"c\\n\"");
        assert!(difference(b"a\n", b"a").is_some());
        assert!(difference(b"", b"\n").is_some());
    }
}
