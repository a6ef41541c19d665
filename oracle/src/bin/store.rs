//! Writes stored answers of the oracle, for programs that compare without Rust at hand.

use oracle::harness::args::Args;
use oracle::harness::rng::Rng;
use oracle::inputs::questions::{every_question, random_question};
use oracle::isdb::params::SEGMENTS;
use oracle::isdb::tables;
use oracle::ops;
use oracle::ops::segments::{answer, lines};
use std::fs;
use std::io::{self, Read, Write};
use std::process::ExitCode;

const USAGE: &str = "\
store: write stored answers of the oracle

  store FILE [--seed N]       write the stored answers of every operation to FILE
  store --tables FILE         write the tables of the standard to FILE
  store --lines N [--seed N]  print N random questions for segments; `all` prints every one
  store --answers             print the answers to the questions on standard input
  --help                      this text

The seed is 1 unless it is given. README.md describes the binary files.";

/// What to write.
enum Task {
    Operations(String),
    Tables(String),
    Lines(u64),
    AllLines,
    Answers,
}

fn task() -> (Task, u64) {
    let mut args = Args::new(USAGE);
    let (mut task, mut seed) = (None, 1);
    while let Some(word) = args.next_word() {
        let given = match word.as_str() {
            "--seed" => {
                seed = args.number("--seed");
                continue;
            }
            "--tables" => Task::Tables(args.value("--tables")),
            "--answers" => Task::Answers,
            "--lines" => lines_task(&mut args),
            option if option.starts_with('-') => args.fail(format!("unknown word {option}")),
            _ => Task::Operations(word),
        };
        if task.replace(given).is_some() {
            args.fail("only one thing can be written");
        }
    }
    match task {
        Some(task) => (task, seed),
        None => args.fail("nothing to write"),
    }
}

fn lines_task(args: &mut Args) -> Task {
    let word = args.value("--lines");
    match word.parse() {
        Ok(count) => Task::Lines(count),
        Err(_) if word == "all" => Task::AllLines,
        Err(_) => args.fail(format!("--lines needs a number or all, not {word}")),
    }
}

/// Appends numbers as two bytes each, the low one first.
fn push_u16(out: &mut Vec<u8>, numbers: impl IntoIterator<Item = usize>) {
    for number in numbers {
        let narrow = u16::try_from(number).expect("entries of the tables are below 65,536");
        out.extend(narrow.to_le_bytes());
    }
}

/// Appends the rows of a carrier table, each after the count of its entries.
fn push_rows<const N: usize>(out: &mut Vec<u8>, table: &[[u16; N]; SEGMENTS]) {
    for row in table {
        out.push(u8::try_from(N).expect("a row is short"));
        push_u16(out, row.map(usize::from));
    }
}

/// The carrier tables of the three modes, the first states, the randomizing tables.
fn tables() -> Vec<u8> {
    let mut out = Vec::new();
    push_rows(&mut out, &tables::DIFF_AC1_M1);
    push_rows(&mut out, &tables::DIFF_AC1_M2);
    push_rows(&mut out, &tables::DIFF_AC1_M3);
    push_rows(&mut out, &tables::DIFF_AC2_M1);
    push_rows(&mut out, &tables::DIFF_AC2_M2);
    push_rows(&mut out, &tables::DIFF_AC2_M3);
    push_rows(&mut out, &tables::DIFF_TMCC_M1);
    push_rows(&mut out, &tables::DIFF_TMCC_M2);
    push_rows(&mut out, &tables::DIFF_TMCC_M3);
    push_rows(&mut out, &tables::COH_AC1_M1);
    push_rows(&mut out, &tables::COH_AC1_M2);
    push_rows(&mut out, &tables::COH_AC1_M3);
    push_rows(&mut out, &tables::COH_TMCC_M1);
    push_rows(&mut out, &tables::COH_TMCC_M2);
    push_rows(&mut out, &tables::COH_TMCC_M3);
    for states in [
        tables::PRBS_INIT_M1,
        tables::PRBS_INIT_M2,
        tables::PRBS_INIT_M3,
    ] {
        push_u16(&mut out, states.map(first_state));
    }
    push_u16(&mut out, tables::CARRIER_RANDOMIZE_M1.map(usize::from));
    push_u16(&mut out, tables::CARRIER_RANDOMIZE_M2.map(usize::from));
    push_u16(&mut out, tables::CARRIER_RANDOMIZE_M3.map(usize::from));
    out
}

/// A first state as a binary number, D1 its highest digit.
fn first_state(digits: &str) -> usize {
    usize::from_str_radix(digits, 2).expect("a first state has binary digits")
}

fn print_lines(lines: impl IntoIterator<Item = Vec<u8>>) -> io::Result<()> {
    let mut out = Vec::new();
    for line in lines {
        out.extend(line);
        out.push(b'\n');
    }
    io::stdout().write_all(&out)
}

fn print_answers() -> io::Result<()> {
    let mut input = Vec::new();
    io::stdin().read_to_end(&mut input)?;
    let mut out = io::BufWriter::new(io::stdout());
    for line in lines(&input) {
        out.write_all(answer(line).as_bytes())?;
    }
    out.flush()
}

fn main() -> ExitCode {
    let (task, seed) = task();
    let mut rng = Rng::new(seed);
    let done = match task {
        Task::Operations(path) => fs::write(path, ops::stored(seed)),
        Task::Tables(path) => fs::write(path, tables()),
        Task::Lines(count) => print_lines((0..count).map(|_| random_question(&mut rng))),
        Task::AllLines => print_lines(every_question()),
        Task::Answers => print_answers(),
    };
    match done {
        Ok(()) => ExitCode::SUCCESS,
        Err(error) => {
            eprintln!("could not write: {error}");
            ExitCode::FAILURE
        }
    }
}

#[cfg(test)]
mod tests {
    use super::*;
    use std::path::Path;

    #[test]
    fn files_of_the_repository_are_what_is_written() {
        let read = |name: &str| {
            let path = Path::new(env!("CARGO_MANIFEST_DIR")).join("..").join(name);
            fs::read(path).expect("the file can be read")
        };
        let answers = |questions: &str| -> Vec<u8> {
            let text: String = lines(&read(questions)).into_iter().map(answer).collect();
            text.into_bytes()
        };
        for (name, written) in [
            ("crates/replay_operations/stdin", ops::stored(1)),
            ("crates/replay_tables/stdin", tables()),
            ("crates/segments/stdout", answers("crates/segments/stdin")),
            ("examples/licensed.out", answers("examples/licensed.txt")),
        ] {
            assert!(read(name) == written, "{name} is not what store writes");
        }
    }

    #[test]
    fn tables_have_every_entry() {
        // 195 rows with their counts, 1326 entries, 39 first states, 672 randomizing entries.
        assert_eq!(tables().len(), 195 + 2 * (1326 + 39 + 672));
        assert_eq!(first_state("10000000000"), 1024);
    }
}
