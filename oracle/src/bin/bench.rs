//! Times the proved port beside the Rust: same driver, same inputs, rounds that take turns. One
//! table has the rows of all operations.

use oracle::harness::args::Args;
use oracle::harness::timing::{Effort, HEAD};
use oracle::ops::{self, OPERATIONS, Operation};
use std::fs;
use std::time::{Duration, SystemTime, UNIX_EPOCH};

const USAGE: &str = "\
bench: time the proved port beside the Rust

  --quick      fewer and shorter rounds
  --only NAME  nothing but the rows of one part: layout, floats, acquisition or grid; or of one
               operation, by the name of its C function without the prefix
  --help       this text";

/// Calls of a round, at least.
const CALLS: usize = 32;

const FULL: Effort = Effort {
    rounds: 11,
    round: Duration::from_millis(50),
    calls: CALLS,
};
const QUICK: Effort = Effort {
    rounds: 5,
    round: Duration::from_millis(10),
    calls: CALLS,
};

struct Options {
    effort: Effort,
    operations: Vec<Operation>,
}

fn options() -> Options {
    let mut args = Args::new(USAGE);
    let mut options = Options {
        effort: FULL,
        operations: OPERATIONS.to_vec(),
    };
    while let Some(word) = args.next_word() {
        match word.as_str() {
            "--quick" => options.effort = QUICK,
            "--only" => options.operations = ops::only(&mut args),
            _ => args.fail(format!("unknown word {word}")),
        }
    }
    options
}

/// The processor's name, as Linux tells it.
fn processor() -> String {
    let info = fs::read_to_string("/proc/cpuinfo").unwrap_or_default();
    let name = info
        .lines()
        .filter_map(|line| line.split_once(':'))
        .find(|(key, _)| key.trim() == "model name");
    match name {
        Some((_, name)) => name.trim().to_string(),
        None => "unknown".to_string(),
    }
}

/// The date in UTC, from the days since 1970.
fn date() -> String {
    let now = SystemTime::now().duration_since(UNIX_EPOCH);
    let mut days = now.map_or(0, |since| since.as_secs()) / 86_400;
    let mut year = 1970;
    while days >= days_in_year(year) {
        days -= days_in_year(year);
        year += 1;
    }
    let mut month = 1;
    while days >= days_in_month(year, month) {
        days -= days_in_month(year, month);
        month += 1;
    }
    format!("{year}-{month:02}-{:02}", days + 1)
}

fn is_leap(year: u64) -> bool {
    year.is_multiple_of(4) && (!year.is_multiple_of(100) || year.is_multiple_of(400))
}

fn days_in_year(year: u64) -> u64 {
    365 + u64::from(is_leap(year))
}

fn days_in_month(year: u64, month: u64) -> u64 {
    match month {
        2 => 28 + u64::from(is_leap(year)),
        4 | 6 | 9 | 11 => 30,
        _ => 31,
    }
}

fn main() {
    let options = options();
    println!("{}, {}\n\n{HEAD}", processor(), date());
    for operation in &options.operations {
        for row in (operation.bench)(&options.effort) {
            println!("{row}");
        }
    }
}

#[cfg(test)]
mod tests {
    use super::*;

    #[test]
    fn calendar() {
        assert!(is_leap(2000) && is_leap(2024) && !is_leap(2100) && !is_leap(2026));
        assert_eq!((1..=12).map(|m| days_in_month(2026, m)).sum::<u64>(), 365);
    }
}
