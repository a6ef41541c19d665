//! How long a call takes, and the rows of the table that says so.

use std::fmt::{self, Display, Formatter};
use std::time::{Duration, Instant};

/// How much is measured.
#[derive(Debug, Clone, Copy)]
pub struct Effort {
    /// Number of rounds of each, of which the median is taken.
    pub rounds: usize,
    /// How long a round takes at least.
    pub round: Duration,
    /// How many calls a round has at least.
    pub calls: usize,
}

/// Nanoseconds per call of the port and of the Rust.
#[derive(Debug, Clone, Copy)]
pub struct Times {
    pub port: f64,
    pub rust: f64,
    /// The port's time divided by the Rust's.
    pub ratio: f64,
}

impl Times {
    /// The times of each of `parts` like parts of a call.
    pub fn per(self, parts: usize) -> Self {
        let parts = parts as f64;
        Self {
            port: self.port / parts,
            rust: self.rust / parts,
            ratio: self.ratio,
        }
    }
}

/// Times both in turn, a round of the one and then a round of the other, so that what else the machine
/// does falls on both. A time is the median of the rounds; the ratio is the median of the ratios of the
/// two rounds of a turn. Each call is given its number.
pub fn time(effort: &Effort, mut port: impl FnMut(usize), mut rust: impl FnMut(usize)) -> Times {
    let ports = calls_in(effort, &mut port);
    let rusts = calls_in(effort, &mut rust);
    let turns: Vec<(f64, f64)> = (0..effort.rounds)
        .map(|_| (per_call(ports, &mut port), per_call(rusts, &mut rust)))
        .collect();
    Times {
        port: median(turns.iter().map(|(port, _)| *port)),
        rust: median(turns.iter().map(|(_, rust)| *rust)),
        ratio: median(turns.iter().map(|(port, rust)| port / rust)),
    }
}

/// The one in the middle.
fn median(numbers: impl Iterator<Item = f64>) -> f64 {
    let mut numbers: Vec<f64> = numbers.collect();
    numbers.sort_by(f64::total_cmp);
    numbers[numbers.len() / 2]
}

/// How many calls fill a round. Finding it out also warms up.
fn calls_in(effort: &Effort, call: &mut impl FnMut(usize)) -> usize {
    let mut calls = effort.calls;
    while run(calls, call) < effort.round {
        calls *= 2;
    }
    calls
}

fn run(calls: usize, call: &mut impl FnMut(usize)) -> Duration {
    let start = Instant::now();
    (0..calls).for_each(call);
    start.elapsed()
}

/// Nanoseconds per call of a round of so many.
fn per_call(calls: usize, call: &mut impl FnMut(usize)) -> f64 {
    run(calls, call).as_nanos() as f64 / calls as f64
}

/// The head of the table.
pub const HEAD: &str = "\
| operation | beside | port, ns a call | that, ns a call | port / that |
|---|---|---:|---:|---:|";

/// A row of the table: the port beside the Rust, or beside another way to the same answer.
#[derive(Debug)]
pub struct Row {
    /// The operation and what it is given.
    pub operation: String,
    /// What is timed beside it: a part of the Rust, where nothing else is said.
    pub part: &'static str,
    /// How long both take.
    pub times: Times,
}

impl Display for Row {
    fn fmt(&self, f: &mut Formatter) -> fmt::Result {
        let (operation, part) = (&self.operation, self.part);
        let Times { port, rust, ratio } = self.times;
        let (port, rust) = (nanoseconds(port), nanoseconds(rust));
        let ratio = two_decimals(ratio);
        write!(f, "| {operation} | {part} | {port} | {rust} | {ratio} |")
    }
}

/// Three digits below 100, whole numbers from there on, a comma from 10,000 on.
fn nanoseconds(time: f64) -> String {
    let short = [2, 1].map(|decimals| format!("{time:.decimals$}"));
    if let Some(text) = short.into_iter().find(|text| text.len() <= "10.0".len()) {
        return text;
    }
    match time.round() as usize {
        whole @ ..10_000 => whole.to_string(),
        whole => thousands(whole),
    }
}

/// Two decimals, and three below 0.1.
fn two_decimals(ratio: f64) -> String {
    let decimals = if ratio < 0.1 { 3 } else { 2 };
    format!("{ratio:.decimals$}")
}

/// A number, its thousands set off by commas.
pub fn thousands(number: usize) -> String {
    if number < 1000 {
        return number.to_string();
    }
    format!("{},{:03}", thousands(number / 1000), number % 1000)
}

#[cfg(test)]
mod tests {
    use super::*;

    #[test]
    fn thousands_have_a_comma() {
        assert_eq!(thousands(0), "0");
        assert_eq!(thousands(999), "999");
        assert_eq!(thousands(1024), "1,024");
        assert_eq!(thousands(150_000), "150,000");
        assert_eq!(thousands(40_000_007), "40,000,007");
    }

    #[test]
    fn short_times_have_three_digits() {
        assert_eq!(nanoseconds(0.254), "0.25");
        assert_eq!(nanoseconds(2.0), "2.00");
        assert_eq!(nanoseconds(9.994), "9.99");
        assert_eq!(nanoseconds(9.996), "10.0");
        assert_eq!(nanoseconds(19.23), "19.2");
        assert_eq!(nanoseconds(99.94), "99.9");
        assert_eq!(nanoseconds(99.96), "100");
    }

    #[test]
    fn long_times_are_whole() {
        assert_eq!(nanoseconds(100.4), "100");
        assert_eq!(nanoseconds(2451.6), "2452");
        assert_eq!(nanoseconds(9999.4), "9999");
        assert_eq!(nanoseconds(9999.6), "10,000");
        assert_eq!(nanoseconds(105_457.2), "105,457");
        assert_eq!(nanoseconds(40_000_000.0), "40,000,000");
    }

    #[test]
    fn small_ratios_have_three_decimals() {
        assert_eq!(two_decimals(0.0233), "0.023");
        assert_eq!(two_decimals(0.0996), "0.100");
        assert_eq!(two_decimals(0.1), "0.10");
        assert_eq!(two_decimals(8.456), "8.46");
        assert_eq!(two_decimals(12.0), "12.00");
    }

    #[test]
    fn medians_are_of_the_sorted_numbers() {
        assert_eq!(median([3.0, 1.0, 2.0].into_iter()), 2.0);
        assert_eq!(median([5.0, 1.0, 4.0, 9.0, 2.0].into_iter()), 4.0);
    }

    #[test]
    fn both_sides_are_timed() {
        let effort = Effort {
            rounds: 3,
            round: Duration::from_millis(1),
            calls: 1,
        };
        let (mut ports, mut rusts) = (0, 0);
        let times = time(&effort, |_| ports += 1, |_| rusts += 1);
        assert!(times.port > 0.0 && times.rust > 0.0 && times.ratio > 0.0);
        assert!(ports >= 4 && rusts >= 4);
        let tenth = times.per(10);
        assert_eq!(tenth.port * 10.0, times.port);
        assert_eq!(tenth.ratio, times.ratio);
    }

    #[test]
    fn rows_have_the_columns_of_the_head() {
        let row = Row {
            operation: "role map, mode 3".to_string(),
            part: "`.roles(phase)` alone",
            times: Times {
                port: 2452.0,
                rust: 105_457.0,
                ratio: 0.0233,
            },
        };
        let line = "| role map, mode 3 | `.roles(phase)` alone | 2452 | 105,457 | 0.023 |";
        assert_eq!(row.to_string(), line);
        let columns = |line: &str| line.matches('|').count();
        assert!(HEAD.lines().all(|head| columns(head) == columns(line)));
    }
}
