//! Counting cases and differences, over several threads, and the table that is printed.

use super::outcome::Outcome;
use std::fmt::Display;
use std::sync::atomic::{AtomicUsize, Ordering};
use std::thread;

/// NaNs that were lent and had to be left as they were: how many were compared by their bytes.
#[derive(Debug, Clone, Copy, Default, PartialEq, Eq)]
pub struct NansLeft {
    /// After refusals.
    pub refused: u64,
    /// After accepted calls.
    pub accepted: u64,
}

impl NansLeft {
    fn add(&mut self, other: Self) {
        self.refused += other.refused;
        self.accepted += other.accepted;
    }

    /// The sum over the rows of a table.
    pub fn sum(rows: &[Row]) -> Self {
        let mut total = Self::default();
        rows.iter().for_each(|row| total.add(row.nans_left));
        total
    }
}

/// The largest distance that was met of a result from what it had to come near.
#[derive(Debug, Clone, PartialEq)]
pub struct Farthest {
    /// The distance.
    pub distance: f64,
    /// The input.
    pub at: String,
}

/// What came of a number of cases whose inputs are of type `K`.
#[derive(Debug)]
pub struct Tally<K> {
    cases: u64,
    refused: u64,
    differences: u64,
    departures: Option<u64>,
    nans_left: NansLeft,
    farthest: Option<Farthest>,
    smallest: Option<(K, String)>,
}

impl<K> Default for Tally<K> {
    fn default() -> Self {
        Self {
            cases: 0,
            refused: 0,
            differences: 0,
            departures: None,
            nans_left: NansLeft::default(),
            farthest: None,
            smallest: None,
        }
    }
}

impl<K: Ord + Display> Tally<K> {
    /// Counts a case. `input` is asked for only where there is a difference.
    pub fn count(&mut self, refused: bool, difference: Option<String>, input: impl FnOnce() -> K) {
        self.cases += 1;
        self.refused += u64::from(refused);
        if let Some(found) = difference {
            self.differences += 1;
            self.keep_smaller(input(), found);
        }
    }

    /// Counts what came of a call.
    pub fn count_outcome(&mut self, outcome: Outcome, call: impl FnOnce() -> K) {
        self.count(outcome.refused, outcome.difference, call);
        self.count_departure(outcome.departs);
        self.count_nans_left(outcome.refused, outcome.nans_left);
        self.add_farthest(outcome.farthest);
    }

    /// Counts a departure of the untouched Rust, which is no difference, or that there is none; a row
    /// of which nothing is counted shows that it was not asked.
    pub fn count_departure(&mut self, departs: Option<bool>) {
        self.add_departures(departs.map(u64::from));
    }

    fn add_departures(&mut self, more: Option<u64>) {
        if let Some(more) = more {
            *self.departures.get_or_insert(0) += more;
        }
    }

    /// Counts NaNs that a call was lent and had to leave.
    pub fn count_nans_left(&mut self, refused: bool, more: u64) {
        if refused {
            self.nans_left.refused += more;
        } else {
            self.nans_left.accepted += more;
        }
    }

    /// Counts how far a result is from what it had to come near. `at` is asked for only where it is the
    /// farthest so far.
    pub fn count_distance(&mut self, distance: f64, at: impl FnOnce() -> String) {
        let met = self.farthest.as_ref().map(|met| met.distance);
        if met.is_none_or(|met| distance > met) {
            let at = at();
            self.farthest = Some(Farthest { distance, at });
        }
    }

    /// Of equal distances the lower words stay, so that the order of the threads does not show.
    fn add_farthest(&mut self, other: Option<Farthest>) {
        let Some(other) = other else { return };
        let farther = self.farthest.as_ref().is_none_or(|met| {
            let lower = other.distance == met.distance && other.at < met.at;
            other.distance > met.distance || lower
        });
        if farther {
            self.farthest = Some(other);
        }
    }

    /// Adds what another tally counted.
    pub fn add(&mut self, other: Self) {
        self.cases += other.cases;
        self.refused += other.refused;
        self.differences += other.differences;
        self.add_departures(other.departures);
        self.nans_left.add(other.nans_left);
        self.add_farthest(other.farthest);
        if let Some((input, found)) = other.smallest {
            self.keep_smaller(input, found);
        }
    }

    /// The sum of tallies.
    pub fn sum(parts: impl IntoIterator<Item = Self>) -> Self {
        let mut total = Self::default();
        parts.into_iter().for_each(|part| total.add(part));
        total
    }

    fn keep_smaller(&mut self, input: K, found: String) {
        let smaller = match &self.smallest {
            Some((kept, _)) => input < *kept,
            None => true,
        };
        if smaller {
            self.smallest = Some((input, found));
        }
    }

    /// Puts a simpler input in the place of the smallest failing one.
    pub fn simplify(&mut self, simpler: impl FnOnce(K, String) -> (K, String)) {
        self.smallest = self
            .smallest
            .take()
            .map(|(input, found)| simpler(input, found));
    }

    /// The row of the table.
    pub fn row(self, name: impl Into<String>) -> Row {
        Row {
            name: name.into(),
            cases: self.cases,
            refused: self.refused,
            differences: self.differences,
            departures: self.departures,
            nans_left: self.nans_left,
            farthest: self.farthest,
            provisos: Provisos::default(),
            failure: None,
            smallest: self
                .smallest
                .map(|(input, found)| format!("{input}\n    {found}")),
        }
    }
}

/// A row of the table.
#[derive(Debug)]
pub struct Row {
    name: String,
    cases: u64,
    refused: u64,
    differences: u64,
    departures: Option<u64>,
    nans_left: NansLeft,
    farthest: Option<Farthest>,
    provisos: Provisos,
    failure: Option<String>,
    smallest: Option<String>,
}

/// How many cases have a proviso, and how many of them meet it.
#[derive(Debug, Clone, Copy, Default, PartialEq, Eq)]
pub struct Provisos {
    /// Cases with a proviso.
    pub asked: u64,
    /// Those that meet it.
    pub met: u64,
}

impl Provisos {
    /// The sum over the rows of a table.
    pub fn sum(rows: &[Row]) -> Self {
        Self {
            asked: rows.iter().map(|row| row.provisos.asked).sum(),
            met: rows.iter().map(|row| row.provisos.met).sum(),
        }
    }
}

impl Row {
    /// The row of a claim, some of whose cases have a proviso.
    pub fn with_provisos(self, provisos: Provisos) -> Self {
        Self { provisos, ..self }
    }

    /// No row: what should have been compared could not be run.
    pub fn not_run(why: String) -> Self {
        Self {
            failure: Some(why),
            ..Tally::<u8>::default().row("")
        }
    }

    /// Why nothing could be compared.
    pub fn failure(&self) -> Option<&str> {
        self.failure.as_deref()
    }

    /// Its words.
    pub fn name(&self) -> &str {
        &self.name
    }

    /// How many cases have a proviso, and meet it.
    pub fn provisos(&self) -> Provisos {
        self.provisos
    }

    /// How many cases there were.
    pub fn cases(&self) -> u64 {
        self.cases
    }

    /// How many of them differed.
    pub fn differences(&self) -> u64 {
        self.differences
    }

    /// In how many of them the untouched Rust departs; none where it was not asked.
    pub fn departures(&self) -> Option<u64> {
        self.departures
    }

    /// How many NaNs were lent that had to be left.
    pub fn nans_left(&self) -> NansLeft {
        self.nans_left
    }

    /// The largest distance of a result from what it had to come near; none where nothing had to.
    pub fn farthest(&self) -> Option<&Farthest> {
        self.farthest.as_ref()
    }

    /// The smallest failing input and what was found.
    pub fn smallest(&self) -> Option<&str> {
        self.smallest.as_deref()
    }
}

/// Why there is no number of departures.
const NOT_ASKED: &str = "not asked. Where no norm is taken, the untouched Rust is the oracle itself, but \
                         for the angle, which it has not as a whole number; changed captures and \
                         changed pairs compare the port with itself.";

/// Prints the table and the smallest failing inputs. Gives the number of differences.
pub fn print_table(rows: &[Row]) -> u64 {
    println!("| operation | cases | refused | differences | departures of the untouched Rust |");
    println!("|---|---:|---:|---:|---:|");
    for row in rows {
        let (name, cases) = (&row.name, row.cases);
        let departures = row.departures.map_or("-".into(), |count| count.to_string());
        println!(
            "| {name} | {cases} | {} | {} | {departures} |",
            row.refused, row.differences
        );
    }
    if rows.iter().any(|row| row.departures.is_none()) {
        println!("\n-: {NOT_ASKED}");
    }
    for row in rows {
        if let Some(smallest) = &row.smallest {
            println!(
                "\nsmallest failing input of \"{}\":\n  {smallest}",
                row.name
            );
        }
    }
    rows.iter().map(|row| row.differences).sum()
}

/// Runs jobs 0 to `jobs` − 1 on all processors and gathers what they give.
pub fn on_all_processors<T: Send>(jobs: usize, job: impl Fn(usize) -> T + Sync) -> Vec<T> {
    let workers = thread::available_parallelism().map_or(1, usize::from);
    let next = AtomicUsize::new(0);
    let work = || {
        let mut done = Vec::new();
        loop {
            let index = next.fetch_add(1, Ordering::Relaxed);
            if index >= jobs {
                return done;
            }
            done.push(job(index));
        }
    };
    thread::scope(|scope| {
        let handles: Vec<_> = (0..workers).map(|_| scope.spawn(work)).collect();
        let parts = handles.into_iter().map(|handle| handle.join());
        parts
            .flat_map(|part| part.expect("a worker does not panic"))
            .collect()
    })
}

#[cfg(test)]
mod tests {
    use super::*;

    #[test]
    fn keeps_the_smallest_failing_input() {
        let mut tally = Tally::default();
        for (input, fails) in [(5, true), (1, false), (3, true), (9, true)] {
            tally.count(false, fails.then(|| format!("bad {input}")), || input);
        }
        assert_eq!((tally.cases, tally.differences), (4, 3));
        assert_eq!(tally.smallest, Some((3, "bad 3".to_string())));
    }

    #[test]
    fn departures_are_no_differences() {
        let mut asked = Tally::<u8>::default();
        for departs in [true, false, true] {
            asked.count(false, None, || 0);
            asked.count_departure(Some(departs));
        }
        let mut other = Tally::default();
        other.count(false, None, || 0);
        other.count_departure(None);
        assert_eq!(other.departures, None);
        let row = Tally::sum([asked, other]).row("sum");
        assert_eq!((row.cases(), row.differences()), (4, 0));
        assert_eq!((row.departures(), row.smallest()), (Some(2), None));
    }

    #[test]
    fn nans_add_up() {
        let mut parts = [Tally::<u8>::default(), Tally::default()];
        parts[0].count_nans_left(true, 3);
        parts[0].count_nans_left(false, 4);
        parts[1].count_nans_left(true, 5);
        let rows = [Tally::sum(parts).row("sum"), Tally::<u8>::default().row("")];
        let (refused, accepted) = (8, 4);
        assert_eq!(NansLeft::sum(&rows), NansLeft { refused, accepted });
        assert_eq!(rows[0].nans_left(), NansLeft::sum(&rows));
    }

    #[test]
    fn keeps_the_largest_distance() {
        let mut parts = [Tally::<u8>::default(), Tally::default()];
        for (distance, at) in [(0.5, "b"), (0.25, "a"), (0.5, "a")] {
            parts[0].count_distance(distance, || at.to_string());
        }
        parts[1].count_distance(0.5, || "a".to_string());
        let row = Tally::sum(parts).row("sum");
        let (distance, at) = (0.5, "a".to_string());
        assert_eq!(row.farthest(), Some(&Farthest { distance, at }));
        assert_eq!(Tally::<u8>::default().row("").farthest(), None);
    }

    #[test]
    fn every_job_runs_once() {
        let mut done = on_all_processors(100, |index| index);
        done.sort_unstable();
        assert_eq!(done, (0..100).collect::<Vec<_>>());
    }
}
