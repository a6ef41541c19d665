//! Compares the proved port with the Rust, operation by operation: every layout, every bin, every
//! refusal at its boundary, random calls, the functions of floats, acquisition, the grid, and the
//! program `segments`. Of acquisition it also compares the port with itself, on changed captures, and
//! of the angle on changed pairs. Where a norm is taken, and of the fractional offset, it counts the
//! departures of the untouched Rust.

use oracle::harness::args::Args;
use oracle::harness::run::Plan;
use oracle::harness::tally::{Farthest, NansLeft, Provisos, Row, print_table};
use oracle::ops::angle::{ASKED, LIMIT};
use oracle::ops::{self, OPERATIONS, Operation};
use std::process::ExitCode;
use std::time::Instant;

const USAGE: &str = "\
compare: the proved port beside the Rust

  --quick     fewer random floats and captures, and the single carriers of every 17th layout
              instead of all; everything else the same
  --seed N    seed of the random calls, the random floats and the damaged lines (default 1)
  --cases N   random calls of each operation (default 4096); of the carrier role five times as
              many, since at least 20,000 are asked for
  --floats N  random inputs of each function of floats, and changed pairs of the angle (default
              100,000,000; with --quick 15,000,000)
  --captures N
              random calls of each operation of acquisition and of the grid, changed captures of
              each operation of acquisition, and partly silent captures of the pilot phase
              (default 20,000; with --quick 4,000)
  --only NAME nothing but one part: layout, floats, acquisition, grid or segments; or one
              operation, by the name of its C function without the prefix
  --help      this text

Environment: SILLURWY_SEGMENTS is the path of the program segments.
Exit status: 0 no difference; 1 a difference; 2 bad usage, or the program could not be run. A
departure of the untouched Rust, whose norms are hypot and whose angle is atan2, is no difference.";

/// Random inputs of each function of floats, unless `--floats` is given.
const FLOATS: u64 = 100_000_000;
/// The same with `--quick`.
const QUICK_FLOATS: u64 = 15_000_000;
/// Random calls of each operation of acquisition and of the grid, unless `--captures` is given.
const CAPTURES: usize = 20_000;
/// The same with `--quick`.
const QUICK_CAPTURES: usize = 4000;
/// Every layout's carriers are looked up one by one.
const SPREAD: usize = 1;
/// With `--quick` those of every 17th layout. Kinds and phases come round after powers of two, which
/// have no factor in common with 17: each segment has either kind in each phase.
const QUICK_SPREAD: usize = 17;

struct Options {
    plan: Plan,
    operations: Vec<Operation>,
}

fn options() -> Options {
    let mut args = Args::new(USAGE);
    let mut plan = Plan {
        seed: 1,
        calls: 4096,
        floats: FLOATS,
        captures: CAPTURES,
        spread: SPREAD,
    };
    let mut operations = OPERATIONS.to_vec();
    let (mut floats, mut captures) = (None, None);
    while let Some(word) = args.next_word() {
        match word.as_str() {
            "--quick" => {
                (plan.floats, plan.captures) = (QUICK_FLOATS, QUICK_CAPTURES);
                plan.spread = QUICK_SPREAD;
            }
            "--seed" => plan.seed = args.number("--seed"),
            "--cases" => plan.calls = args.number("--cases") as usize,
            "--floats" => floats = Some(args.number("--floats")),
            "--captures" => captures = Some(args.number("--captures") as usize),
            "--only" => operations = ops::only(&mut args),
            _ => args.fail(format!("unknown word {word}")),
        }
    }
    plan.floats = floats.unwrap_or(plan.floats);
    plan.captures = captures.unwrap_or(plan.captures);
    Options { plan, operations }
}

impl Options {
    /// How many random cases were given to the parts that ran, and to single operations.
    fn counts(&self) -> String {
        let Plan {
            calls,
            floats,
            captures,
            spread,
            ..
        } = self.plan;
        let layouts = match spread {
            1 => "all layouts".to_string(),
            _ => format!("one layout in {spread}"),
        };
        let given = [
            (
                "layout",
                format!(
                    ", {calls} random calls of each operation of the layout (of the carrier role \
                     five times as many, and every carrier of {layouts})"
                ),
            ),
            (
                "floats",
                format!(", {floats} random inputs of each function of floats"),
            ),
            (
                "acquisition",
                format!(
                    ", {captures} random calls and changed captures of each operation of \
                     acquisition"
                ),
            ),
            (
                "detect_sp_phase",
                ", and as many partly silent ones of the pilot phase".to_string(),
            ),
            ("grid", format!(", {captures} random calls of the grid")),
        ];
        let ran = |name: &str| {
            let mut rows = self.operations.iter();
            rows.any(|row| row.part == name || row.name == name)
        };
        let counts = given.into_iter().filter(|(name, _)| ran(name));
        counts.map(|(_, count)| count).collect()
    }
}

/// The rows of all operations, part by part. How long a part takes is said as it ends.
fn compare(options: &Options) -> Vec<Row> {
    let mut rows = Vec::new();
    for part in options.operations.chunk_by(|a, b| a.part == b.part) {
        let start = Instant::now();
        for operation in part {
            rows.extend((operation.compare)(&options.plan));
        }
        let seconds = start.elapsed().as_secs_f64();
        eprintln!("{} took {seconds:.1} s", part[0].part);
    }
    rows
}

/// Prints how many moved captures met their proviso, where there were any.
fn print_provisos(rows: &[Row]) {
    let Provisos { asked, met } = Provisos::sum(rows);
    if asked > 0 {
        println!("\n{met} of {asked} moved captures met the proviso of the shift");
    }
}

/// Prints how many NaNs had to be left, where any were lent.
fn print_nans_left(rows: &[Row]) {
    let nans = NansLeft::sum(rows);
    if nans != NansLeft::default() {
        let NansLeft { refused, accepted } = nans;
        println!(
            "\nNaNs that were lent and had to be left, compared by their bytes: {refused} after \
             refusals, {accepted} after accepted calls"
        );
    }
}

/// Prints how far the angle and the fractional offset were from those of `atan2`, where they were asked.
fn print_farthest(rows: &[Row]) {
    let farthest = |row: &Row| {
        let Farthest { distance, at } = row.farthest()?;
        Some(format!("  {}: {distance:.6}, at {at}", row.name()))
    };
    let lines: Vec<String> = rows.iter().filter_map(farthest).collect();
    if !lines.is_empty() {
        println!(
            "\nfarthest from `atan2`, in 1/65536 of a turn round the circle; more than {LIMIT} is a \
             difference, and {ASKED} are allowed:\n{}",
            lines.join("\n")
        );
    }
}

fn main() -> ExitCode {
    let options = options();
    let (rows, not_run): (Vec<Row>, Vec<Row>) = compare(&options)
        .into_iter()
        .partition(|row| row.failure().is_none());
    let differences = print_table(&rows);
    print_provisos(&rows);
    print_nans_left(&rows);
    print_farthest(&rows);
    println!(
        "\nseed {}{}, {differences} differences",
        options.plan.seed,
        options.counts()
    );
    for why in not_run.iter().filter_map(Row::failure) {
        eprintln!("{why}");
    }
    if not_run.is_empty() {
        ExitCode::from(u8::from(differences > 0))
    } else {
        ExitCode::from(2)
    }
}

#[cfg(test)]
mod tests {
    use super::*;
    use oracle::codes::kind_bytes;
    use oracle::inputs::layouts;
    use std::collections::BTreeSet;

    /// How many random cases are given to a part or an operation, as the last line has it.
    fn counts(name: &str) -> String {
        let rows = OPERATIONS.iter().copied();
        let options = Options {
            plan: Plan {
                seed: 1,
                calls: 2,
                floats: 3,
                captures: 4,
                spread: SPREAD,
            },
            operations: rows
                .filter(|row| row.part == name || row.name == name)
                .collect(),
        };
        options.counts()
    }

    #[test]
    fn partly_silent_captures_are_counted_where_there_are_such() {
        let all = ", 4 random calls and changed captures of each operation of acquisition";
        let partly_silent = ", and as many partly silent ones of the pilot phase";
        assert_eq!(counts("integer_cfo"), all);
        for name in ["acquisition", "detect_sp_phase"] {
            assert_eq!(counts(name), [all, partly_silent].concat());
        }
        assert_eq!(counts("grid"), ", 4 random calls of the grid");
    }

    #[test]
    fn the_quick_spread_meets_either_kind_of_each_segment_in_each_mode_and_phase() {
        let mut met = BTreeSet::new();
        for index in (0..layouts::WITH_PHASES).step_by(QUICK_SPREAD) {
            let (layout, choice, phase) = layouts::with_phase(index);
            let kinds = kind_bytes(choice).into_iter().enumerate();
            met.extend(kinds.map(|(segment, kind)| (layout.mode.number(), phase, segment, kind)));
        }
        assert_eq!(met.len(), 3 * 4 * 13 * 2);
    }
}
