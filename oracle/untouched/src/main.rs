//! Counts where the untouched Rust departs from the oracle, and prints tables and smallest inputs.

use oracle::harness::args::Args;
use oracle::ops::detect_kinds::KindsCall;
use oracle::ops::detect_mode::GuessCall;
use oracle::ops::detect_sp_phase::PhaseCall;
use oracle::ops::estimate_grid::GridCall;
use oracle::ops::integer_cfo::ShiftCall;
use oracle::ops::tmcc_soft::TmccCall;
use std::time::Instant;
use untouched::by_hand;
use untouched::count::{Counted, Row};
use untouched::held::{Departs, Held};
use untouched::norms::{self, Norm, Norms};

const USAGE: &str = "\
run: count where the untouched Rust, on num-complex, departs from the oracle

  --seed N    seed of the random inputs (default 1)
  --cases N   random calls of each operation (default 20,000); they are those that
              oracle/compare makes with this seed and this --captures
  --norms N   random pairs of each class for the norms alone (default 1,000,000), ten
              times as many of the comparison's classes
  --help      this text

A departure is no failure: the exit status is 0.";

struct Options {
    seed: u64,
    cases: usize,
    norms: u64,
}

fn options() -> Options {
    let mut args = Args::new(USAGE);
    let mut options = Options {
        seed: 1,
        cases: 20_000,
        norms: 1_000_000,
    };
    while let Some(word) = args.next_word() {
        match word.as_str() {
            "--seed" => options.seed = args.number("--seed"),
            "--cases" => options.cases = args.number("--cases") as usize,
            "--norms" => options.norms = args.number("--norms"),
            _ => args.fail(format!("unknown word {word}")),
        }
    }
    options
}

/// Streams of random numbers: those of the norms. Random calls have those of the comparison.
mod stream {
    pub const WHOLE: u64 = 700;
    pub const FINITE: u64 = 710;
    pub const NEAREST: u64 = 720;
    pub const HARD: u64 = 730;
}

/// The text of the smallest departing calls of an operation.
fn smallest<C: Held>(counted: &Counted<C>) -> String {
    let text = |((kind, departs), (call, found)): (&(_, _), &(C, String))| {
        let what = match departs {
            Departs::Answer => "answer",
            Departs::Float => "floats only",
        };
        format!("\n{kind}, {what}:\n  {call}\n    {found}\n")
    };
    counted.smallest.iter().map(text).collect()
}

/// Prints the rows of an operation and gives the text of its smallest departing calls.
fn random_calls<C: Held>(options: &Options) -> String {
    let counted = Counted::<C>::random(options.seed, options.cases);
    for (kind, row) in &counted.rows {
        let (cases, answer, float) = (row.cases, row.answer, row.float);
        println!("| {} | {kind} | {cases} | {answer} | {float} |", C::TITLE);
    }
    println!("| {} | refused | {} | – | – |", C::TITLE, counted.refused);
    smallest(&counted)
}

/// The same for calls with a pair of an infinity and a NaN. There are fewer of them.
fn odd_calls<C: Held>(options: &Options) -> String {
    let counted = Counted::<C>::with_odd_pair(options.seed, options.cases / 10);
    let sum = |of: fn(&Row) -> u64| counted.rows.values().map(of).sum::<u64>();
    println!(
        "| {} | {} | {} | {} |",
        C::TITLE,
        sum(|row| row.cases),
        sum(|row| row.answer),
        sum(|row| row.float)
    );
    smallest(&counted)
}

/// The random calls of all operations: counts first, then the smallest departing calls.
fn all_random_calls(options: &Options) {
    println!("| operation | kind of input | cases | answer departs | only floats depart |");
    println!("|---|---|---:|---:|---:|");
    let smallest = [
        random_calls::<GuessCall>(options),
        random_calls::<ShiftCall>(options),
        random_calls::<KindsCall>(options),
        random_calls::<PhaseCall>(options),
        random_calls::<TmccCall>(options),
        random_calls::<GridCall>(options),
    ];
    println!("\nSmallest departing calls found, by operation, kind of input and what departs:");
    println!("{}", smallest.concat());
}

/// The same with a pair of an infinity and a NaN put into each call.
fn all_odd_calls(options: &Options) {
    println!("The first tenth of these calls, with one pair of an infinity and a NaN put in:\n");
    println!("| operation | cases | answer departs | only floats depart |");
    println!("|---|---:|---:|---:|");
    let smallest = [
        odd_calls::<GuessCall>(options),
        odd_calls::<ShiftCall>(options),
        odd_calls::<KindsCall>(options),
        odd_calls::<PhaseCall>(options),
        odd_calls::<TmccCall>(options),
        odd_calls::<GridCall>(options),
    ];
    println!("\nSmallest departing calls found:\n{}", smallest.concat());
}

/// A call made by hand, and both answers.
fn by_hand<C: Held>(call: &C) {
    let Ok(both) = call.held() else {
        return println!("{call}\n    refused");
    };
    let what = match both.departs() {
        Some(Departs::Answer) => "the answer departs",
        Some(Departs::Float) => "only floats depart",
        None => "nothing departs",
    };
    println!("{call}: {what}\n    {}", both.shown());
}

/// The calls made by hand.
fn all_by_hand() {
    println!("Made by hand:\n");
    by_hand(&by_hand::metric_departs());
    by_hand(&by_hand::offset_departs());
    by_hand(&by_hand::phase_departs());
    by_hand(&by_hand::lead_departs());
    println!();
}

/// The norms alone.
fn all_norms(options: &Options) {
    println!("The norms alone:\n");
    println!(
        "| norm | pairs of | pairs | depart | squares overflow | squares vanish | by one step | by more |"
    );
    println!("|---|---|---:|---:|---:|---:|---:|---:|");
    let first = [norms_of::<f32>(options), norms_of::<f64>(options)].concat();
    println!("\nSmallest departing pairs, by the larger part:\n\n{first}");
    println!("Which norm of f64 pairs is the nearest number:\n");
    println!("| whole numbers up to | pairs | depart | oracle not nearest | hypot not nearest |");
    println!("|---|---:|---:|---:|---:|");
    for power in [15, 20, 26, 31] {
        let n = norms::nearest(options.seed, stream::NEAREST, options.norms, 1 << power);
        println!(
            "| 2^{power} | {} | {} | {} | {} |",
            n.pairs, n.departing, n.oracle_off, n.hypot_off
        );
    }
    println!();
}

/// Prints a row of the norms and gives the text of its first departing pair.
fn norm_row(name: &str, class: &str, norms: &Norms) -> String {
    println!(
        "| {name} | {class} | {} | {} | {} | {} | {} | {} |",
        norms.pairs,
        norms.departing(),
        norms.overflow,
        norms.vanish,
        norms.one_step,
        norms.more
    );
    norms
        .first
        .as_ref()
        .map_or_else(String::new, |(pair, found)| {
            format!("{name}, {class}: {pair:?}: {found}\n")
        })
}

fn norms_of<N: Norm>(options: &Options) -> String {
    let (seed, count) = (options.seed, options.norms);
    let whole = norms::random_whole::<N>(seed, stream::WHOLE, count);
    let finite = norms::random_finite::<N>(seed, stream::FINITE, count);
    let hard = norms::random_hard::<N>(seed, stream::HARD, 10 * count);
    [
        norm_row(N::NAME, "random whole numbers", &whole),
        norm_row(
            N::NAME,
            "every pair of whole numbers",
            &norms::every_whole::<N>(),
        ),
        norm_row(N::NAME, "any finite bits", &finite),
        norm_row(N::NAME, "classes of the comparison, finite", &hard),
    ]
    .concat()
}

fn main() {
    let options = options();
    let start = Instant::now();
    println!(
        "seed {}, {} random calls of each operation\n",
        options.seed, options.cases
    );
    all_random_calls(&options);
    all_odd_calls(&options);
    all_by_hand();
    all_norms(&options);
    println!("{:.1} s", start.elapsed().as_secs_f64());
}
