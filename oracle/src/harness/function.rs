//! A function of floats: compared bit for bit, all NaNs alike, held near what it need not equal, and
//! beside the untouched Rust's where that has another; and stored.

use super::rng::Rng;
use super::stored::{Entry, Record};
use super::tally::{Row, Tally, on_all_processors};
use super::value::Value;
use crate::inputs::floats::Class;
use std::fmt::Display;

/// A function from inputs `I` to results `R`.
#[derive(Debug)]
pub struct Function<I: 'static, R> {
    /// Its name in the table.
    pub name: &'static str,
    /// The port's.
    pub port: fn(I) -> R,
    /// The oracle's, which the port's equals bit for bit.
    pub rust: fn(I) -> R,
    /// What the port's must come near besides, if it has such a thing.
    pub near: Option<Near<I, R>>,
    /// If the untouched Rust departs from a result of the port; none where it has nothing else.
    pub departs: Option<fn(I, R) -> bool>,
    /// Special inputs.
    pub special: Vec<I>,
    /// Classes of random inputs, which take turns.
    pub classes: &'static [Class<I>],
}

/// What a result must come near, though it need not equal it.
#[derive(Debug, Clone, Copy)]
pub struct Near<I, R> {
    /// How far a result for an input is from it.
    pub distance: fn(I, R) -> f64,
    /// What is farther, or no number, is a difference.
    pub limit: f64,
}

impl<I, R> Near<I, R> {
    fn too_far(&self, distance: f64) -> Option<String> {
        let limit = self.limit;
        let near = distance <= limit;
        (!near).then(|| format!("distance: {distance}, more than {limit}"))
    }
}

/// Inputs in a job of one thread.
const JOB: u64 = 1 << 14;

/// Stored answers of each function: at most so many of special inputs, and so many of random ones.
const STORED_SPECIAL: usize = 120;
const STORED_RANDOM: usize = 180;

impl<I: Copy + Ord + Display + Send + Sync, R: Value> Function<I, R> {
    /// Compares the special inputs and `count` random ones.
    pub fn compare(&self, seed: u64, stream: u64, count: u64) -> Row {
        let one = |input, tally: &mut Tally<I>| self.compare_one(input, tally);
        let tally = count_inputs(&self.special, self.classes, (seed, stream), count, one);
        tally.row(self.name)
    }

    fn compare_one(&self, input: I, tally: &mut Tally<I>) {
        let (rust, port) = ((self.rust)(input), (self.port)(input));
        let distance = self.near.as_ref().map(|near| (near.distance)(input, port));
        let found = differ(rust, port).or_else(|| self.near.as_ref()?.too_far(distance?));
        tally.count(false, found, || input);
        tally.count_departure(self.departs.map(|departs| departs(input, port)));
        if let Some(distance) = distance {
            tally.count_distance(distance, || input.to_string());
        }
    }
}

fn differ<R: Value>(rust: R, port: R) -> Option<String> {
    let differ = rust.compared_bits() != port.compared_bits();
    differ.then(|| format!("result: oracle {}, port {}", rust.shown(), port.shown()))
}

/// Counts what comes of the special inputs, and of `count` random ones of a seed and a stream. The
/// classes of these take turns.
pub fn count_inputs<I: Copy + Ord + Display + Send + Sync>(
    special: &[I],
    classes: &[Class<I>],
    (seed, stream): (u64, u64),
    count: u64,
    one: impl Fn(I, &mut Tally<I>) + Sync,
) -> Tally<I> {
    let mut tally = Tally::default();
    for &input in special {
        one(input, &mut tally);
    }
    let parts = on_all_processors(count.div_ceil(JOB) as usize, |job| {
        let job = job as u64;
        let mut rng = Rng::for_case(seed, stream, job);
        let mut tally = Tally::default();
        let inputs = classes.iter().cycle().zip(0..JOB.min(count - job * JOB));
        for (class, _) in inputs {
            one(class(&mut rng), &mut tally);
        }
        tally
    });
    tally.add(Tally::sum(parts));
    tally
}

impl<I: Copy, R: Entry + Copy> Function<I, R> {
    /// The stored answers: some of the special inputs and some random ones of each class. `add` adds
    /// to a record what is handed over.
    pub fn stored(&self, rng: &mut Rng, add: fn(Record, I) -> Record) -> Vec<Record> {
        let step = self.special.len().div_ceil(STORED_SPECIAL);
        let mut inputs: Vec<I> = self.special.iter().copied().step_by(step).collect();
        let classes = self.classes.iter().cycle().take(STORED_RANDOM);
        inputs.extend(classes.map(|class| class(rng)));
        let record = |input| {
            let answer = Ok((self.rust)(input));
            add(Record::of(&answer), input).written(&answer, |&value| vec![value])
        };
        inputs.into_iter().map(record).collect()
    }
}
