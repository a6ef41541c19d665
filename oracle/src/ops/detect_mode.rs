//! The guess: mode, guard and offset of samples, by the correlation of guard intervals; and the
//! fractional offset that the port makes from both its parts.

use super::Operation;
use super::cfo_frac::{self, OfGuess};
use crate::C32;
use crate::acquire::{Acquire, Oracle, Untouched};
use crate::codes::{BAD_FLOATS, BAD_LENGTH, GUARDS, MODES, guards_of, modes_of};
use crate::complex::C64;
use crate::harness::call::{Call, Floats, Unfilled, accept, write_answer};
use crate::harness::changed::{self, Claim, Verdict, accepted, both, differ, floats_differ};
use crate::harness::lent::{Lent, Shown};
use crate::harness::outcome::{Compared, Outcome};
use crate::harness::rng::Rng;
use crate::harness::run::{self, Plan};
use crate::harness::stored::Record;
use crate::harness::tally::Row;
use crate::harness::timing::{self, Effort, thousands};
use crate::inputs::arguments::{
    boundary_guard_lists, boundary_mode_lists, fewest_pairs, mode_numbers, random_list,
};
use crate::inputs::captures::{self, mostly_mode_1};
use crate::inputs::changes::{Change, Changed};
use crate::inputs::samples;
use crate::inputs::timed::{self, CAPTURES, NOISE, in_turn, row};
use crate::inputs::whole::{any_bytes, symbols, units};
use crate::isdb::params::{GuardInterval, Mode};
use crate::isdb::rx::acquire;
use sillurwy::ffi;
use std::fmt;

pub const OPERATION: Operation = Operation {
    name: "detect_mode",
    number: Some(7),
    part: "acquisition",
    streams: &[GuessCall::STREAM, GuessArguments::STREAM],
    compare,
    bench,
    stored,
};

// ---- The operation

/// Samples, modes, guards; scratch, the guess.
pub type Port = fn(&[f32], &[u8], &[u8], &mut [f64], GuessOut<'_>) -> u8;

/// The lent numbers.
#[derive(Debug)]
pub struct GuessOut<'a> {
    /// 1 if there is a guess; where there is none, the others are left as they were.
    pub found: &'a mut u8,
    /// Mode.
    pub mode: &'a mut u8,
    /// Guard.
    pub guard: &'a mut u8,
    /// Offset.
    pub offset: &'a mut usize,
    /// Metric.
    pub metric: &'a mut f64,
    /// Real part.
    pub re: &'a mut f64,
    /// Imaginary part.
    pub im: &'a mut f64,
}

/// A call.
#[derive(Debug, Clone, PartialEq, Eq, PartialOrd, Ord)]
pub struct GuessCall {
    /// Samples.
    pub samples: Floats,
    /// Modes.
    pub modes: Vec<u8>,
    /// Guards.
    pub guards: Vec<u8>,
    /// Lent entries of scratch.
    pub scratch: usize,
}

/// What it gives where there is a guess.
#[derive(Debug, Clone, Copy, PartialEq)]
pub struct Guess {
    /// Mode.
    pub mode: u8,
    /// Guard, by its denominator.
    pub guard: u8,
    /// Where a guard interval starts.
    pub offset: usize,
    /// Normalised correlation.
    pub metric: f64,
    /// Real part of the summed correlation.
    pub re: f64,
    /// Imaginary part of the summed correlation.
    pub im: f64,
    /// Fractional offset: the Rust's own, or the one that is made from the port's two parts.
    pub cfo_frac: f64,
}

/// The most pairs of samples.
pub const MOST_SAMPLES: usize = 1 << 20;

/// Entries of scratch that are asked for.
pub fn scratch_needed(pairs: usize) -> usize {
    3 * (pairs + 1)
}

/// The answer by a norm, with `scratch` lent entries of scratch.
pub fn answer<R: Acquire>(
    samples: &[f32],
    modes: &[u8],
    guards: &[u8],
    scratch: usize,
) -> Result<Option<Guess>, u8> {
    let modes = modes_of(modes)?;
    let guards = guards_of(guards)?;
    let count = samples.len() / 2;
    let whole = samples.len().is_multiple_of(2);
    accept(whole && count <= MOST_SAMPLES, BAD_FLOATS)?;
    accept(scratch >= scratch_needed(count), BAD_LENGTH)?;
    let guess = R::detect_mode(&R::pairs(samples), &modes, &guards);
    Ok(guess.map(|guess| Guess {
        mode: guess.mode.number(),
        guard: guess.guard.denominator() as u8,
        offset: guess.offset,
        metric: guess.metric,
        re: guess.re,
        im: guess.im,
        cfo_frac: guess.cfo_frac,
    }))
}

impl GuessOut<'_> {
    /// Writes a guess as the port does.
    pub fn write(self, guess: Option<Guess>) {
        *self.found = u8::from(guess.is_some());
        let Some(guess) = guess else { return };
        (*self.mode, *self.guard) = (guess.mode, guess.guard);
        (*self.offset, *self.metric) = (guess.offset, guess.metric);
        (*self.re, *self.im) = (guess.re, guess.im);
    }
}

/// Writes an answer as the port does.
pub fn write(answer: Result<Option<Guess>, u8>, scratch: &mut [f64], out: GuessOut<'_>) -> u8 {
    write_answer(answer, |guess| {
        scratch.fill(0.0);
        out.write(guess);
    })
}

fn linked(
    samples: &[f32],
    modes: &[u8],
    guards: &[u8],
    scratch: &mut [f64],
    out: GuessOut<'_>,
) -> u8 {
    let GuessOut {
        found,
        mode,
        guard,
        offset,
        metric,
        re,
        im,
    } = out;
    ffi::detect_mode(
        samples, modes, guards, scratch, found, mode, guard, offset, metric, re, im,
    )
}

fn rust(
    samples: &[f32],
    modes: &[u8],
    guards: &[u8],
    scratch: &mut [f64],
    out: GuessOut<'_>,
) -> u8 {
    let answer = answer::<Oracle>(samples, modes, guards, scratch.len());
    write(answer, scratch, out)
}

impl GuessCall {
    /// The answer to this call by a norm.
    pub fn answer<R: Acquire>(&self) -> Result<Option<Guess>, u8> {
        answer::<R>(&self.samples.0, &self.modes, &self.guards, self.scratch)
    }
}

impl fmt::Display for GuessCall {
    fn fmt(&self, f: &mut fmt::Formatter<'_>) -> fmt::Result {
        let Self {
            samples,
            modes,
            guards,
            scratch,
        } = self;
        write!(
            f,
            "guess: modes {modes:?}, guards {guards:?}, {scratch} entries of scratch, \
             samples of {samples}"
        )
    }
}

// ---- The calls that are compared

/// Lengths of scratch around the one that is needed for a number of floats.
fn boundary_scratch(floats: usize) -> [usize; 5] {
    let needed = scratch_needed(floats / 2);
    [0, needed - 1, needed, needed + 1, needed + 100]
}

/// Numbers of floats around those in which something is searched for.
fn boundary_samples() -> Vec<usize> {
    let mut floats = vec![0, 1, 2, 3, 4095];
    for mode in MODES {
        for guard in guards_of(&GUARDS).expect("good guards") {
            let pairs = fewest_pairs(mode, guard);
            floats.extend([pairs - 1, pairs, pairs + 1].map(|pairs| 2 * pairs));
        }
        let n = mode.fft_size();
        floats.extend([n - 1, n, n + 1].map(|pairs| 2 * pairs));
    }
    floats
}

impl GuessCall {
    fn unfilled(modes: &[u8], guards: &[u8], scratch: usize) -> Self {
        Self {
            samples: Floats::default(),
            modes: modes.to_vec(),
            guards: guards.to_vec(),
            scratch,
        }
    }

    /// All lists of modes and guards, for few floats.
    fn boundary_lists() -> Vec<Unfilled<Self>> {
        let mut calls = Vec::new();
        for modes in boundary_mode_lists() {
            for guards in boundary_guard_lists() {
                for floats in [0, 1, 2, 4096, 4099] {
                    let call = |scratch| Self::unfilled(&modes, &guards, scratch);
                    let scratch = boundary_scratch(floats);
                    calls.extend(scratch.map(|scratch| (call(scratch), floats)));
                }
            }
        }
        calls
    }

    /// Numbers of pairs around those in which something is searched for, and around the most.
    fn boundary_lengths() -> Vec<Unfilled<Self>> {
        let mut calls = Vec::new();
        for floats in boundary_samples() {
            for scratch in boundary_scratch(floats) {
                calls.push((Self::unfilled(&mode_numbers(), &GUARDS, scratch), floats));
            }
        }
        for pairs in [MOST_SAMPLES - 1, MOST_SAMPLES, MOST_SAMPLES + 1] {
            let needed = scratch_needed(pairs);
            let lists: [(&[u8], &[u8]); 4] =
                [(&[1], &[32]), (&[3], &[4, 8]), (&[0], &[4]), (&[1], &[5])];
            for (modes, guards) in lists {
                calls.push((Self::unfilled(modes, guards, needed), 2 * pairs));
                calls.push((Self::unfilled(modes, guards, 0), 2 * pairs + 1));
            }
        }
        calls
    }
}

/// A number of pairs: few, or around a boundary, or enough.
fn random_pairs(rng: &mut Rng, mode: Mode, guard: GuardInterval) -> usize {
    let (n, fewest) = (mode.fft_size(), fewest_pairs(mode, guard));
    match rng.below(32) {
        0 | 1 => rng.below(64),
        2 | 3 => n - 1 + rng.below(3),
        4..9 => fewest - 2 + rng.below(5),
        9 | 10 => rng.below(fewest),
        11 => fewest + rng.below(4 * n),
        _ => fewest + rng.below(n),
    }
}

/// The lent numbers of a call that is compared.
struct GuessLent {
    found: Lent<u8>,
    mode: Lent<u8>,
    guard: Lent<u8>,
    offset: Lent<usize>,
    metric: Lent<f64>,
    re: Lent<f64>,
    im: Lent<f64>,
}

impl GuessLent {
    fn new(salt: u64) -> Self {
        Self {
            found: Lent::one(salt),
            mode: Lent::one(salt),
            guard: Lent::one(salt),
            offset: Lent::one(salt),
            metric: Lent::one(salt),
            re: Lent::one(salt),
            im: Lent::one(salt),
        }
    }

    fn out(&mut self) -> GuessOut<'_> {
        GuessOut {
            found: self.found.entry(),
            mode: self.mode.entry(),
            guard: self.guard.entry(),
            offset: self.offset.entry(),
            metric: self.metric.entry(),
            re: self.re.entry(),
            im: self.im.entry(),
        }
    }

    /// Compares each of them. What was not found is not written.
    fn compared(&self, given: u8, answer: &Result<Option<Guess>, u8>) -> Compared {
        Compared::of_code(given, answer)
            .lent(&self.found, "found", answer, is_found)
            .lent(&self.mode, "mode", answer, |a| each(a, |a| a.mode))
            .lent(&self.guard, "guard", answer, |a| each(a, |a| a.guard))
            .lent(&self.offset, "offset", answer, |a| each(a, |a| a.offset))
            .lent(&self.metric, "metric", answer, |a| each(a, |a| a.metric))
            .lent(&self.re, "re", answer, |a| each(a, |a| a.re))
            .lent(&self.im, "im", answer, |a| each(a, |a| a.im))
    }
}

/// The fractional offset that a port makes from the parts of a guess, beside the Rust's, if one was
/// found.
fn of_guess(
    port: cfo_frac::Port,
    parts: C64,
    answer: &Result<Option<Guess>, u8>,
) -> Option<OfGuess> {
    let guess = answer.as_ref().ok()?.as_ref()?;
    Some(OfGuess {
        parts,
        port: port(parts.re, parts.im),
        rust: guess.cfo_frac,
    })
}

/// 1 if there is a guess.
fn is_found(guess: &Option<Guess>) -> Vec<u8> {
    vec![u8::from(guess.is_some())]
}

/// A number of the guess, if there is one.
fn each<T>(guess: &Option<Guess>, of: fn(&Guess) -> T) -> Vec<T> {
    guess.iter().map(of).collect()
}

impl GuessCall {
    /// Makes the call and compares it; of the guess that is found, also what a port of the fractional
    /// offset makes from its parts.
    pub fn run_with(&self, port: Port, cfo_frac: cfo_frac::Port, salt: u64) -> Outcome {
        let samples = Shown::new(&self.samples.0);
        let (modes, guards) = (Shown::new(&self.modes), Shown::new(&self.guards));
        let mut scratch = Lent::new(self.scratch, salt);
        let mut guess = GuessLent::new(salt);
        let given = port(
            samples.slice(),
            modes.slice(),
            guards.slice(),
            scratch.slice(),
            guess.out(),
        );
        let parts = C64::new(*guess.re.entry(), *guess.im.entry());
        let zeros = |_: &Option<Guess>| vec![0.0; self.scratch];
        let compared = |answer: &_| {
            guess
                .compared(given, answer)
                .lent(&scratch, "scratch", answer, zeros)
                .shown(&samples, "samples")
                .shown(&modes, "modes")
                .shown(&guards, "guards")
                .also(|| of_guess(cfo_frac, parts, answer)?.difference())
        };
        let answer = self.answer::<Oracle>();
        Outcome {
            farthest: of_guess(cfo_frac, parts, &answer).map(|offset| offset.farthest()),
            ..Outcome::of_both(&answer, &self.answer::<Untouched>(), compared)
        }
    }
}

impl Call for GuessCall {
    const TITLE: &'static str = "guess";
    const STREAM: u64 = 505;
    type Port = Port;
    const LINKED: Port = linked;
    const RUST: Port = rust;

    fn run(&self, port: Port, salt: u64) -> Outcome {
        self.run_with(port, ffi::cfo_frac, salt)
    }

    fn floats(&mut self) -> Option<&mut Floats> {
        Some(&mut self.samples)
    }

    fn boundary() -> Vec<Unfilled<Self>> {
        let mut calls = Self::boundary_lists();
        calls.extend(Self::boundary_lengths());
        calls
    }

    fn random(rng: &mut Rng) -> Self {
        let mode = mostly_mode_1(rng);
        let number = *rng.pick(&GUARDS);
        let guard = GuardInterval::from_denominator(usize::from(number)).expect("a good guard");
        let pairs = random_pairs(rng, mode, guard);
        let odd = usize::from(rng.once_in(64));
        let needed = scratch_needed(pairs);
        Self {
            samples: Floats(samples::samples(rng, mode, guard, 2 * pairs + odd)),
            modes: random_list(rng, mode.number(), &mode_numbers()),
            guards: random_list(rng, number, &GUARDS),
            scratch: if rng.once_in(8) {
                needed - 1 + rng.below(100)
            } else {
                needed
            },
        }
    }
}

fn compare(plan: &Plan) -> Vec<Row> {
    vec![
        run::boundary::<GuessCall>(GuessCall::LINKED, plan.seed),
        run::random::<GuessCall>(GuessCall::LINKED, plan.seed, plan.captures),
        changed::claim::<GuessArguments>(
            (GuessCall::LINKED, ffi::cfo_frac),
            plan.seed,
            plan.captures,
        ),
    ]
}

// ---- Changed captures

/// The port of the guess, and that of the fractional offset.
pub type Ports = (Port, cfo_frac::Port);

/// The other arguments.
#[derive(Debug, Clone, PartialEq, Eq, PartialOrd, Ord)]
pub struct GuessArguments {
    /// Modes.
    pub modes: Vec<u8>,
    /// Guards.
    pub guards: Vec<u8>,
}

impl GuessArguments {
    fn ask(&self, (port, cfo_frac): Ports, samples: &[f32]) -> Result<Option<Guess>, u8> {
        let mut scratch = vec![0.0; scratch_needed(samples.len() / 2)];
        let (mut found, mut mode, mut guard, mut offset) = (0, 0, 0, 0);
        let (mut metric, mut re, mut im) = (0.0, 0.0, 0.0);
        let out = GuessOut {
            found: &mut found,
            mode: &mut mode,
            guard: &mut guard,
            offset: &mut offset,
            metric: &mut metric,
            re: &mut re,
            im: &mut im,
        };
        let code = port(samples, &self.modes, &self.guards, &mut scratch, out);
        accepted(code, || {
            (found == 1).then_some(Guess {
                mode,
                guard,
                offset,
                metric,
                re,
                im,
                cfo_frac: cfo_frac(re, im),
            })
        })
    }
}

/// Samples for a change; where they are amplified, whole numbers.
fn samples_for(
    rng: &mut Rng,
    mode: Mode,
    guard: GuardInterval,
    pairs: usize,
    whole: bool,
) -> Vec<f32> {
    if !whole {
        return samples::samples(rng, mode, guard, 2 * pairs);
    }
    if rng.once_in(3) {
        let mut floats = vec![0.0; 2 * pairs];
        rng.pick(&captures::WHOLE_FILLINGS)(rng, pairs, &mut floats);
        return floats;
    }
    samples::received_whole(rng, mode, guard, pairs)
}

/// What is compared of a guess: mode, guard and offset, then metric, both parts and fractional offset.
fn guess_parts(guess: &Option<Guess>, gain: f64) -> (Option<(u8, u8, usize)>, [f64; 4]) {
    let places = guess.map(|guess| (guess.mode, guess.guard, guess.offset));
    let values = guess.map_or([0.0; 4], |guess| {
        let (re, im) = (guess.re * gain * gain, guess.im * gain * gain);
        [guess.metric, re, im, guess.cfo_frac]
    });
    (places, values)
}

impl Claim for GuessArguments {
    const TITLE: &'static str = "guess, changed";
    const STREAM: u64 = 603;
    type Port = Ports;

    /// Samples are negated, all or none, turned and amplified, and nothing else.
    fn random(rng: &mut Rng) -> Changed<Self> {
        let mode = mostly_mode_1(rng);
        let number = *rng.pick(&GUARDS);
        let guard = GuardInterval::from_denominator(usize::from(number)).expect("a good guard");
        let change = Change::random(rng, 1);
        let fewest = fewest_pairs(mode, guard);
        let pairs = if rng.once_in(16) {
            fewest - 1 - rng.below(fewest)
        } else {
            fewest + rng.below(mode.fft_size())
        };
        let all = rng.once_in(4);
        Changed {
            floats: Floats(samples_for(rng, mode, guard, pairs, change.doublings > 0)),
            arguments: Self {
                modes: if all {
                    mode_numbers().to_vec()
                } else {
                    vec![mode.number()]
                },
                guards: if all { GUARDS.to_vec() } else { vec![number] },
            },
            change,
        }
    }

    /// Both parts are kept under signs and turn, and multiplied by the gain twice. The fractional offset
    /// is kept.
    fn verdict(port: Ports, case: &Changed<Self>) -> Verdict {
        let (asked, floats) = (&case.arguments, &case.floats.0);
        let pairs = floats.len() / 2;
        let before = asked.ask(port, floats);
        let after = asked.ask(port, &case.change.of(pairs.max(1), floats));
        both(&before, &after, |before, after| {
            let (places, values) = guess_parts(before, f64::from(case.change.gain()));
            let (places_after, values_after) = guess_parts(after, 1.0);
            differ("mode, guard and offset", places, places_after)
                .or_else(|| floats_differ("metric, re, im and cfo_frac", &values, &values_after))
        })
    }
}

// ---- The benchmark

/// The guard of the samples.
const GUARD: GuardInterval = GuardInterval::G1_8;

/// Pairs of samples.
const SAMPLES: usize = 150_000;

fn port_guess(floats: &[f32], modes: &[u8], scratch: &mut [f64]) -> Guess {
    let mut found = 0;
    let mut guess = Guess {
        mode: 0,
        guard: 0,
        offset: 0,
        metric: 0.0,
        re: 0.0,
        im: 0.0,
        cfo_frac: 0.0,
    };
    let out = GuessOut {
        found: &mut found,
        mode: &mut guess.mode,
        guard: &mut guess.guard,
        offset: &mut guess.offset,
        metric: &mut guess.metric,
        re: &mut guess.re,
        im: &mut guess.im,
    };
    let code = linked(floats, modes, &GUARDS, scratch, out);
    assert_eq!((code, found), (0, 1), "the guess is accepted and found");
    guess
}

/// Over all modes and guards.
fn bench(effort: &Effort) -> Vec<timing::Row> {
    let mut rng = Rng::new(1);
    let received = |_| samples::received(&mut rng, timed::MODE, GUARD, SAMPLES, (NOISE, 1.0));
    let floats: Vec<Vec<f32>> = (0..CAPTURES).map(received).collect();
    let samples: Vec<Vec<C32>> = floats.iter().map(|floats| Oracle::pairs(floats)).collect();
    let modes = mode_numbers();
    let mut scratch = vec![0.0; scratch_needed(SAMPLES)];
    for floats in &floats {
        let guess = port_guess(floats, &modes, &mut scratch);
        let right = answer::<Oracle>(floats, &modes, &GUARDS, scratch.len());
        let put_in = (timed::MODE.number(), GUARD.denominator());
        assert_eq!((guess.mode, usize::from(guess.guard)), put_in);
        // What is timed makes no fractional offset.
        let cfo_frac = guess.cfo_frac;
        let right = right.map(|right| right.map(|right| Guess { cfo_frac, ..right }));
        assert_eq!(right, Ok(Some(guess)));
    }
    vec![row(
        format!(
            "guess of {} pairs of mode {}, over all modes and guards",
            thousands(SAMPLES),
            timed::MODE.number()
        ),
        "`detect_mode`",
        &in_turn(effort),
        |i| port_guess(&floats[i % CAPTURES], &modes, &mut scratch),
        |i| acquire::detect_mode(&samples[i % CAPTURES], &acquire::MODES, &acquire::GUARDS),
    )]
}

// ---- Stored answers

fn record(floats: Vec<f32>, modes: &[u8], guards: &[u8], scratch: usize) -> Record {
    let samples = Floats(floats);
    let answer = answer::<Oracle>(&samples.0, modes, guards, scratch);
    Record::of(&answer)
        .floats(&samples)
        .bytes(modes)
        .bytes(guards)
        .lends(scratch)
        .written(&answer, |_| vec![0.0_f64; scratch])
        .written(&answer, is_found)
        .written(&answer, |a| each(a, |a| a.mode))
        .written(&answer, |a| each(a, |a| a.guard))
        .written(&answer, |a| each(a, |a| a.offset))
        .written(&answer, |a| each(a, |a| a.metric))
        .written(&answer, |a| each(a, |a| a.re))
        .written(&answer, |a| each(a, |a| a.im))
}

/// Of symbols, of units, of too few samples; and refused by each number.
fn stored(rng: &mut Rng) -> Vec<Record> {
    let (least, more) = (10_560, 10_700);
    vec![
        record(
            symbols(rng, least, 10.0),
            &[1],
            &[32],
            scratch_needed(least),
        ),
        record(
            symbols(rng, more, 120.0),
            &[3, 1, 2],
            &[4, 8, 16, 32],
            scratch_needed(more) + 40,
        ),
        record(units(rng, more, 4), &[1], &[32], scratch_needed(more)),
        record(symbols(rng, 2049, 10.0), &[1], &[32], scratch_needed(2049)),
        record(Vec::new(), &[], &[], 3),
        record(any_bytes(rng, 7), &[1, 4], &[5], 0),
        record(any_bytes(rng, 7), &[1], &[4, 5], 0),
        record(any_bytes(rng, 7), &[1], &[4], 0),
        record(any_bytes(rng, 6), &[1], &[4], 11),
    ]
}

#[cfg(test)]
mod tests {
    use super::*;

    #[test]
    fn every_refusal_is_stored_and_the_guard_of_symbols_is_found() {
        let records = stored(&mut Rng::new(1));
        let codes: Vec<u8> = records.iter().map(Record::code).collect();
        assert_eq!(codes, [0, 0, 0, 0, 0, 1, 9, 5, 7]);
        // Behind the scratch, of which one zero is stored: each behind how many are written.
        let numbers = |at: usize| &records[at].answer()[3 + 8..];
        assert_eq!(numbers(0)[..12], [1, 0, 0, 1, 1, 0, 0, 1, 1, 0, 0, 32]);
        // Too few samples: of the numbers only found is written, with 0.
        let none = [&[1, 0, 0, 0][..], &[0; 6 * 3]].concat();
        assert_eq!(numbers(3), none);
    }
}
