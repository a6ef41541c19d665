//! The ratio of one bin, from its pairs alone.

use super::Operation;
use super::detect_kinds::{self, KindsArguments, KindsCall};
use super::integer_cfo::{self, ShiftArguments, ShiftCall};
use crate::acquire::{Acquire, Oracle, Untouched};
use crate::codes::NO_SPECTRA;
use crate::harness::call::{Call, Floats, Unfilled, accept, write_answer};
use crate::harness::changed::{self, Claim, Verdict, accepted, both, floats_differ};
use crate::harness::lent::{Lent, Shown};
use crate::harness::outcome::{Compared, Outcome};
use crate::harness::rng::Rng;
use crate::harness::run::{self, Plan};
use crate::harness::stored::Record;
use crate::harness::tally::Row;
use crate::harness::timing::{self, Effort, thousands};
use crate::inputs::arguments::{MOST_SPECTRA, mostly_whole, random_count, whole_spectra};
use crate::inputs::captures::{self, Band, FILLINGS, Places, damage, disturb, mostly_mode_1};
use crate::inputs::changes::{Change, Changed, spectra_to_change};
use crate::inputs::timed::{Capture, MIXED, row};
use crate::inputs::whole::{self, any_bytes, units};
use crate::isdb::params::{Mode, SYMBOLS_PER_FRAME};
use crate::isdb::rx::acquire;
use sillurwy::ffi;
use std::fmt;
use std::hint::black_box;

pub const OPERATION: Operation = Operation {
    name: "bin_ratio",
    number: Some(18),
    part: "acquisition",
    streams: &[
        RatioCall::STREAM,
        RatioArguments::STREAM,
        RatiosLeft::STREAM,
    ],
    compare,
    bench,
    stored,
};

// ---- The operation

/// Pairs; ratio.
pub type Port = fn(&[f32], &mut f32) -> u8;

/// A call.
#[derive(Debug, Clone, Default, PartialEq, Eq, PartialOrd, Ord)]
pub struct RatioCall {
    /// The bin's pairs, in symbol order.
    pub pairs: Floats,
}

/// The answer by a norm: the bin is all that there is of each spectrum.
pub fn answer<R: Acquire>(pairs: &[f32]) -> Result<f32, u8> {
    whole_spectra(pairs, 1)?;
    accept(!pairs.is_empty(), NO_SPECTRA)?;
    Ok(R::continual_metric(&R::spectra(pairs, 1))[0])
}

fn rust(pairs: &[f32], ratio: &mut f32) -> u8 {
    write_answer(answer::<Oracle>(pairs), |found| *ratio = found)
}

impl fmt::Display for RatioCall {
    fn fmt(&self, f: &mut fmt::Formatter<'_>) -> fmt::Result {
        write!(f, "bin ratio: pairs of {}", self.pairs)
    }
}

/// The pairs of one bin, one behind another, of spectra of `len` pairs each.
pub fn bin_pairs(spectra: &[f32], len: usize, bin: usize) -> Vec<f32> {
    let pair = |spectrum: &[f32]| [spectrum[2 * bin], spectrum[2 * bin + 1]];
    spectra.chunks_exact(2 * len).flat_map(pair).collect()
}

// ---- The calls that are compared

impl Call for RatioCall {
    const TITLE: &'static str = "bin ratio";
    const STREAM: u64 = 507;
    type Port = Port;
    const LINKED: Port = ffi::bin_ratio;
    const RUST: Port = rust;

    fn run(&self, port: Port, salt: u64) -> Outcome {
        let pairs = Shown::new(&self.pairs.0);
        let mut ratio = Lent::one(salt);
        let given = port(pairs.slice(), ratio.entry());
        let compared = |answer: &Result<f32, u8>| {
            Compared::of_code(given, answer)
                .lent(&ratio, "ratio", answer, |&a| vec![a])
                .shown(&pairs, "pairs")
        };
        Outcome::of_both(
            &answer::<Oracle>(&self.pairs.0),
            &answer::<Untouched>(&self.pairs.0),
            compared,
        )
    }

    fn floats(&mut self) -> Option<&mut Floats> {
        Some(&mut self.pairs)
    }

    /// Every number of floats up to those of a few pairs too many, and some far off. No number is
    /// refused by both 5 and 6, so that their order cannot show.
    fn boundary() -> Vec<Unfilled<Self>> {
        let call = |floats| (Self::default(), floats);
        let near = 0..=2 * MOST_SPECTRA + 8;
        let far = [12, 16, 20].into_iter().flat_map(|power| {
            let floats: usize = 1 << power;
            [floats - 1, floats, floats + 1]
        });
        near.chain(far).map(call).collect()
    }

    fn random(rng: &mut Rng) -> Self {
        let count = random_pairs(rng);
        let mut pairs = if rng.once_in(2) {
            let choice = rng.choice();
            let spectra = Band::new(rng, MODE, choice).spectra(rng, Places::Carriers, count);
            any_bin(rng, &spectra)
        } else {
            let mut unusual = vec![0.0; 2 * count];
            rng.pick(&FILLINGS)(rng, 1, &mut unusual);
            unusual
        };
        match rng.below(8) {
            0 => damage(rng, &mut pairs),
            1 => disturb(rng, 1, &mut pairs),
            _ => {}
        }
        let pairs = mostly_whole(rng, pairs);
        Self { pairs }
    }
}

/// The mode of the bands whose bins are taken.
const MODE: Mode = Mode::M1;

/// The pairs of any one carrier of spectra.
fn any_bin(rng: &mut Rng, spectra: &[f32]) -> Vec<f32> {
    let len = MODE.total_carriers();
    bin_pairs(spectra, len, rng.below(len))
}

/// How many pairs: mostly few, seldom about as many as there may be, or any number of them.
fn random_pairs(rng: &mut Rng) -> usize {
    match rng.below(128) {
        0 => 0,
        1 => MOST_SPECTRA - 1 + rng.below(3),
        2..6 => 1 + rng.below(MOST_SPECTRA),
        6..32 => 1 + rng.below(64),
        _ => 1 + rng.below(8),
    }
}

fn compare(plan: &Plan) -> Vec<Row> {
    vec![
        run::boundary::<RatioCall>(RatioCall::LINKED, plan.seed),
        run::random::<RatioCall>(RatioCall::LINKED, plan.seed, plan.captures),
        changed::claim::<RatioArguments>(RatioCall::LINKED, plan.seed, plan.captures),
        changed::claim::<RatiosLeft>(Ports::LINKED, plan.seed, plan.captures),
    ]
}

// ---- Changed pairs

/// There are no other arguments.
#[derive(Debug, Clone, PartialEq, Eq, PartialOrd, Ord)]
pub struct RatioArguments;

/// The port's ratio, or the refusal.
fn ask(port: Port, pairs: &[f32]) -> Result<f32, u8> {
    let mut ratio = 0.0;
    let code = port(pairs, &mut ratio);
    accepted(code, || ratio)
}

impl Claim for RatioArguments {
    const TITLE: &'static str = "bin ratio, changed";
    const STREAM: u64 = 604;
    type Port = Port;

    fn random(rng: &mut Rng) -> Changed<Self> {
        let count = random_pairs(rng).min(MOST_SPECTRA);
        let change = Change::random(rng, count);
        let whole = change.doublings > 0;
        let spectra = spectra_to_change(rng, MODE, Places::Carriers, count, whole);
        Changed {
            floats: Floats(any_bin(rng, &spectra)),
            arguments: Self,
            change,
        }
    }

    fn verdict(port: Port, case: &Changed<Self>) -> Verdict {
        let before = ask(port, &case.floats.0);
        let after = ask(port, &case.change.of(1, &case.floats.0));
        both(&before, &after, |&before, &after| {
            floats_differ("ratio", &[before], &[after])
        })
    }
}

// ---- The ratios that are left behind

/// The operation, and those that leave the ratios of all bins behind.
#[derive(Debug, Clone, Copy)]
pub struct Ports {
    /// One bin's ratio.
    pub ratio: Port,
    /// The shift.
    pub shift: integer_cfo::Port,
    /// The kinds.
    pub kinds: detect_kinds::Port,
}

impl Ports {
    /// Those that are linked.
    pub const LINKED: Self = Self {
        ratio: RatioCall::LINKED,
        shift: ShiftCall::LINKED,
        kinds: KindsCall::LINKED,
    };
    /// The Rust in their place.
    pub const RUST: Self = Self {
        ratio: RatioCall::RUST,
        shift: ShiftCall::RUST,
        kinds: KindsCall::RUST,
    };
}

/// Whose ratios are compared, each with that of its bin's pairs alone.
#[derive(Debug, Clone, PartialEq, Eq, PartialOrd, Ord)]
pub enum RatiosLeft {
    /// Those of the shift.
    Shift(ShiftArguments),
    /// Those of the kinds.
    Kinds(KindsArguments),
}

impl RatiosLeft {
    /// The ratios that are left behind, or the refusal.
    fn ask(&self, ports: Ports, spectra: &[f32]) -> Result<Vec<f32>, u8> {
        match self {
            Self::Shift(asked) => Ok(asked.ask(ports.shift, spectra)?.ratios),
            Self::Kinds(asked) => Ok(asked.ask(ports.kinds, spectra)?.ratios),
        }
    }

    /// Pairs in a spectrum.
    fn len(&self) -> usize {
        match self {
            Self::Shift(asked) => asked.mode.fft_size(),
            Self::Kinds(asked) => asked.mode.total_carriers(),
        }
    }
}

/// From so many spectra on, the port copies fewer than sixteen bins at a time.
const NARROWER: usize = 509;

/// How many spectra: mostly few, in mode 1 seldom any number, or one next to where the copy narrows.
fn spectra_count(rng: &mut Rng, mode: Mode) -> usize {
    if mode == Mode::M1 && rng.once_in(256) {
        return NARROWER - 2 + rng.below(4);
    }
    random_count(rng, mode).max(1)
}

impl Claim for RatiosLeft {
    const TITLE: &'static str = "bin ratio, of every bin";
    const STREAM: u64 = 605;
    type Port = Ports;

    /// Nothing is changed.
    fn random(rng: &mut Rng) -> Changed<Self> {
        let mode = mostly_mode_1(rng);
        let (arguments, places) = if rng.once_in(2) {
            let bound = rng.below(100);
            (Self::Shift(ShiftArguments { mode, bound }), Places::Bins)
        } else {
            (Self::Kinds(KindsArguments { mode }), Places::Carriers)
        };
        let (count, choice) = (spectra_count(rng, mode), rng.choice());
        Changed {
            floats: Floats(captures::spectra(rng, mode, choice, places, count)),
            arguments,
            change: Change::default(),
        }
    }

    fn verdict(ports: Ports, case: &Changed<Self>) -> Verdict {
        let (asked, spectra) = (&case.arguments, &case.floats.0);
        let len = asked.len();
        let alone = |bin| ask(ports.ratio, &bin_pairs(spectra, len, bin));
        let alone: Result<Vec<f32>, u8> = (0..len).map(alone).collect();
        both(&alone, &asked.ask(ports, spectra), |alone, left| {
            floats_differ("ratios", alone, left)
        })
    }
}

// ---- The benchmark

fn port_ratio(pairs: &[f32]) -> f32 {
    ask(ffi::bin_ratio, pairs).expect("the ratio is accepted")
}

/// Pairs of all bins that the calls of a row take in turn. They stay in the processor's nearer caches, as
/// those do that a caller has just laid one behind another; of few pairs there are so many bins that it
/// does not come to foresee the branches of their roots.
const PAIRS: usize = 1 << 14;

/// The ratio of `count` pairs, of a band's bins in turn.
fn ratio_row(count: usize, effort: &Effort) -> timing::Row {
    let capture = Capture::new(&mut Rng::new(1), MODE, MIXED, Places::Carriers, count);
    let pairs = |bin| bin_pairs(&capture.floats, MODE.total_carriers(), bin);
    let bins: Vec<Vec<f32>> = (0..PAIRS / count).map(pairs).collect();
    let spectra = |pairs: &Vec<f32>| Oracle::spectra(pairs, 1);
    let of_one_bin: Vec<_> = bins.iter().map(spectra).collect();
    for pairs in &bins {
        assert_eq!(answer::<Oracle>(pairs), Ok(port_ratio(pairs)));
    }
    let at = |i: usize| i % bins.len();
    let calls = bins.len();
    row(
        format!("bin ratio of {} pairs", thousands(count)),
        "`continual_metric`, of spectra of one bin each",
        &Effort { calls, ..*effort },
        |i| port_ratio(black_box(&bins[at(i)])),
        |i| acquire::continual_metric(black_box(&of_one_bin[at(i)])),
    )
}

fn bench(effort: &Effort) -> Vec<timing::Row> {
    let counts = [32, SYMBOLS_PER_FRAME, MOST_SPECTRA];
    counts.map(|count| ratio_row(count, effort)).into()
}

// ---- Stored answers

/// A record of a call, whose floats are given in one of their two forms.
fn record(pairs: &[f32], given: impl FnOnce(Record) -> Record) -> Record {
    let answer = answer::<Oracle>(pairs);
    given(Record::of(&answer)).written(&answer, |&a| vec![a])
}

/// Of whole numbers.
fn whole_record(pairs: Vec<f32>) -> Record {
    let pairs = Floats(pairs);
    record(&pairs.0, |record| record.floats(&pairs))
}

/// Of any floats.
fn exact_record(pairs: &[f32]) -> Record {
    record(pairs, |record| record.exact_floats(pairs))
}

/// The edge, which repeats itself, and a carrier that has data: 32 pairs of each.
fn of_band(rng: &mut Rng) -> [Record; 2] {
    let band = whole::Band {
        choice: rng.choice(),
        phase: rng.below(4),
        shift: 0,
        noise: 10.0,
    };
    let spectra = band.spectra(rng, Places::Carriers, 32);
    let len = MODE.total_carriers();
    [len - 1, 1].map(|bin| whole_record(bin_pairs(&spectra, len, bin)))
}

/// Refused by each number; of one pair, of few, of a band's carriers, of many; and of energies that are
/// zero, no number or infinite.
fn stored(rng: &mut Rng) -> Vec<Record> {
    let most = 2 * MOST_SPECTRA;
    let lengths = [0, 1, 3, most + 1, most + 2, 2, 4, 6, 10, most - 2, most];
    let mut records: Vec<Record> = lengths
        .map(|floats| whole_record(any_bytes(rng, floats)))
        .into();
    records.extend(of_band(rng));
    records.push(whole_record(units(rng, SYMBOLS_PER_FRAME, 4)));
    let unusual: [&[f32]; 8] = [
        // Silence, of either sign; between two symbols; products whose squares vanish.
        &[0.0, -0.0, -0.0, 0.0, -0.0, -0.0],
        &[3.0, 4.0, 0.0, -0.0, 1.0, -2.0],
        &[1e-12, 0.0, 1e-12, 1e-12],
        // An energy that is no number is not above zero.
        &[1.0, f32::NAN, 2.0, 3.0],
        &[f32::INFINITY, 0.0, 0.0, 1.0],
        // Sum and energy infinite, the energy alone, and a sum that is no number.
        &[1e10, 0.0, 1e10, 0.0],
        &[1.4e19, 0.0, 1.0, 0.0, 0.0, 1.4e19],
        &[1e10, 1e10, 1e10, 0.0],
    ];
    records.extend(unusual.map(exact_record));
    records
}

#[cfg(test)]
mod tests {
    use super::*;

    /// The stored ratio of an accepted call.
    fn ratio(record: &Record) -> f32 {
        let bits = record.answer()[3..].try_into().expect("one float");
        f32::from_bits(u32::from_le_bytes(bits))
    }

    #[test]
    fn every_refusal_is_stored() {
        let records = stored(&mut Rng::new(1));
        let codes: Vec<u8> = records.iter().map(Record::code).collect();
        assert_eq!(codes[..5], [6, 5, 5, 5, 5]);
        assert!(codes[5..].iter().all(|&code| code == 0));
    }

    #[test]
    fn ratios_of_every_sort_are_stored() {
        for seed in 1..20 {
            let records = stored(&mut Rng::new(seed));
            let ratios: Vec<f32> = records[5..].iter().map(ratio).collect();
            // One pair; two; the edge of a band, and data.
            assert_eq!(ratios[0].to_bits(), 0);
            assert!((0.999..1.001).contains(&ratios[1]), "{}", ratios[1]);
            assert!(ratios[6] > 0.9, "{}", ratios[6]);
            assert!(ratios[7] < 0.6, "{}", ratios[7]);
            let unusual: Vec<String> = ratios[9..].iter().map(f32::to_string).collect();
            assert_eq!(unusual, ["0", "0", "0", "0", "0", "NaN", "0", "NaN"]);
        }
    }

    #[test]
    fn the_pairs_of_a_bin_are_taken_from_each_spectrum() {
        let spectra = [1.0, 2.0, 3.0, 4.0, 5.0, 6.0, 7.0, 8.0];
        assert_eq!(bin_pairs(&spectra, 2, 0), [1.0, 2.0, 5.0, 6.0]);
        assert_eq!(bin_pairs(&spectra, 2, 1), [3.0, 4.0, 7.0, 8.0]);
    }
}
