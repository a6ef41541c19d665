//! The frame start: a place in a list of soft TMCC values at which sixteen of them spell a synchronising
//! word.
//!
//! Where there are several such places, any of them is a right answer.

use super::Operation;
use crate::harness::call::{Call, Floats, Unfilled};
use crate::harness::lent::{Lent, Shown};
use crate::harness::outcome::{Compared, Outcome};
use crate::harness::rng::Rng;
use crate::harness::run::{self, Plan};
use crate::harness::stored::Record;
use crate::harness::tally::Row;
use crate::harness::timing::{self, Effort, thousands};
use crate::inputs::captures::{FILLINGS, draw};
use crate::inputs::timed::row;
use crate::inputs::whole::any_bytes;
use crate::isdb::rx;
use sillurwy::ffi;
use std::fmt;
use std::hint::black_box;

pub const OPERATION: Operation = Operation {
    name: "frame_start",
    number: Some(17),
    part: "acquisition",
    streams: &[StartCall::STREAM],
    compare,
    bench,
    stored,
};

// ---- The operation

/// Soft TMCC values; found, start, word.
pub type Port = fn(&[f32], &mut u8, &mut usize, &mut u8) -> u8;

/// A call.
#[derive(Debug, Clone, PartialEq, Eq, PartialOrd, Ord)]
pub struct StartCall {
    /// Soft TMCC values.
    pub soft: Floats,
}

/// Bits of a synchronising word.
pub const WORD: usize = 16;

/// The synchronising words, each at the place of its code. They are written from the request: the Rust
/// has them from `sync_word` of its tmcc.rs, which was not at hand.
pub const WORDS: [[u8; WORD]; 2] = [
    [0, 0, 1, 1, 0, 1, 0, 1, 1, 1, 1, 0, 1, 1, 1, 0],
    [1, 1, 0, 0, 1, 0, 1, 0, 0, 0, 0, 1, 0, 0, 0, 1],
];

/// The code of the word that stands at `f`, if one does. The bits are read by the Rust.
pub fn word_at(soft: &[f32], f: usize) -> Option<u8> {
    let end = f.checked_add(WORD)?;
    if end > soft.len() {
        return None;
    }
    let sync = rx::sync_bits(soft, f);
    let code = WORDS.iter().position(|word| sync == word)?;
    Some(code as u8)
}

/// All starts in their order, each with the code of its word.
pub fn starts(soft: &[f32]) -> impl DoubleEndedIterator<Item = (usize, u8)> {
    let places = 0..(soft.len() + 1).saturating_sub(WORD);
    places.filter_map(|f| Some((f, word_at(soft, f)?)))
}

/// The first start and the code of its word, if there is one.
pub fn answer(soft: &[f32]) -> Option<(usize, u8)> {
    starts(soft).next()
}

/// What a port should have given that gave `given`: the same, where that word stands at that start;
/// else the oracle's.
fn right(soft: &[f32], given: Option<(usize, u8)>) -> Option<(usize, u8)> {
    let stands = |&(f, word): &(usize, u8)| word_at(soft, f) == Some(word);
    given.filter(stands).or_else(|| answer(soft))
}

/// Writes an answer as the port does.
pub fn write(answer: Option<(usize, u8)>, found: &mut u8, start: &mut usize, word: &mut u8) -> u8 {
    *found = u8::from(answer.is_some());
    if let Some((f, code)) = answer {
        (*start, *word) = (f, code);
    }
    0
}

fn rust(soft: &[f32], found: &mut u8, start: &mut usize, word: &mut u8) -> u8 {
    write(answer(soft), found, start, word)
}

impl fmt::Display for StartCall {
    fn fmt(&self, f: &mut fmt::Formatter<'_>) -> fmt::Result {
        write!(f, "frame start: soft values, {}", self.soft)
    }
}

// ---- The calls that are compared

impl Call for StartCall {
    const TITLE: &'static str = "frame start";
    const STREAM: u64 = 506;
    type Port = Port;
    const LINKED: Port = ffi::frame_start;
    const RUST: Port = rust;

    fn run(&self, port: Port, salt: u64) -> Outcome {
        let soft = Shown::new(&self.soft.0);
        let (mut found, mut word) = (Lent::one(salt), Lent::one(salt));
        let mut start = Lent::one(salt);
        let code = port(soft.slice(), found.entry(), start.entry(), word.entry());
        let given = (*found.entry() == 1).then_some((*start.entry(), *word.entry()));
        // Nothing is refused.
        let answer = Ok(right(&self.soft.0, given));
        let compared = Compared::of_code(code, &answer)
            .lent(&found, "found", &answer, is_found)
            .lent(&start, "start", &answer, start_written)
            .lent(&word, "word", &answer, word_written)
            .shown(&soft, "soft");
        Outcome::of(&answer, compared)
    }

    fn floats(&mut self) -> Option<&mut Floats> {
        Some(&mut self.soft)
    }

    /// Nothing is refused: lists around the length of a word. What stands in them at which place is
    /// tried by [`every_place`].
    fn boundary() -> Vec<Unfilled<Self>> {
        let soft = Floats::default();
        let call = Self { soft };
        (0..=LONGEST).map(|len| (call.clone(), len)).collect()
    }

    fn random(rng: &mut Rng) -> Self {
        let mut soft = vec![0.0; random_count(rng)];
        rng.pick(&FILLINGS)(rng, FRAME, &mut soft);
        for _ in 0..rng.below(4) {
            plant(rng, &mut soft);
        }
        let soft = Floats(soft);
        Self { soft }
    }
}

/// What is written, by the answer: found always, start and word where there is a start.
fn is_found(answer: &Option<(usize, u8)>) -> Vec<u8> {
    vec![u8::from(answer.is_some())]
}

fn start_written(answer: &Option<(usize, u8)>) -> Vec<usize> {
    Vec::from_iter(answer.map(|(f, _)| f))
}

fn word_written(answer: &Option<(usize, u8)>) -> Vec<u8> {
    Vec::from_iter(answer.map(|(_, word)| word))
}

/// Lays values over a list from a place on, which may lie before its start: what falls outside is cut
/// off.
fn lay(soft: &mut [f32], place: i64, values: &[f32]) {
    for (at, &value) in (place..).zip(values) {
        let held = usize::try_from(at).ok().and_then(|at| soft.get_mut(at));
        if let Some(held) = held {
            *held = value;
        }
    }
}

/// The longest list in which every place is tried.
const LONGEST: usize = 40;

/// A value that reads as 0 and one that reads as 1: plain ones; those next to each other; a zero and a
/// NaN that have the sign bit.
const READINGS: [[f32; 2]; 4] = [
    [1.0, -1.0],
    [0.0, f32::from_bits(0x8000_0001)],
    [-0.0, f32::NEG_INFINITY],
    [f32::from_bits(0xffc0_1234), f32::MIN],
];

/// A list of values that all read as `around` but for the bits that are laid at a place.
fn laid((len, around): (usize, u8), place: i64, bits: [u8; WORD], readings: [f32; 2]) -> StartCall {
    let value = |bit: u8| readings[usize::from(bit)];
    let mut soft = vec![value(around); len];
    lay(&mut soft, place, &bits.map(value));
    let soft = Floats(soft);
    StartCall { soft }
}

/// A word at every place of every list of up to 40 values, also cut off at the list's start or end; at
/// the last place nothing of it is left. So some lists begin with a word that lacks its first two bits,
/// which a register that starts with zeros, or with ones, would put in front.
fn at_every_place(around: u8, word: [u8; WORD], readings: [f32; 2]) -> Vec<StartCall> {
    let of_length = |len: usize| {
        let places = 1 - WORD as i64..=len as i64;
        places.map(move |place| laid((len, around), place, word, readings))
    };
    (0..=LONGEST).flat_map(of_length).collect()
}

/// A word with one bit that is wrong, each of them, at every place of a list of 40 values.
fn damaged_at_every_place(around: u8, word: [u8; WORD], readings: [f32; 2]) -> Vec<StartCall> {
    let with_damaged = |bit: usize| {
        let mut bits = word;
        bits[bit] ^= 1;
        let places = 0..=(LONGEST - WORD) as i64;
        places.map(move |place| laid((LONGEST, around), place, bits, readings))
    };
    (0..WORD).flat_map(with_damaged).collect()
}

/// Either word at every place, whole, cut off and damaged, between zeros and between ones.
pub fn every_place() -> Vec<StartCall> {
    let mut calls = Vec::new();
    for readings in READINGS {
        for word in WORDS {
            for around in [0, 1] {
                calls.extend(at_every_place(around, word, readings));
                calls.extend(damaged_at_every_place(around, word, readings));
            }
        }
    }
    calls
}

/// Symbols in a frame.
const FRAME: usize = 204;

/// The most values of a random list.
const MOST_VALUES: usize = 1_000_000;

/// How many values: mostly about as many as a word has, else those of a few frames, seldom very many.
fn random_count(rng: &mut Rng) -> usize {
    match rng.below(500) {
        0 => rng.below(MOST_VALUES + 1),
        1..100 => rng.below(4 * FRAME + 1),
        _ => rng.below(LONGEST + 1),
    }
}

/// Any value that reads as the bit: any bits, a small number or a special value.
fn value_of(rng: &mut Rng, bit: u8) -> f32 {
    loop {
        let value = match rng.below(3) {
            0 => f32::from_bits(rng.next_u64() as u32),
            1 => draw::noise(rng),
            _ => draw::special(rng),
        };
        if u8::from(value < 0.0) == bit {
            return value;
        }
    }
}

/// Puts a word into a list: first, last, or anywhere, cut off at either end and over another too. Once
/// in four times one of its bits is wrong.
fn plant(rng: &mut Rng, soft: &mut [f32]) {
    let mut bits = *rng.pick(&WORDS);
    if rng.once_in(4) {
        bits[rng.below(WORD)] ^= 1;
    }
    let (len, word) = (soft.len() as i64, WORD as i64);
    let place = match rng.below(4) {
        0 => 0,
        1 => len - word,
        _ => rng.below(soft.len() + WORD) as i64 - word + 1,
    };
    lay(soft, place, &bits.map(|bit| value_of(rng, bit)));
}

fn compare(plan: &Plan) -> Vec<Row> {
    let every = run::list(StartCall::LINKED, &every_place());
    vec![
        every.row("frame start, every place"),
        run::random::<StartCall>(StartCall::LINKED, plan.seed, plan.captures),
    ]
}

// ---- The benchmark

/// What the port is timed beside: the bits of each window are compared with either word, up to the
/// first that is another. The Rust's own reading makes a list of each window, and takes longer.
fn scan(soft: &[f32]) -> Option<(usize, u8)> {
    let code = |window: &[f32]| {
        let bits = || window.iter().map(|&value| u8::from(value < 0.0));
        WORDS
            .iter()
            .position(|word| bits().eq(word.iter().copied()))
    };
    let mut windows = soft.windows(WORD).enumerate();
    windows.find_map(|(f, window)| Some((f, code(window)? as u8)))
}

fn port_start(soft: &[f32]) -> Option<(usize, u8)> {
    let (mut found, mut start, mut word) = (0, 0, 0);
    let code = ffi::frame_start(soft, &mut found, &mut start, &mut word);
    assert_eq!(code, 0, "the frame start is never refused");
    (found == 1).then_some((start, word))
}

/// Random values of both signs without a start.
fn without_start(rng: &mut Rng, count: usize) -> Vec<f32> {
    let mut soft: Vec<f32> = (0..count).map(|_| draw::noise(rng)).collect();
    while let Some((f, _)) = scan(&soft) {
        soft[f] = if soft[f] < 0.0 { 1.0 } else { -1.0 };
    }
    soft
}

/// Random values of both signs whose only start is at their end.
fn with_last_start(rng: &mut Rng, count: usize) -> Vec<f32> {
    let end = count - WORD;
    loop {
        let mut soft = without_start(rng, count);
        let word = rng.pick(&WORDS).map(|bit| 0.5 - f32::from(bit));
        lay(&mut soft, end as i64, &word);
        if scan(&soft).is_some_and(|(f, _)| f == end) {
            return soft;
        }
    }
}

/// The lists in turn. None has two starts, so that each has one right answer, and the port's is first
/// seen to be that.
fn start_row(operation: String, effort: &Effort, lists: &[Vec<f32>]) -> timing::Row {
    for soft in lists {
        assert_eq!(port_start(soft), scan(soft));
        assert_eq!(answer(soft), scan(soft));
    }
    let at = |i: usize| black_box(&lists[i % lists.len()][..]);
    row(
        operation,
        "a plain scan of windows",
        effort,
        |i| port_start(at(i)),
        |i| scan(at(i)),
    )
}

/// Short lists that the calls take in turn: so many that the processor does not come to foresee their
/// branches.
const LISTS: usize = 512;

/// Of three frames, whose only start is the last place; of many values without one; and of as many that
/// are all above zero, whose branches the processor foresees.
fn bench(effort: &Effort) -> Vec<timing::Row> {
    let mut rng = Rng::new(1);
    let frames = |_| with_last_start(&mut rng, 3 * FRAME);
    let few: Vec<Vec<f32>> = (0..LISTS).map(frames).collect();
    let many = [without_start(&mut rng, MOST_VALUES)];
    let above = [vec![1.0; MOST_VALUES]];
    let of_values = |count, what| format!("frame start of {} values, {what}", thousands(count));
    let with_calls = |calls| Effort { calls, ..*effort };
    vec![
        start_row(
            of_values(3 * FRAME, "the last place"),
            &with_calls(LISTS),
            &few,
        ),
        start_row(of_values(MOST_VALUES, "none"), &with_calls(1), &many),
        start_row(
            of_values(MOST_VALUES, "all above zero"),
            &with_calls(1),
            &above,
        ),
    ]
}

// ---- Stored answers

fn record(soft: &[f32]) -> Record {
    let answer = Ok(answer(soft));
    Record::of(&answer)
        .exact_floats(soft)
        .written(&answer, is_found)
        .written(&answer, start_written)
        .written(&answer, word_written)
}

/// Any whole numbers, of which some spell the bits from a place on, drawn until `only` is their only
/// start, or they have none.
fn drawn(
    rng: &mut Rng,
    len: usize,
    (place, bits): (usize, &[u8]),
    only: Option<(usize, u8)>,
) -> Vec<f32> {
    loop {
        let mut soft = any_bytes(rng, len);
        for (value, &bit) in soft[place..].iter_mut().zip(bits) {
            let size = f32::from(rng.byte() % 127);
            *value = if bit == 1 { -1.0 - size } else { size };
        }
        if starts(&soft).eq(only) {
            return soft;
        }
    }
}

/// Values that read as 0: those that a sign bit or a test for "above zero" would take for 1.
const ZEROS: [f32; 6] = [
    -0.0,
    f32::NAN,
    f32::INFINITY,
    0.0,
    f32::from_bits(0xff80_0001),
    f32::from_bits(1),
];

/// Values that read as 1: the one nearest zero first.
const ONES: [f32; 3] = [f32::from_bits(0x8000_0001), f32::NEG_INFINITY, f32::MIN];

/// A word between twelve values on either side that read as `around`, all of them unusual.
fn unusual(word: [u8; WORD], around: u8) -> Vec<f32> {
    let side = [around; 12];
    let bits = side.into_iter().chain(word).chain(side);
    let value = |(at, bit): (usize, u8)| match bit {
        1 => ONES[at % ONES.len()],
        _ => ZEROS[at % ZEROS.len()],
    };
    bits.enumerate().map(value).collect()
}

/// The lists whose answers are stored. None has two starts, so that every right program gives the
/// stored answer.
fn stored_lists(rng: &mut Rng) -> Vec<Vec<f32>> {
    let [w0, w1] = WORDS;
    let mut damaged = w0;
    damaged[9] ^= 1;
    vec![
        Vec::new(),
        // Cut off at the end, and at the start.
        drawn(rng, 15, (0, &w0[..15]), None),
        drawn(rng, 15, (0, &w1[1..]), None),
        // Nothing but a word.
        drawn(rng, 16, (0, &w0), Some((0, 0))),
        drawn(rng, 16, (0, &w1), Some((0, 1))),
        // The last place, and the first.
        drawn(rng, 40, (24, &w0), Some((24, 0))),
        drawn(rng, 40, (0, &w1), Some((0, 1))),
        unusual(w0, 0),
        unusual(w1, 1),
        drawn(rng, 40, (12, &damaged), None),
        // A register that starts with zeros, or with ones, would see a word here.
        drawn(rng, 40, (0, &w0[2..]), None),
        drawn(rng, 40, (0, &w1[2..]), None),
        // Three frames.
        drawn(rng, 3 * FRAME, (300, &w1), Some((300, 1))),
        drawn(rng, 3 * FRAME, (0, &[]), None),
    ]
}

/// Found at the first place, the last and between, of usual and unusual values; and not found.
fn stored(rng: &mut Rng) -> Vec<Record> {
    let lists = stored_lists(rng);
    lists.iter().map(|soft| record(soft)).collect()
}

#[cfg(test)]
mod tests {
    use super::*;

    #[test]
    fn words_are_those_of_the_request() {
        let digits = |word: [u8; WORD]| word.map(|bit| bit.to_string()).concat();
        assert_eq!(digits(WORDS[0]), "0011010111101110");
        assert_eq!(WORDS[0].map(|bit| 1 - bit), WORDS[1]);
    }

    #[test]
    fn values_read_as_the_request_says() {
        let nans = [0x7fc0_0000, 0x7f80_0001, 0xffc0_0000, 0xffff_ffff].map(f32::from_bits);
        let zeros = [0.0, -0.0, f32::from_bits(1), 1.0, f32::INFINITY];
        let ones = [f32::from_bits(0x8000_0001), -1.0, f32::NEG_INFINITY];
        for zero in nans.into_iter().chain(zeros) {
            for one in ones {
                for (code, word) in (0..).zip(WORDS) {
                    let soft = word.map(|bit| if bit == 1 { one } else { zero });
                    assert_eq!(answer(&soft), Some((0, code)), "{zero} and {one}");
                }
            }
        }
    }

    #[test]
    fn every_start_is_right_and_no_other() {
        let [w0, w1] = WORDS.map(|word| word.map(|bit| 0.5 - f32::from(bit)));
        let soft = [&[1.0][..], &w1, &w0, &[-1.0]].concat();
        assert_eq!(starts(&soft).collect::<Vec<_>>(), [(1, 1), (17, 0)]);
        assert_eq!(answer(&soft), Some((1, 1)));
        assert_eq!(right(&soft, Some((17, 0))), Some((17, 0)));
        for wrong in [None, Some((17, 1)), Some((16, 0)), Some((usize::MAX, 0))] {
            assert_eq!(right(&soft, wrong), Some((1, 1)), "{wrong:?}");
        }
        assert_eq!(right(&soft[..16], Some((1, 1))), None);
    }

    #[test]
    fn a_word_at_every_place_is_a_start() {
        for readings in READINGS {
            for (code, word) in (0..).zip(WORDS) {
                for around in [0, 1] {
                    let call = |len, place| laid((len, around), place, word, readings).soft.0;
                    assert!(starts(&call(40, 24)).eq([(24, code)]));
                    assert!(starts(&call(16, 0)).eq([(0, code)]));
                    for (len, place) in [(40, -1), (40, -2), (40, 25), (15, 0), (0, 0)] {
                        assert!(starts(&call(len, place)).eq(None), "{len} and {place}");
                    }
                }
            }
        }
    }

    #[test]
    fn the_scan_that_is_timed_is_right() {
        for call in every_place() {
            assert_eq!(scan(&call.soft.0), answer(&call.soft.0), "{call}");
        }
        let rng = &mut Rng::new(1);
        assert_eq!(answer(&without_start(rng, 5000)), None);
        let last = with_last_start(rng, 3 * FRAME);
        assert!(starts(&last).map(|(f, _)| f).eq([3 * FRAME - WORD]));
    }

    #[test]
    fn stored_lists_have_one_start_or_none() {
        let found = [0, 0, 0, 1, 1, 1, 1, 1, 1, 0, 0, 0, 1, 0];
        for seed in 1..20 {
            let lists = stored_lists(&mut Rng::new(seed));
            let counts: Vec<usize> = lists.iter().map(|soft| starts(soft).count()).collect();
            assert_eq!(counts, found);
        }
        let records = stored(&mut Rng::new(1));
        for (record, found) in records.iter().zip(found) {
            // Each behind how many are written, and that not all are alike.
            assert_eq!(record.answer()[..4], [1, 0, 0, found as u8]);
            assert_eq!(record.code(), 0);
        }
        // The last place of forty; 300 of three frames; none.
        assert_eq!(records[5].answer()[4..], [1, 0, 0, 24, 0, 0, 0, 1, 0, 0, 0]);
        assert_eq!(
            records[12].answer()[4..],
            [1, 0, 0, 44, 1, 0, 0, 1, 0, 0, 1]
        );
        assert_eq!(records[13].answer()[4..], [0; 6]);
    }
}
