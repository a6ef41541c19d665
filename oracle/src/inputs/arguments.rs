//! Arguments that several operations take: around the boundaries of their refusals, and random ones,
//! mostly good.

use super::captures::few;
use crate::codes::{BAD_FLOATS, MODES, kind_bytes, kinds_of, mode_of};
use crate::harness::call::{Floats, accept};
use crate::harness::rng::Rng;
use crate::isdb::frame::SegmentKind;
use crate::isdb::params::{GuardInterval, Mode, SEGMENTS};

/// The most spectra.
pub const MOST_SPECTRA: usize = 1024;

/// Refuses what is not whole spectra of `len` pairs, or too many of them.
pub fn whole_spectra(floats: &[f32], len: usize) -> Result<(), u8> {
    let whole = floats.len().is_multiple_of(2 * len);
    accept(
        whole && floats.len() / (2 * len) <= MOST_SPECTRA,
        BAD_FLOATS,
    )
}

/// Every good mode, and bad ones next to them and far off.
pub const MODE_NUMBERS: [u8; 6] = [0, 1, 2, 3, 4, 255];

/// Every good phase, and bad ones.
pub const PHASE_NUMBERS: [u8; 6] = [0, 1, 2, 3, 4, 255];

/// Good kinds, kinds of the wrong length, and a bad byte in each position.
pub fn boundary_kinds() -> Vec<Vec<u8>> {
    let mixed = kind_bytes(0b1_0110_0101_1010).to_vec();
    let mut all = vec![vec![0; SEGMENTS], vec![1; SEGMENTS], mixed.clone()];
    all.extend([0, SEGMENTS - 1, SEGMENTS + 1].map(|len| vec![0; len]));
    all.extend([SEGMENTS - 1, SEGMENTS + 1].map(|len| vec![2; len]));
    for position in 0..SEGMENTS {
        for bad in [2, 255] {
            let mut kinds = mixed.clone();
            kinds[position] = bad;
            all.push(kinds);
        }
    }
    all
}

/// Lengths around the one that is right in a mode, and those that are right in the others; of a bad
/// mode, those that are right in any.
pub fn boundary_lengths(mode: u8, right: fn(Mode) -> usize) -> Vec<usize> {
    let mut lengths = vec![0];
    lengths.extend(MODES.map(right));
    if let Ok(mode) = mode_of(mode) {
        lengths.extend([right(mode) - 1, right(mode) + 1]);
    }
    lengths
}

/// The carriers around the last one, and far off.
pub fn boundary_carriers(mode: u8) -> Vec<usize> {
    let mut carriers = vec![0, 1 << 16, 1 << 32, usize::MAX >> 1, 1 << 63, usize::MAX];
    carriers.extend(MODES.map(Mode::total_carriers));
    if let Ok(mode) = mode_of(mode) {
        carriers.extend([mode.total_carriers() - 1, mode.total_carriers() + 1]);
    }
    carriers
}

/// A mode, mostly good.
pub fn random_mode(rng: &mut Rng) -> u8 {
    if rng.once_in(16) {
        rng.byte()
    } else {
        rng.pick(&MODES).number()
    }
}

/// A phase, mostly good.
pub fn random_phase(rng: &mut Rng) -> u8 {
    if rng.once_in(16) {
        rng.byte()
    } else {
        rng.byte() % 4
    }
}

/// Kinds, mostly good; else with a byte of any value or of another length.
pub fn random_kinds(rng: &mut Rng) -> Vec<u8> {
    let mut kinds = kind_bytes(rng.choice()).to_vec();
    match rng.below(16) {
        0 => kinds[rng.below(SEGMENTS)] = rng.byte(),
        1 => kinds.resize(rng.below(2 * SEGMENTS), 1),
        _ => {}
    }
    kinds
}

/// A length, mostly the right one, else one next to it or any up to twice as much.
pub fn random_length(rng: &mut Rng, right: usize) -> usize {
    match rng.below(16) {
        0 => right - 1,
        1 => right + 1,
        2 => rng.below(2 * right),
        _ => right,
    }
}

/// A carrier, mostly in a band of so many, else of any size.
pub fn random_carrier(rng: &mut Rng, total: usize) -> usize {
    if rng.once_in(8) {
        (rng.next_u64() >> rng.below(64)) as usize
    } else {
        rng.below(total + 2)
    }
}

/// Kinds as letters, any other byte as its number.
pub fn readable(kinds: &[u8]) -> String {
    let letter = |&byte: &u8| match byte {
        0 => "C".to_string(),
        1 => "D".to_string(),
        other => format!("<{other}>"),
    };
    let letters: String = kinds.iter().map(letter).collect();
    format!("\"{letters}\" ({} kinds)", kinds.len())
}

/// Once in so many random calls there are up to 1,024 spectra.
pub const SELDOM: usize = 2500;

/// The size of a mode; of a bad one, that of mode 1.
pub fn size(mode: u8, of: impl Fn(Mode) -> usize) -> usize {
    of(mode_of(mode).unwrap_or(Mode::M1))
}

/// Numbers of floats around whole spectra of `len` pairs, with `other` the length that spectra have
/// elsewhere.
pub fn boundary_floats(len: usize, other: usize) -> [usize; 9] {
    let one = 2 * len;
    let twice = 2 * one;
    [
        0,
        1,
        one - 1,
        one,
        one + 1,
        one + 2,
        twice,
        twice - 2,
        2 * other,
    ]
}

/// Numbers of floats around the most spectra of `len` pairs; beyond mode 1, where they take long, few
/// of them.
pub fn many_floats(mode: u8, len: usize) -> Vec<usize> {
    let most = 2 * len * MOST_SPECTRA;
    match mode {
        1 => vec![most, most + 1, most + 2 * len - 1, most + 2 * len],
        2 => vec![most, most + 2 * len],
        _ => vec![most + 2 * len],
    }
}

/// The right length or, seldom, another.
pub fn mostly(rng: &mut Rng, right: usize) -> usize {
    match rng.below(64) {
        0 => right - 1,
        1 => right + 1,
        2 => rng.below(2 * right),
        _ => right,
    }
}

/// The mode's number or, seldom, any byte.
pub fn mostly_good_mode(rng: &mut Rng, mode: Mode) -> u8 {
    if rng.once_in(64) {
        rng.byte()
    } else {
        mode.number()
    }
}

/// How many spectra in a mode: few, seldom many in mode 1.
pub fn random_count(rng: &mut Rng, mode: Mode) -> usize {
    if mode == Mode::M1 && rng.once_in(SELDOM) {
        return 1 + rng.below(MOST_SPECTRA);
    }
    if rng.once_in(128) { 0 } else { few(rng) }
}

/// Takes some floats from the end, or adds some; seldom.
pub fn mostly_whole(rng: &mut Rng, mut floats: Vec<f32>) -> Floats {
    match rng.below(64) {
        0 => floats.truncate(rng.below(floats.len() + 1)),
        1 => floats.resize(floats.len() + 1 + rng.below(4), 1.0),
        _ => {}
    }
    Floats(floats)
}

/// Kinds and the choice that they are, mostly good. One in eight has all of one kind.
pub fn mostly_good_kinds(rng: &mut Rng) -> (Vec<u8>, u16) {
    let kinds = match rng.below(16) {
        0 => vec![0; SEGMENTS],
        1 => vec![1; SEGMENTS],
        2 => random_kinds(rng),
        _ => kind_bytes(rng.choice()).to_vec(),
    };
    let choice = match kinds_of(&kinds) {
        Ok(kinds) => (0..SEGMENTS)
            .map(|segment| u16::from(kinds[segment] == SegmentKind::Differential) << segment)
            .sum(),
        Err(_) => rng.choice(),
    };
    (kinds, choice)
}

/// Lists of modes, good and bad.
pub fn boundary_mode_lists() -> Vec<Vec<u8>> {
    let good: [&[u8]; 6] = [&[], &[1], &[3], &[1, 2, 3], &[3, 2, 1], &[2, 2]];
    let bad: [&[u8]; 5] = [&[0], &[4], &[255], &[1, 2, 0], &[4, 1]];
    good.iter().chain(&bad).map(|list| list.to_vec()).collect()
}

/// Lists of guards, good and bad.
pub fn boundary_guard_lists() -> Vec<Vec<u8>> {
    let good: [&[u8]; 6] = [&[], &[4], &[32], &[4, 8, 16, 32], &[32, 4], &[8, 8]];
    let bad: [&[u8]; 7] = [&[0], &[1], &[5], &[31], &[64], &[4, 8, 2], &[33, 32]];
    good.iter().chain(&bad).map(|list| list.to_vec()).collect()
}

/// Mostly the one item, else several of the good ones in any order; seldom any byte.
pub fn random_list(rng: &mut Rng, one: u8, good: &[u8]) -> Vec<u8> {
    let mut list = match rng.below(8) {
        0 => (0..rng.below(6)).map(|_| *rng.pick(good)).collect(),
        1 => good.to_vec(),
        2 => vec![one, *rng.pick(good)],
        _ => vec![one],
    };
    if rng.once_in(64) && !list.is_empty() {
        let at = rng.below(list.len());
        list[at] = rng.byte();
    }
    list
}

pub fn mode_numbers() -> [u8; 3] {
    MODES.map(Mode::number)
}

/// The fewest pairs in which a guard is searched for: four symbols and a guard beyond n.
pub fn fewest_pairs(mode: Mode, guard: GuardInterval) -> usize {
    let (n, ng) = (mode.fft_size(), guard.samples(mode));
    n + ng + 4 * (n + ng)
}
