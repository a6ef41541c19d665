//! Captures that are partly silent, for the lead of the pilot phase.
//!
//! A symbol is heard if at least one of its four pilot sets has energy above zero; else it is silent,
//! also where it has values that are not zero, or energies that are NaN. The energy of a set is that of
//! its pairs of neighbours, 12 carriers apart.

use super::captures::{self, Band, Filling, Places, draw};
use crate::codes::kinds_of_choice;
use crate::harness::rng::Rng;
use crate::isdb::frame::{FrameLayout, pilot_value};
use crate::isdb::params::Mode;

/// The floats of a capture.
#[derive(Debug, Clone, Copy, PartialEq, Eq)]
pub enum Parts {
    /// Any, NaNs and infinities included.
    Any,
    /// Whole numbers from −32,768 to 32,768.
    Whole,
}

// ---- The pilot sets

/// The pilot set of one phase.
struct Set {
    /// Its carriers, the lowest first.
    carriers: Vec<usize>,
    /// The signs of its pilots, 1 or −1.
    signs: Vec<f32>,
}

impl Set {
    fn of(layout: &FrameLayout, phase: usize) -> Self {
        let pilots = layout.sp[phase].iter();
        let carriers: Vec<usize> = pilots.map(|&k| k as usize).collect();
        let sign = |&k: &usize| pilot_value(layout.w[k]).re.signum();
        Self {
            signs: carriers.iter().map(sign).collect(),
            carriers,
        }
    }

    fn len(&self) -> usize {
        self.carriers.len()
    }

    /// The places in the set of pilots whose next one is their neighbour, or of those whose next one is
    /// not: differential segments lie between.
    fn places(&self, next_to: bool) -> Vec<usize> {
        let steps = self.carriers.windows(2).enumerate();
        steps
            .filter(|(_, step)| (step[1] == step[0] + 12) == next_to)
            .map(|(at, _)| at)
            .collect()
    }

    /// The pilot's value that is received as `pair` where its sign is 1.
    fn signed(&self, at: usize, [re, im]: [f32; 2]) -> [f32; 2] {
        [self.signs[at] * re, self.signs[at] * im]
    }

    fn put(&self, pairs: &[[f32; 2]], spectrum: &mut [f32]) {
        for (&k, pair) in self.carriers.iter().zip(pairs) {
            spectrum[2 * k..2 * k + 2].copy_from_slice(pair);
        }
    }
}

/// A spectrum in which the pilots of one phase alone are not zero. Each is given by its place in the
/// set, as it is where its sign is 1.
pub fn one_set_alone(
    layout: &FrameLayout,
    phase: usize,
    pilot: impl Fn(usize) -> [f32; 2],
) -> Vec<f32> {
    let set = Set::of(layout, phase);
    let pairs = (0..set.len()).map(|at| set.signed(at, pilot(at)));
    let mut spectrum = vec![0.0; 2 * layout.k_total];
    set.put(&pairs.collect::<Vec<_>>(), &mut spectrum);
    spectrum
}

// ---- What a set has

/// What the pilots of a set have, one after another. A set has pilots.
type Content = fn(&mut Rng, &Set) -> Vec<[f32; 2]>;

/// A value of whole parts that is not zero.
fn value(rng: &mut Rng) -> [f32; 2] {
    let limit = *rng.pick(&[1, 3, 100, 1 << 15]);
    loop {
        let value = [draw::whole(rng, limit), draw::whole(rng, limit)];
        if value != [0.0, 0.0] {
            return value;
        }
    }
}

fn negated([re, im]: [f32; 2]) -> [f32; 2] {
    [-re, -im]
}

fn nothing(_: &mut Rng, set: &Set) -> Vec<[f32; 2]> {
    vec![[0.0, 0.0]; set.len()]
}

/// One value, negated at some places.
fn one_value(
    rng: &mut Rng,
    set: &Set,
    is_negated: impl Fn(&mut Rng, usize) -> bool,
) -> Vec<[f32; 2]> {
    let value = value(rng);
    let pilot = |at| {
        let negate = is_negated(rng, at);
        set.signed(at, if negate { negated(value) } else { value })
    };
    (0..set.len()).map(pilot).collect()
}

/// The metric is about 1.
fn coherent(rng: &mut Rng, set: &Set) -> Vec<[f32; 2]> {
    one_value(rng, set, |_, _| false)
}

/// Each pilot against the one before: the metric is about −1, and a set without energy is chosen before
/// it.
fn opposed(rng: &mut Rng, set: &Set) -> Vec<[f32; 2]> {
    one_value(rng, set, |_, at| at % 2 == 1)
}

fn any_signs(rng: &mut Rng, set: &Set) -> Vec<[f32; 2]> {
    one_value(rng, set, |rng, _| rng.once_in(2))
}

/// Two pilots that follow each other alone, from a place on.
fn two(rng: &mut Rng, set: &Set, at: usize) -> Vec<[f32; 2]> {
    let mut pairs = nothing(rng, set);
    let all = any_signs(rng, set);
    pairs[at..at + 2].copy_from_slice(&all[at..at + 2]);
    pairs
}

/// Two neighbours alone.
fn two_neighbours(rng: &mut Rng, set: &Set) -> Vec<[f32; 2]> {
    let at = *rng.pick(&set.places(true));
    two(rng, set, at)
}

/// Two pilots alone that follow each other and are no neighbours, where there are such.
fn two_strangers(rng: &mut Rng, set: &Set) -> Vec<[f32; 2]> {
    let places = set.places(false);
    if places.is_empty() {
        return nothing(rng, set);
    }
    let at = *rng.pick(&places);
    two(rng, set, at)
}

/// Every other pilot alone: no neighbour of one that is not zero is not zero.
fn every_other(rng: &mut Rng, set: &Set) -> Vec<[f32; 2]> {
    let mut pairs = nothing(rng, set);
    for at in (rng.below(2)..set.len()).step_by(2) {
        pairs[at] = value(rng);
    }
    pairs
}

/// Parts whose exponents' bits are from `low` to `high`.
fn of_size(rng: &mut Rng, set: &Set, low: usize, high: usize) -> Vec<[f32; 2]> {
    let pilot = |_| [draw::sized(rng, low, high), draw::sized(rng, low, high)];
    (0..set.len()).map(pilot).collect()
}

/// The product of two norms is below half of the smallest subnormal.
fn vanishing(rng: &mut Rng, set: &Set) -> Vec<[f32; 2]> {
    of_size(rng, set, 127 - 100, 127 - 77)
}

/// Products of two norms are subnormal, and so is their sum.
fn faint(rng: &mut Rng, set: &Set) -> Vec<[f32; 2]> {
    of_size(rng, set, 127 - 73, 127 - 70)
}

/// The product of two norms overflows.
fn overflowing(rng: &mut Rng, set: &Set) -> Vec<[f32; 2]> {
    of_size(rng, set, 127 + 64, 127 + 100)
}

/// Puts a float into either part of one of the pairs. Gives the other part.
fn put_in<'a>(rng: &mut Rng, pairs: &'a mut [[f32; 2]], float: f32) -> &'a mut f32 {
    let [re, im] = &mut pairs[rng.below(pairs.len())];
    let (part, other) = if rng.once_in(2) { (re, im) } else { (im, re) };
    *part = float;
    other
}

fn infinity(rng: &mut Rng) -> f32 {
    *rng.pick(&[f32::INFINITY, f32::NEG_INFINITY])
}

/// An infinity between pilots that are not zero.
fn infinite(rng: &mut Rng, set: &Set) -> Vec<[f32; 2]> {
    let mut pairs = any_signs(rng, set);
    let infinity = infinity(rng);
    put_in(rng, &mut pairs, infinity);
    pairs
}

/// An infinity between zeros: the energy is NaN.
fn infinity_alone(rng: &mut Rng, set: &Set) -> Vec<[f32; 2]> {
    let mut pairs = nothing(rng, set);
    let infinity = infinity(rng);
    put_in(rng, &mut pairs, infinity);
    pairs
}

/// A quiet or a signalling NaN, of either sign.
fn nan(rng: &mut Rng) -> f32 {
    f32::from_bits(*rng.pick(&[0x7fc0_0000, 0xffc0_0000, 0x7f80_0001, 0xffff_ffff]))
}

/// A NaN between zeros or between other pilots; seldom beside an infinity, whose `hypot` would be
/// infinite.
fn with_nan(rng: &mut Rng, set: &Set) -> Vec<[f32; 2]> {
    let around = *rng.pick(&[nothing as Content, any_signs]);
    let mut pairs = around(rng, set);
    let nan = nan(rng);
    let other = put_in(rng, &mut pairs, nan);
    if rng.once_in(8) {
        *other = infinity(rng);
    }
    pairs
}

/// Contents of sets whose energy is not above zero, and of sets whose energy is. Those of whole numbers
/// come first.
const SILENT: [Content; 6] = [
    nothing,
    every_other,
    two_strangers,
    vanishing,
    infinity_alone,
    with_nan,
];
const HEARD: [Content; 7] = [
    coherent,
    opposed,
    any_signs,
    two_neighbours,
    faint,
    infinite,
    overflowing,
];

/// Those of a capture, silent and heard.
fn contents(parts: Parts) -> (&'static [Content], &'static [Content]) {
    match parts {
        Parts::Any => (&SILENT, &HEARD),
        Parts::Whole => (&SILENT[..3], &HEARD[..4]),
    }
}

/// What the four sets have, of which one has one of `ones`: that set alone, all the same, or each of the
/// others any of `all`.
fn of_four(rng: &mut Rng, ones: &[Content], all: &[Content]) -> [Content; 4] {
    let one = *rng.pick(ones);
    let mut four = match rng.below(3) {
        0 => [nothing as Content; 4],
        1 => [one; 4],
        _ => std::array::from_fn(|_| *rng.pick(all)),
    };
    four[rng.below(4)] = one;
    four
}

// ---- The symbols

/// What symbols are made with.
struct Maker {
    parts: Parts,
    len: usize,
    sets: [Set; 4],
}

impl Maker {
    fn new(layout: &FrameLayout, parts: Parts) -> Self {
        Self {
            parts,
            len: layout.k_total,
            sets: std::array::from_fn(|phase| Set::of(layout, phase)),
        }
    }

    /// Puts these contents into the sets. The other carriers stay as they are.
    fn put(&self, rng: &mut Rng, spectrum: &mut [f32], contents: [Content; 4]) {
        for (set, content) in self.sets.iter().zip(contents) {
            set.put(&content(rng, set), spectrum);
        }
    }

    /// Puts contents into the sets as [`of_four`] draws them. The other carriers are zero, or stay as
    /// they are.
    fn put_anew(&self, rng: &mut Rng, spectrum: &mut [f32], ones: &[Content], all: &[Content]) {
        if rng.once_in(2) {
            spectrum.fill(0.0);
        }
        let contents = of_four(rng, ones, all);
        self.put(rng, spectrum, contents);
    }

    /// Puts a NaN into so many sets, with as little else changed as can be.
    fn spoil(&self, rng: &mut Rng, spectrum: &mut [f32], sets: usize) {
        let first = rng.below(4);
        for set in self.sets.iter().cycle().skip(first).take(sets) {
            let k = *rng.pick(&set.carriers);
            spectrum[2 * k + rng.below(2)] = nan(rng);
        }
    }

    /// Makes a symbol silent: in at least half of the cases by zeros of either sign.
    fn silence(&self, rng: &mut Rng, spectrum: &mut [f32]) {
        let (silent, _) = contents(self.parts);
        match rng.below(8) {
            0 if self.parts == Parts::Any => self.spoil(rng, spectrum, 4),
            1 => self.put(rng, spectrum, [nothing; 4]),
            2..4 => self.put_anew(rng, spectrum, silent, silent),
            _ => captures::silence(rng, self.len, spectrum),
        }
    }

    /// Leaves a heard symbol as it is, in at least half of the cases, or changes what makes it heard.
    fn disturb(&self, rng: &mut Rng, spectrum: &mut [f32]) {
        let (silent, heard) = contents(self.parts);
        match rng.below(8) {
            0 if self.parts == Parts::Any => {
                let sets = 1 + rng.below(3);
                self.spoil(rng, spectrum, sets);
            }
            1..4 => self.put_anew(rng, spectrum, heard, &[silent, heard].concat()),
            _ => {}
        }
    }

    /// Makes a symbol of a heard one.
    fn make(&self, rng: &mut Rng, spectrum: &mut [f32], silent: bool) {
        if silent {
            self.silence(rng, spectrum);
        } else {
            self.disturb(rng, spectrum);
        }
    }
}

/// Which symbols of a capture are silent: those before a place; those behind one; those between two
/// places, but for the first and the last of all; those around them; all; or any.
fn silent_symbols(rng: &mut Rng, count: usize) -> Vec<bool> {
    let places = [rng.below(count + 1), rng.below(count + 1)];
    let between = places[0].min(places[1])..places[0].max(places[1]);
    let sort = rng.below(10);
    let is_silent = |symbol| match sort {
        0 | 1 => symbol < between.end,
        2 => symbol >= between.start,
        3..6 => between.contains(&symbol) && symbol > 0 && symbol + 1 < count,
        6 => !between.contains(&symbol),
        7 => true,
        _ => rng.once_in(2),
    };
    (0..count).map(is_silent).collect()
}

/// Spectra that are heard: of a band, units or noise.
fn heard_spectra(rng: &mut Rng, mode: Mode, choice: u16, count: usize, parts: Parts) -> Vec<f32> {
    let len = Places::Carriers.count(mode);
    let filling = match (rng.below(8), parts) {
        (0, _) => captures::quarters as Filling,
        (1, Parts::Any) => captures::noise,
        (1, Parts::Whole) => captures::whole_numbers,
        _ => {
            let band = match parts {
                Parts::Any => Band::new(rng, mode, choice),
                Parts::Whole => Band::of_whole_numbers(rng, mode, choice),
            };
            return band.spectra(rng, Places::Carriers, count);
        }
    };
    let mut floats = vec![0.0; 2 * len * count];
    filling(rng, len, &mut floats);
    floats
}

/// `count` random spectra of the band's carriers, of which some are silent. Without scattered pilots all
/// of them are, whatever they have.
pub fn spectra(rng: &mut Rng, mode: Mode, choice: u16, count: usize, parts: Parts) -> Vec<f32> {
    let mut floats = heard_spectra(rng, mode, choice, count, parts);
    let layout = FrameLayout::new(mode, kinds_of_choice(choice));
    if layout.sp[0].is_empty() {
        return floats;
    }
    let maker = Maker::new(&layout, parts);
    let symbols = floats.chunks_exact_mut(2 * maker.len);
    for (spectrum, silent) in symbols.zip(silent_symbols(rng, count)) {
        maker.make(rng, spectrum, silent);
    }
    floats
}

/// How many spectra: mostly up to 12, a few of none, seldom up to 40.
pub fn count(rng: &mut Rng) -> usize {
    match rng.below(64) {
        0 => 0,
        1 => 1 + rng.below(40),
        2..16 => 1 + rng.below(4),
        _ => 1 + rng.below(12),
    }
}

#[cfg(test)]
mod tests {
    use super::*;
    use crate::codes::kind_bytes;
    use crate::ops::detect_sp_phase::{ballots, is_heard};

    /// Segments 0, 1 and 2 are neighbours, and 5 and 6 have none.
    const CHOICE: u16 = 0b1_1111_1001_1000;

    /// The energies of the set that a content is put into alone, many times over.
    fn energies(content: Content, mode: Mode) -> Vec<f32> {
        let layout = FrameLayout::new(mode, kinds_of_choice(CHOICE));
        let rng = &mut Rng::new(1);
        let energy = |case: usize| {
            let set = Set::of(&layout, case % 4);
            let mut spectrum = vec![0.0; 2 * layout.k_total];
            set.put(&content(rng, &set), &mut spectrum);
            let ballots = ballots(mode.number(), &kind_bytes(CHOICE), &spectrum);
            ballots[0].1[case % 4]
        };
        (0..80).map(energy).collect()
    }

    #[test]
    fn contents_have_the_energies_that_they_are_named_for() {
        for mode in crate::codes::MODES {
            let all = |content, holds: fn(f32) -> bool| {
                let energies = energies(content, mode);
                assert!(energies.iter().all(|&energy| holds(energy)), "{energies:?}");
            };
            for content in [nothing as Content, every_other, two_strangers, vanishing] {
                all(content, |energy| energy == 0.0);
            }
            for content in [infinity_alone as Content, with_nan] {
                all(content, f32::is_nan);
            }
            for content in [coherent as Content, opposed, any_signs, two_neighbours] {
                all(content, |energy| energy >= 1.0 && energy.is_finite());
            }
            for content in [infinite as Content, overflowing] {
                all(content, |energy| energy == f32::INFINITY);
            }
            all(faint, |energy| energy > 0.0 && energy.is_subnormal());
        }
    }

    #[test]
    fn symbols_are_silent_or_heard_as_they_are_meant_to_be() {
        let (mode, rng) = (Mode::M1, &mut Rng::new(1));
        let layout = FrameLayout::new(mode, kinds_of_choice(CHOICE));
        for parts in [Parts::Any, Parts::Whole] {
            let maker = Maker::new(&layout, parts);
            for _ in 0..400 {
                let heard = heard_spectra(rng, mode, CHOICE, 1, parts);
                for silent in [false, true] {
                    let mut spectrum = heard.clone();
                    maker.make(rng, &mut spectrum, silent);
                    let ballots = ballots(mode.number(), &kind_bytes(CHOICE), &spectrum);
                    assert_eq!(is_heard(&ballots[0]), !silent);
                    let whole = |x: f32| x.fract() == 0.0 && x.abs() <= 32_768.0;
                    assert!(parts == Parts::Any || spectrum.iter().all(|&x| whole(x)));
                }
            }
        }
    }

    #[test]
    fn any_symbols_are_silent() {
        let rng = &mut Rng::new(1);
        let patterns = (0..2000).map(|_| silent_symbols(rng, 3));
        let mut met: Vec<_> = patterns.collect();
        met.sort_unstable();
        met.dedup();
        assert_eq!(met.len(), 8);
    }
}
