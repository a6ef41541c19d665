//! Pairs of `f64` to compare the angle and the fractional offset on, as bits: random ones of several
//! classes, each in all four quadrants. The special pairs are those of the norm.

use super::arguments::fewest_pairs;
use super::captures::draw::{fraction, noise};
use super::floats::{
    Class, FRACTION_64, Pair, SIGN_64, TOP_64, any_pair_64, draw, either_order, parts_64,
    power_of_two, special_pairs_64,
};
use super::samples::{received, received_whole, samples};
use crate::acquire::{Acquire, Oracle};
use crate::complex::{C32, C64};
use crate::harness::rng::Rng;
use crate::isdb::params::Mode;
use crate::isdb::rx::acquire::{GUARDS, ModeGuess};
use std::f64::consts::TAU;
use std::fmt;
use std::sync::LazyLock;

/// Units in a turn.
const TURN: f64 = 65536.0;
/// Intervals of the angle's table.
const INTERVALS: u64 = 64;
/// Digits of the slope that the angle is made from.
const SLOPE: u32 = 22;
/// Binary places of `f64`, from that of the smallest subnormal to the highest.
const PLACES: u64 = 2098;

/// The pair with any signs.
fn signed(rng: &mut Rng, pair: Pair<u64>) -> Pair<u64> {
    Pair {
        re: draw::signed_64(rng, pair.re & !SIGN_64),
        im: draw::signed_64(rng, pair.im & !SIGN_64),
    }
}

/// A larger and a smaller part, in either order, with any signs.
fn any_octant(rng: &mut Rng, larger: u64, smaller: u64) -> Pair<u64> {
    let pair = either_order(rng, larger, smaller);
    signed(rng, pair)
}

/// A pair of numbers of ordinary size, times a power of two that keeps all their digits.
fn times_power_of_two(rng: &mut Rng, re: f64, im: f64) -> Pair<u64> {
    let factor = power_of_two(draw::between(rng, 0, 1800) as i32 - 900);
    Pair {
        re: (re * factor).to_bits(),
        im: (im * factor).to_bits(),
    }
}

/// A number above zero whose leading digit is at a place, counted from that of the smallest subnormal.
fn leading_at(rng: &mut Rng, place: u64) -> u64 {
    let fraction = u64::from(FRACTION_64);
    if place < fraction {
        (1 << place) + rng.next_u64() % (1 << place)
    } else {
        ((place - fraction + 1) << FRACTION_64) + rng.next_u64() % (1 << FRACTION_64)
    }
}

/// Parts with the same exponent.
fn one_exponent(rng: &mut Rng) -> Pair<u64> {
    parts_64(rng, 0, TOP_64 - 1, 0)
}

/// Exponents up to 60 apart, in either order. From 23 on the slope is 0.
fn near_exponents(rng: &mut Rng) -> Pair<u64> {
    parts_64(rng, 0, TOP_64 - 1, 60)
}

/// Leading digits as far apart as can be, each distance as likely: up to 2,097 places.
fn far_exponents(rng: &mut Rng) -> Pair<u64> {
    let apart = draw::between(rng, 0, PLACES - 1);
    let low = draw::between(rng, 0, PLACES - 1 - apart);
    let (smaller, larger) = (leading_at(rng, low), leading_at(rng, low + apart));
    any_octant(rng, larger, smaller)
}

/// Beside the axes: one part is zero, or one of the smallest numbers, or far smaller than the other.
fn beside_an_axis(rng: &mut Rng) -> Pair<u64> {
    let exponent = draw::between(rng, 1, TOP_64 - 1);
    let large = draw::with_exponent_64(rng, exponent);
    let small = match rng.below(4) {
        0 => 0,
        1 => draw::between(rng, 1, 4),
        _ => {
            let lower = exponent.saturating_sub(draw::between(rng, 10, 30));
            draw::with_exponent_64(rng, lower)
        }
    };
    any_octant(rng, large, small)
}

/// Beside the diagonals: equal parts, or parts that are up to 2^33 steps apart, each number of digits
/// of the distance as likely. 2^30 steps are about one of the slope's last digit.
fn beside_a_diagonal(rng: &mut Rng) -> Pair<u64> {
    let exponent = draw::between(rng, 0, TOP_64 - 2);
    let one = draw::with_exponent_64(rng, exponent) & !SIGN_64;
    let apart = draw::digits(rng, 33);
    any_octant(rng, one + apart, one)
}

/// Even in angle: a point anywhere in a circle.
fn even(rng: &mut Rng) -> Pair<u64> {
    loop {
        let (re, im) = (fraction(rng), fraction(rng));
        let square = re * re + im * im;
        if square <= 1.0 && square > 1e-6 {
            let pair = times_power_of_two(rng, re, im);
            return signed(rng, pair);
        }
    }
}

/// Nearly halfway between two units, which is hardest to round. The parts are whole numbers up to 2^30,
/// the same on every machine, times a power of two: sine and cosine differ in their last digits alone.
fn halfway(rng: &mut Rng) -> Pair<u64> {
    let units = rng.below(65536) as f64 + 0.5;
    let (sin, cos) = (units / TURN * TAU).sin_cos();
    let size = f64::from(1 << 30);
    times_power_of_two(rng, (cos * size).round(), (sin * size).round())
}

/// Parts whose slope is a whole number over `whole`, or nearly: each of them may be a step off.
fn slope_over(rng: &mut Rng, whole: u64) -> Pair<u64> {
    let part = draw::between(rng, 0, whole);
    let factor = draw::digits(rng, FRACTION_64 - whole.ilog2()).max(1);
    let pair = times_power_of_two(rng, (whole * factor) as f64, (part * factor) as f64);
    let (larger, smaller) = (draw::near(rng, pair.re), draw::near(rng, pair.im.max(1)));
    let smaller = if part == 0 { 0 } else { smaller };
    any_octant(rng, larger, smaller)
}

/// Slopes at and beside the ends and the middles of the table's intervals.
fn slope_of_the_table(rng: &mut Rng) -> Pair<u64> {
    slope_over(rng, 2 * INTERVALS)
}

/// Slopes at and beside those where the slope's last digit changes.
fn slope_at_a_step(rng: &mut Rng) -> Pair<u64> {
    slope_over(rng, 1 << SLOPE)
}

/// A subnormal, its leading digit anywhere, beside another or beside a small normal number.
fn with_subnormal(rng: &mut Rng) -> Pair<u64> {
    let subnormal = draw::digits(rng, FRACTION_64);
    let exponent = draw::between(rng, 1, 30);
    let other = if rng.once_in(2) {
        draw::digits(rng, FRACTION_64)
    } else {
        draw::with_exponent_64(rng, exponent)
    };
    any_octant(rng, other, subnormal)
}

/// The largest finite numbers, and beside them smaller ones; often the largest of all.
fn largest(rng: &mut Rng) -> Pair<u64> {
    let Pair { re, im } = parts_64(rng, TOP_64 - 1, TOP_64 - 1, 40);
    if rng.once_in(4) {
        any_octant(rng, f64::MAX.to_bits(), im)
    } else {
        any_octant(rng, re, im)
    }
}

/// Whole numbers up to 64.
fn small_whole(rng: &mut Rng) -> Pair<u64> {
    let part = |rng: &mut Rng| (rng.below(65) as f64).to_bits();
    let (re, im) = (part(rng), part(rng));
    any_octant(rng, re, im)
}

/// Whole numbers up to 2^53, which sums of whole products are, each number of digits as likely.
fn large_whole(rng: &mut Rng) -> Pair<u64> {
    let part = |rng: &mut Rng| (draw::digits(rng, 53) as f64).to_bits();
    let (re, im) = (part(rng), part(rng));
    any_octant(rng, re, im)
}

/// The correlation of a few random samples, summed as the guess sums it: whole numbers, or noise. Half
/// of the lists repeat themselves, turned.
fn correlation(rng: &mut Rng) -> Pair<u64> {
    let whole = rng.once_in(2);
    let repeats = rng.once_in(2);
    let sample = |rng: &mut Rng| {
        let mut part = || {
            let part = noise(rng);
            if whole {
                (part * 32768.0).round()
            } else {
                part
            }
        };
        C32::new(part(), part())
    };
    let turn = sample(rng);
    let mut sum = C64::default();
    for _ in 0..1 + rng.below(8) {
        let one = sample(rng);
        let other = if repeats { one * turn } else { sample(rng) };
        let product = one * other.conj();
        sum += C64::new(f64::from(product.re), f64::from(product.im));
    }
    Pair {
        re: sum.re.to_bits(),
        im: sum.im.to_bits(),
    }
}

/// Lists of samples, of each of which one guess is taken for every guard.
const LISTS: u64 = 96;

/// Both parts of the guesses of some samples, in mode 1, of each guard: as received with various noise,
/// and unusual ones.
pub fn guesses() -> &'static [Pair<u64>] {
    static GUESSES: LazyLock<Vec<Pair<u64>>> =
        LazyLock::new(|| (0..LISTS).flat_map(guesses_of_list).collect());
    &GUESSES
}

fn guesses_of_list(index: u64) -> Vec<Pair<u64>> {
    let mut rng = Rng::new(index);
    let (mode, guard) = (Mode::M1, *rng.pick(&GUARDS));
    let pairs = fewest_pairs(mode, GUARDS[0]) + rng.below(256);
    let floats = match index % 4 {
        0 => samples(&mut rng, mode, guard, 2 * pairs),
        1 => received_whole(&mut rng, mode, guard, pairs),
        2 => received(&mut rng, mode, guard, pairs, (0.1, 1.0)),
        _ => received(&mut rng, mode, guard, pairs, (1.0, 4e3)),
    };
    let pairs = Oracle::pairs(&floats);
    let guess = |&guard| Oracle::detect_mode(&pairs, &[mode], &[guard]);
    let parts = |guess: ModeGuess| Pair {
        re: guess.re.to_bits(),
        im: guess.im.to_bits(),
    };
    GUARDS.iter().filter_map(guess).map(parts).collect()
}

/// Both parts of a guess, in any octant.
pub fn guess(rng: &mut Rng) -> Pair<u64> {
    let Pair { re, im } = *rng.pick(guesses());
    any_octant(rng, re, im)
}

/// A pair, and a number of doublings for it.
#[derive(Debug, Clone, Copy, PartialEq, Eq, PartialOrd, Ord)]
pub struct AmplifiedPair {
    /// The pair.
    pub pair: Pair<u64>,
    /// Doublings; halvings below 0.
    pub doublings: i32,
}

impl fmt::Display for AmplifiedPair {
    fn fmt(&self, f: &mut fmt::Formatter<'_>) -> fmt::Result {
        write!(f, "{}, doublings {}", self.pair, self.doublings)
    }
}

/// The number doubled so often, if that is exact and finite: halved as often it is the number again.
fn doubled(x: f64, doublings: i32) -> Option<f64> {
    // At most 1,000 at once, so that each factor is a normal number. A part of the way is exact where
    // the whole way is.
    let times = |x: f64, doublings: i32| {
        let sign = doublings.signum();
        let factor = |left: i32| power_of_two(sign * left.clamp(0, 1000));
        let left = doublings.abs();
        x * factor(left) * factor(left - 1000) * factor(left - 2000)
    };
    let doubled = times(x, doublings);
    let exact = doubled.is_finite() && times(doubled, -doublings).to_bits() == x.to_bits();
    exact.then_some(doubled)
}

impl AmplifiedPair {
    /// Both parts doubled, if that is exact.
    pub fn amplified(self) -> Option<(f64, f64)> {
        let C64 { re, im, .. } = self.pair.value();
        Some((doubled(re, self.doublings)?, doubled(im, self.doublings)?))
    }
}

/// The special pairs, each with doublings as often as a gain by 256 has them, which comes in twice.
pub fn special_amplified() -> Vec<AmplifiedPair> {
    let amplified = |(index, pair)| AmplifiedPair {
        pair,
        doublings: (index % 33) as i32 - 16,
    };
    let pairs = special_pairs_64().into_iter().enumerate();
    pairs.map(amplified).collect()
}

/// A pair of any class, with doublings that keep its larger part a normal number.
fn amplified(rng: &mut Rng) -> AmplifiedPair {
    let pair = rng.pick(ANGLE)(rng);
    let exponent = |bits: u64| (bits & !SIGN_64) >> FRACTION_64;
    let larger = exponent(pair.re).max(exponent(pair.im));
    let wanted = draw::between(rng, 1, TOP_64 - 1);
    AmplifiedPair {
        pair,
        doublings: wanted as i32 - larger as i32,
    }
}

/// A pair of any class, with few doublings.
fn little_amplified(rng: &mut Rng) -> AmplifiedPair {
    AmplifiedPair {
        pair: rng.pick(ANGLE)(rng),
        doublings: draw::between(rng, 0, 32) as i32 - 16,
    }
}

/// What the claims on changed pairs are tried on.
pub const AMPLIFIED: &[Class<AmplifiedPair>] = &[amplified, little_amplified];

/// What angle and fractional offset are compared on.
pub const ANGLE: &[Class<Pair<u64>>] = &[
    any_pair_64,
    one_exponent,
    near_exponents,
    far_exponents,
    beside_an_axis,
    beside_a_diagonal,
    even,
    halfway,
    slope_of_the_table,
    slope_at_a_step,
    with_subnormal,
    largest,
    small_whole,
    large_whole,
    correlation,
    guess,
];

/// Those of them that are the same on every machine: all but the last, whose samples are made with sine
/// and cosine.
pub const STORED: &[Class<Pair<u64>>] = ANGLE.split_at(ANGLE.len() - 1).0;

#[cfg(test)]
mod tests {
    use super::*;
    use std::collections::BTreeSet;

    const DRAWS: usize = 3000;

    fn drawn(class: Class<Pair<u64>>) -> Vec<Pair<u64>> {
        let mut rng = Rng::new(1);
        (0..DRAWS).map(|_| class(&mut rng)).collect()
    }

    /// How many draws of a class have a property.
    fn count(class: Class<Pair<u64>>, property: impl Fn(C64) -> bool) -> usize {
        let drawn = drawn(class).into_iter();
        drawn.filter(|pair| property(pair.value())).count()
    }

    /// The smaller part of a pair over the larger.
    fn slope(pair: C64) -> f64 {
        let (re, im) = (pair.re.abs(), pair.im.abs());
        re.min(im) / re.max(im)
    }

    #[test]
    fn every_class_has_all_quadrants() {
        for (index, &class) in ANGLE.iter().enumerate() {
            for (re, im) in [(1.0, 1.0), (-1.0, 1.0), (-1.0, -1.0), (1.0, -1.0)] {
                let there = |pair: C64| pair.re.signum() == re && pair.im.signum() == im;
                assert!(count(class, there) > DRAWS / 6, "class {index}: {re}, {im}");
            }
            let upper = |pair: C64| pair.im.abs() > pair.re.abs();
            assert!(count(class, upper) > DRAWS / 5, "class {index}");
        }
    }

    #[test]
    fn leading_digits_are_as_far_apart_as_can_be() {
        let place = |bits: u64| match (bits & !SIGN_64) >> FRACTION_64 {
            0 => u64::from((bits & !SIGN_64).ilog2()),
            exponent => exponent + u64::from(FRACTION_64) - 1,
        };
        let mut rng = Rng::new(1);
        let mut apart = || {
            let Pair { re, im } = far_exponents(&mut rng);
            place(re).abs_diff(place(im))
        };
        let met: BTreeSet<u64> = (0..40_000).map(|_| apart()).collect();
        assert_eq!((met.len() as u64, met.last()), (PLACES, Some(&2097)));
    }

    #[test]
    fn halfway_is_between_two_units() {
        let off = |pair: C64| {
            let units = pair.arg() / TAU * TURN;
            (units - units.floor() - 0.5).abs()
        };
        assert_eq!(count(halfway, |pair| off(pair) < 1e-4), DRAWS);
    }

    #[test]
    fn some_slopes_are_those_of_the_table() {
        let at = |whole: f64| move |pair: C64| (slope(pair) * whole).fract() == 0.0;
        let off = |whole: f64| {
            move |pair: C64| {
                let part = slope(pair) * whole;
                (part - part.round()).abs() < 1e-6
            }
        };
        let (table, step) = (128.0, 4_194_304.0);
        assert_eq!(count(slope_of_the_table, off(table)), DRAWS);
        assert_eq!(count(slope_at_a_step, off(step)), DRAWS);
        for met in [
            count(slope_of_the_table, at(table)),
            count(slope_at_a_step, at(step)),
        ] {
            assert!((DRAWS / 10..DRAWS / 2).contains(&met), "{met}");
        }
    }

    #[test]
    fn axes_and_diagonals_are_met_and_missed() {
        let on_axis = count(beside_an_axis, |pair| slope(pair) == 0.0);
        assert!((DRAWS / 5..DRAWS).contains(&on_axis), "{on_axis}");
        let below_a_unit = |pair: C64| (1e-6..2e-3).contains(&slope(pair));
        assert!(count(beside_an_axis, below_a_unit) > DRAWS / 10);
        let on_diagonal = count(beside_a_diagonal, |pair| slope(pair) == 1.0);
        assert!(
            (DRAWS / 100..DRAWS / 5).contains(&on_diagonal),
            "{on_diagonal}"
        );
        let one_step = |pair: C64| pair.re.abs().to_bits().abs_diff(pair.im.abs().to_bits()) == 1;
        assert!(count(beside_a_diagonal, one_step) > DRAWS / 100);
    }

    #[test]
    fn subnormals_and_the_largest_are_met() {
        let small = |part: f64| part == 0.0 || part.is_subnormal();
        let one = count(with_subnormal, |pair| small(pair.re) != small(pair.im));
        let both = count(with_subnormal, |pair| small(pair.re) && small(pair.im));
        assert!(one + both == DRAWS && one > DRAWS / 3 && both > DRAWS / 3);
        let most = |pair: C64| pair.re.abs() == f64::MAX || pair.im.abs() == f64::MAX;
        assert!(count(largest, most) > DRAWS / 5);
    }

    #[test]
    fn guesses_were_found() {
        assert!(guesses().len() > 3 * LISTS as usize);
        let finite = |pair: &&Pair<u64>| pair.value().norm_sqr().is_finite();
        assert!(guesses().iter().filter(finite).count() > 3 * LISTS as usize);
        let minus = (-0.0_f64).to_bits();
        assert!(
            guesses()
                .iter()
                .all(|pair| pair.re != minus && pair.im != minus)
        );
    }

    #[test]
    fn doublings_are_exact() {
        assert_eq!(doubled(1.5, 1023), Some(1.5 * power_of_two(1023)));
        assert_eq!(doubled(1.5, 1024), None);
        assert_eq!(
            doubled(f64::from_bits(3), 2096),
            Some(1.5 * power_of_two(1023))
        );
        assert_eq!(
            doubled(1.5 * power_of_two(1023), -2096),
            Some(f64::from_bits(3))
        );
        assert_eq!(doubled(1.5 * power_of_two(1023), -2097), None);
        assert_eq!(doubled(-0.0, -5).map(f64::to_bits), Some(SIGN_64));
        assert_eq!(doubled(f64::NAN, 1), None);
        for &class in AMPLIFIED {
            let mut rng = Rng::new(1);
            let exact = |_: &usize| {
                let input = class(&mut rng);
                input.doublings != 0 && input.amplified().is_some()
            };
            assert!((0..DRAWS).filter(exact).count() > DRAWS / 2);
        }
    }
}
