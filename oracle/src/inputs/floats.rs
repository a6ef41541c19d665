//! Floats to compare with, as bits: special values, and random ones of several classes. Uniform bits
//! seldom meet what is hard, which is why each function has classes of its own besides.

use crate::complex::{C32, C64};
use crate::harness::rng::Rng;
use std::fmt::{self, LowerHex};

/// A number, by its bits.
#[derive(Debug, Clone, Copy, PartialEq, Eq, PartialOrd, Ord)]
pub struct One(pub u64);

/// A pair, by the bits of its parts.
#[derive(Debug, Clone, Copy, PartialEq, Eq, PartialOrd, Ord)]
pub struct Pair<B> {
    /// Real part.
    pub re: B,
    /// Imaginary part.
    pub im: B,
}

impl One {
    /// The number.
    pub fn value(self) -> f64 {
        f64::from_bits(self.0)
    }
}

impl Pair<u32> {
    /// The pair of numbers.
    pub fn value(self) -> C32 {
        C32::new(f32::from_bits(self.re), f32::from_bits(self.im))
    }
}

impl Pair<u64> {
    /// The pair of numbers.
    pub fn value(self) -> C64 {
        C64::new(f64::from_bits(self.re), f64::from_bits(self.im))
    }
}

impl fmt::Display for One {
    fn fmt(&self, f: &mut fmt::Formatter<'_>) -> fmt::Result {
        write!(f, "bits {:#018x}", self.0)
    }
}

impl<B: LowerHex> fmt::Display for Pair<B> {
    fn fmt(&self, f: &mut fmt::Formatter<'_>) -> fmt::Result {
        let width = 2 + 2 * size_of::<B>();
        write!(f, "bits {:#0width$x} and {:#0width$x}", self.re, self.im)
    }
}

/// A random input of one class.
pub type Class<I> = fn(&mut Rng) -> I;

pub(super) const SIGN_64: u64 = 1 << 63;
const SIGN_32: u32 = 1 << 31;
/// Digits of the fraction.
pub(super) const FRACTION_64: u32 = 52;
const FRACTION_32: u32 = 23;
/// The exponent's bits of the numbers from 1 to 2.
const BIAS_64: u64 = 1023;
const BIAS_32: u64 = 127;
/// The exponent's bits of infinity.
pub(super) const TOP_64: u64 = 2047;
const TOP_32: u64 = 255;
/// Half of the step from one `f32` to the next, in steps of `f64`.
const HALF_STEP: u64 = 1 << 28;

/// 2 to the power of `exponent`, a normal number.
pub(super) fn power_of_two(exponent: i32) -> f64 {
    f64::from_bits(BIAS_64.wrapping_add_signed(i64::from(exponent)) << FRACTION_64)
}

/// NaNs, quiet and signalling, with several payloads.
const NANS_64: [u64; 6] = [
    0x7ff8_0000_0000_0000,
    0x7ff0_0000_0000_0001,
    0x7ff4_0000_0000_0000,
    0x7ff7_ffff_ffff_ffff,
    0x7ff8_0000_2000_0001,
    0x7fff_ffff_ffff_ffff,
];
const NANS_32: [u32; 6] = [
    0x7fc0_0000,
    0x7f80_0001,
    0x7fa0_0000,
    0x7fbf_ffff,
    0x7fc0_1234,
    0x7fff_ffff,
];

/// The plain values, and those where a number's form changes.
fn plain_64() -> Vec<u64> {
    let values = [0.0, 0.5, 1.0, 2.0, 3.0, 4.0];
    let smallest_normal = f64::MIN_POSITIVE.to_bits();
    let mut plain = values.map(f64::to_bits).to_vec();
    plain.extend([1, smallest_normal - 1, smallest_normal]);
    plain.extend([f64::MAX, f64::INFINITY].map(f64::to_bits));
    plain
}

/// The same for `f32`.
fn plain_32() -> Vec<u32> {
    let values = [0.0, 0.5, 1.0, 2.0, 3.0, 4.0];
    let smallest_normal = f32::MIN_POSITIVE.to_bits();
    let mut plain = values.map(f32::to_bits).to_vec();
    plain.extend([1, smallest_normal - 1, smallest_normal]);
    plain.extend([f32::MAX, f32::INFINITY].map(f32::to_bits));
    plain
}

/// Where narrowing changes: at each end of the subnormals and of the normals, what is an `f32` and
/// what is halfway to the next.
fn narrowing_boundaries() -> Vec<u64> {
    let smallest = power_of_two(-149);
    let normal = f64::from(f32::MIN_POSITIVE);
    let values = [
        smallest / 2.0,
        smallest,
        smallest * 1.5,
        normal - smallest,
        normal - smallest / 2.0,
        normal,
        f64::from(f32::MAX),
        power_of_two(128),
    ];
    let mut boundaries = values.map(f64::to_bits).to_vec();
    boundaries.extend([normal, 1.0, f64::from(f32::MAX)].map(|x| x.to_bits() + HALF_STEP));
    boundaries
}

/// Where a square in `f64` rounds to zero, is subnormal, or overflows.
fn square_boundaries() -> Vec<u64> {
    let values = [
        power_of_two(-538),
        power_of_two(-537) / 2.0_f64.sqrt(),
        power_of_two(-537),
        power_of_two(-511),
        power_of_two(511),
        f64::MAX.sqrt(),
        power_of_two(512),
    ];
    values.map(f64::to_bits).to_vec()
}

/// Each number, and one step to either side, with both signs; and NaNs.
fn all_around_64(numbers: &[u64]) -> Vec<u64> {
    let around = |&x: &u64| [x.saturating_sub(1), x, x + 1];
    let mut all: Vec<u64> = numbers.iter().flat_map(around).chain(NANS_64).collect();
    all.sort_unstable();
    all.dedup();
    let negative: Vec<u64> = all.iter().map(|x| x | SIGN_64).collect();
    all.extend(negative);
    all
}

/// The same for `f32`.
fn all_around_32(numbers: &[u32]) -> Vec<u32> {
    let around = |&x: &u32| [x.saturating_sub(1), x, x + 1];
    let mut all: Vec<u32> = numbers.iter().flat_map(around).chain(NANS_32).collect();
    all.sort_unstable();
    all.dedup();
    let negative: Vec<u32> = all.iter().map(|x| x | SIGN_32).collect();
    all.extend(negative);
    all
}

/// All pairs.
fn pairs<B: Copy>(parts: &[B]) -> Vec<Pair<B>> {
    let with = |&re: &B| parts.iter().map(move |&im| Pair { re, im });
    parts.iter().flat_map(with).collect()
}

fn special_64() -> Vec<u64> {
    all_around_64(&[plain_64(), narrowing_boundaries(), square_boundaries()].concat())
}

/// Special values of one number.
pub fn special_ones() -> Vec<One> {
    special_64().into_iter().map(One).collect()
}

/// All pairs of special values of `f64`.
pub fn special_pairs_64() -> Vec<Pair<u64>> {
    pairs(&special_64())
}

/// All pairs of special values of `f32`. Added are where a square overflows `f32`, and where the
/// norm of two equal parts does.
pub fn special_pairs_32() -> Vec<Pair<u32>> {
    let mut numbers = plain_32();
    let border = (f64::from(f32::MAX) / 2.0_f64.sqrt()) as f32;
    numbers.extend([power_of_two(64) as f32, border].map(f32::to_bits));
    pairs(&all_around_32(&numbers))
}

/// Random numbers of several shapes, as bits.
pub(super) mod draw {
    use super::*;

    /// A number from `low` to `high`.
    pub fn between(rng: &mut Rng, low: u64, high: u64) -> u64 {
        low + rng.below((high - low + 1) as usize) as u64
    }

    /// A number of at most `digits` binary digits, each count of digits as likely.
    pub fn digits(rng: &mut Rng, digits: u32) -> u64 {
        rng.next_u64() >> (u64::from(64 - digits) + between(rng, 0, u64::from(digits) - 1))
    }

    /// Any `f32`.
    pub fn any_32(rng: &mut Rng) -> u32 {
        rng.next_u64() as u32
    }

    /// An `f64` whose exponent's bits are `exponent`.
    pub fn with_exponent_64(rng: &mut Rng, exponent: u64) -> u64 {
        (rng.next_u64() & !(TOP_64 << FRACTION_64)) | exponent << FRACTION_64
    }

    /// An `f32` whose exponent's bits are `exponent`.
    pub fn with_exponent_32(rng: &mut Rng, exponent: u64) -> u32 {
        ((rng.next_u64() & !(TOP_32 << FRACTION_32)) | exponent << FRACTION_32) as u32
    }

    /// Any sign for the number.
    pub fn signed_64(rng: &mut Rng, bits: u64) -> u64 {
        bits | (rng.next_u64() & SIGN_64)
    }

    /// A subnormal `f32`, its leading digit anywhere.
    pub fn subnormal_32(rng: &mut Rng) -> u32 {
        digits(rng, FRACTION_32) as u32 | (rng.next_u64() as u32 & SIGN_32)
    }

    /// The number, or one step to either side.
    pub fn near(rng: &mut Rng, bits: u64) -> u64 {
        bits.wrapping_add(between(rng, 0, 2)).wrapping_sub(1)
    }

    /// A whole number up to 32,768 times 256, with its sign; as often up to 32,768.
    pub fn whole(rng: &mut Rng) -> i32 {
        let limit = if rng.once_in(2) { 1 << 15 } else { 1 << 23 };
        between(rng, 0, 2 * limit) as i32 - limit as i32
    }
}

/// Any number.
fn any_one(rng: &mut Rng) -> One {
    One(rng.next_u64())
}

/// Any number whose sign is plus.
fn any_above_zero(rng: &mut Rng) -> One {
    One(rng.next_u64() & !SIGN_64)
}

/// A subnormal above zero, its leading digit anywhere.
fn subnormal(rng: &mut Rng) -> One {
    One(draw::digits(rng, FRACTION_64))
}

/// The normal number times a power of 4, anywhere in the normal range.
fn times_power_of_four(rng: &mut Rng, x: f64) -> u64 {
    let exponent = x.to_bits() >> FRACTION_64;
    let other = 2 * draw::between(rng, 1, TOP_64 / 2 - 1) + exponent % 2;
    x.to_bits() & !(TOP_64 << FRACTION_64) | other << FRACTION_64
}

/// The exact square of a number of 26 or 27 digits times a power of 2, or one step beside it. A
/// square of 54 digits is exact if its root is even.
fn exact_square(rng: &mut Rng) -> One {
    let root = draw::between(rng, 1 << 25, (1 << 27) - 1);
    let long = root * root >= 1 << 53;
    let root = if long { root & !1 } else { root };
    let square = times_power_of_four(rng, (root * root) as f64);
    One(draw::near(rng, square))
}

/// The exact square of a number among the subnormals, or one step beside it. A subnormal is its bits
/// times 2^−1074, which is a power of 4.
fn subnormal_square(rng: &mut Rng) -> One {
    let root = draw::digits(rng, FRACTION_64 / 2) | 1;
    One(draw::near(rng, root * root))
}

/// The square of a point halfway between two neighbours, rounded, or one step beside it. That rounding
/// alone moves the root by up to a quarter of a step.
fn halfway_square(rng: &mut Rng) -> One {
    let twice = u128::from(draw::between(rng, 1 << 53, (1 << 54) - 1) | 1);
    let square = times_power_of_four(rng, (twice * twice) as f64);
    One(draw::near(rng, square))
}

/// A root of `c` modulo 2^54, for a `c` that is 1 modulo 8. Newton's steps find 1 / root: each one
/// nearly doubles the digits that are right, from the lowest on, and loses the highest.
fn root_modulo(c: u64) -> u64 {
    let step =
        |y: u64, _| y.wrapping_mul(3_u64.wrapping_sub(c.wrapping_mul(y).wrapping_mul(y))) / 2;
    c.wrapping_mul((0..6).fold(1, step))
}

/// A number whose root is just off a point halfway between two neighbours, mostly. Let t be odd, with
/// tt ≡ c modulo 2^54, and c small: then (tt − c) / 4 is a number of 53 or 54 digits times 2^52, and its
/// root is near t / 2. Some of those with 54 digits are no `f64`, and are rounded.
fn nearly_halfway(rng: &mut Rng) -> One {
    let c = 1 + 8 * draw::digits(rng, 40) as i64;
    let c = if rng.once_in(2) { c } else { 2 - c };
    let t = i128::from(root_modulo(c as u64) % (1 << 53) + (1 << 53));
    let number = (t * t - i128::from(c)) >> 54;
    One(times_power_of_four(rng, number as f64))
}

/// What the root is compared on.
pub const ROOT: &[Class<One>] = &[
    any_one,
    any_above_zero,
    subnormal,
    exact_square,
    subnormal_square,
    halfway_square,
    nearly_halfway,
];

/// A number in the range of `f32`, and a little beyond on either side.
fn narrowable(rng: &mut Rng) -> One {
    let exponent = draw::between(rng, BIAS_64 - 152, BIAS_64 + 129);
    One(draw::with_exponent_64(rng, exponent))
}

/// An `f32`, or one step of `f64` beside it.
fn widened(rng: &mut Rng) -> One {
    let x = f64::from(f32::from_bits(draw::any_32(rng)));
    One(draw::near(rng, x.to_bits()))
}

/// Halfway between two neighbouring normal `f32`, up to the tie to infinity, or one step beside it.
fn tie(rng: &mut Rng) -> One {
    let exponent = draw::between(rng, 1, TOP_32 - 1);
    let lower = f32::from_bits(draw::with_exponent_32(rng, exponent));
    One(draw::near(rng, f64::from(lower).to_bits() + HALF_STEP))
}

/// Halfway between two neighbouring subnormal `f32`, or one step beside it.
fn subnormal_tie(rng: &mut Rng) -> One {
    let twice = 2 * draw::digits(rng, FRACTION_32) + 1;
    let tie = twice as f64 * power_of_two(-150);
    let tie = draw::signed_64(rng, tie.to_bits());
    One(draw::near(rng, tie))
}

/// What narrowing is compared on.
pub const NARROW: &[Class<One>] = &[any_one, narrowable, widened, tie, subnormal_tie];

/// Any pair.
fn any_pair_32(rng: &mut Rng) -> Pair<u32> {
    Pair {
        re: draw::any_32(rng),
        im: draw::any_32(rng),
    }
}

/// Finite parts whose sizes are at most `apart` powers of two apart, in either order, the larger
/// of exponent bits from `low` to `high`.
fn parts_32(rng: &mut Rng, low: u64, high: u64, apart: u64) -> Pair<u32> {
    let larger = draw::between(rng, low, high);
    let smaller = larger.saturating_sub(draw::between(rng, 0, apart));
    let large = draw::with_exponent_32(rng, larger);
    let small = draw::with_exponent_32(rng, smaller);
    either_order(rng, large, small)
}

/// The same for `f64`.
pub(super) fn parts_64(rng: &mut Rng, low: u64, high: u64, apart: u64) -> Pair<u64> {
    let larger = draw::between(rng, low, high);
    let smaller = larger.saturating_sub(draw::between(rng, 0, apart));
    let large = draw::with_exponent_64(rng, larger);
    let small = draw::with_exponent_64(rng, smaller);
    either_order(rng, large, small)
}

pub(super) fn either_order<B>(rng: &mut Rng, one: B, other: B) -> Pair<B> {
    if rng.once_in(2) {
        Pair { re: one, im: other }
    } else {
        Pair { re: other, im: one }
    }
}

/// Parts of about one size.
fn alike_32(rng: &mut Rng) -> Pair<u32> {
    parts_32(rng, 0, TOP_32 - 1, 3)
}

/// Parts of very different size. From 27 powers of two on the smaller square is lost in the sum.
fn unlike_32(rng: &mut Rng) -> Pair<u32> {
    parts_32(rng, 40, TOP_32 - 1, 40)
}

/// Parts that are whole numbers.
fn whole_32(rng: &mut Rng) -> Pair<u32> {
    Pair {
        re: (draw::whole(rng) as f32).to_bits(),
        im: (draw::whole(rng) as f32).to_bits(),
    }
}

/// Subnormal parts.
fn subnormal_32(rng: &mut Rng) -> Pair<u32> {
    Pair {
        re: draw::subnormal_32(rng),
        im: draw::subnormal_32(rng),
    }
}

/// Parts whose squares overflow `f32`, up to norms that do.
fn overflowing_32(rng: &mut Rng) -> Pair<u32> {
    let low = if rng.once_in(2) {
        BIAS_32 + 64
    } else {
        TOP_32 - 1
    };
    parts_32(rng, low, TOP_32 - 1, 3)
}

/// Parts whose norm is the whole number mm + nn: many of these norms are halfway between two `f32`.
fn whole_norm(rng: &mut Rng) -> Pair<u32> {
    const LIMIT: u64 = 5792;
    let (m, n) = (draw::between(rng, 1, LIMIT), draw::between(rng, 1, LIMIT));
    let (re, im) = (m.abs_diff(n) * (m + n), 2 * m * n);
    either_order(rng, (re as f32).to_bits(), (im as f32).to_bits())
}

/// What the norm of `f32` is compared on.
pub const NORM_32: &[Class<Pair<u32>>] = &[
    any_pair_32,
    alike_32,
    unlike_32,
    whole_32,
    subnormal_32,
    overflowing_32,
    whole_norm,
];

/// Any pair.
pub(super) fn any_pair_64(rng: &mut Rng) -> Pair<u64> {
    Pair {
        re: rng.next_u64(),
        im: rng.next_u64(),
    }
}

/// Parts of about one size, whose squares neither overflow nor are subnormal.
pub(super) fn alike_64(rng: &mut Rng) -> Pair<u64> {
    parts_64(rng, BIAS_64 - 500, BIAS_64 + 510, 3)
}

/// Parts of very different size.
fn unlike_64(rng: &mut Rng) -> Pair<u64> {
    parts_64(rng, BIAS_64 - 500, BIAS_64 + 510, 40)
}

/// Parts that are whole numbers.
fn whole_64(rng: &mut Rng) -> Pair<u64> {
    Pair {
        re: f64::from(draw::whole(rng)).to_bits(),
        im: f64::from(draw::whole(rng)).to_bits(),
    }
}

/// Parts that are `f32` subnormals.
fn widened_subnormal(rng: &mut Rng) -> Pair<u64> {
    let widen = |bits| f64::from(f32::from_bits(bits)).to_bits();
    Pair {
        re: widen(draw::subnormal_32(rng)),
        im: widen(draw::subnormal_32(rng)),
    }
}

/// Parts whose squares are subnormal or round to zero.
fn underflowing_64(rng: &mut Rng) -> Pair<u64> {
    parts_64(rng, BIAS_64 - 540, BIAS_64 - 510, 3)
}

/// Parts whose squares, or their sum, overflow or nearly do.
fn overflowing_64(rng: &mut Rng) -> Pair<u64> {
    let high = if rng.once_in(2) {
        BIAS_64 + 512
    } else {
        TOP_64 - 1
    };
    parts_64(rng, BIAS_64 + 510, high, 3)
}

/// What the norm of `f64` is compared on.
pub const NORM_64: &[Class<Pair<u64>>] = &[
    any_pair_64,
    alike_64,
    unlike_64,
    whole_64,
    widened_subnormal,
    underflowing_64,
    overflowing_64,
];

#[cfg(test)]
mod tests {
    use super::*;

    const DRAWS: usize = 3000;

    /// How many draws of a class have a property.
    fn count<I: Copy>(class: Class<I>, property: impl Fn(I) -> bool) -> usize {
        let mut rng = Rng::new(1);
        (0..DRAWS).filter(|_| property(class(&mut rng))).count()
    }

    /// True of about a third: one draw in three is the point itself, the others lie beside it.
    fn about_a_third(count: usize) -> bool {
        (800..1200).contains(&count)
    }

    /// How far a normal number's root is from halfway between two neighbours: the root is a whole
    /// number of 53 digits, and at halfway its square would leave as much as the root itself.
    fn off_halfway(One(bits): One) -> u128 {
        let (exponent, fraction) = (bits >> FRACTION_64, bits % (1 << FRACTION_64));
        let digits = (fraction + (1 << FRACTION_64)) << ((exponent + 1) % 2);
        let number = u128::from(digits) << FRACTION_64;
        let root = number.isqrt();
        root.abs_diff(number - root * root)
    }

    #[test]
    fn squares_are_exact() {
        let exact = |one: One| {
            let root = one.value().sqrt();
            root.mul_add(root, -one.value()) == 0.0
        };
        assert!(about_a_third(count(exact_square, exact)));
        let exact = |One(bits): One| bits.isqrt().pow(2) == bits;
        assert!(count(subnormal_square, exact) > 800);
    }

    #[test]
    fn many_roots_are_nearly_halfway() {
        assert!(count(nearly_halfway, |one| off_halfway(one) < 1 << 42) > DRAWS / 2);
        assert!(count(nearly_halfway, |one| off_halfway(one) < 1 << 8) > DRAWS / 20);
        assert_eq!(count(any_above_zero, |one| off_halfway(one) < 1 << 8), 0);
    }

    #[test]
    fn root_modulo_a_power_of_two() {
        for c in [1, 9, 17, 8001, -7, -15, 1 - 8 * 123_456_789] {
            let (c, root) = (c as u64, root_modulo(c as u64));
            assert_eq!(root.wrapping_mul(root) % (1 << 54), c % (1 << 54));
        }
    }

    #[test]
    fn ties_are_halfway() {
        let halfway = |One(bits): One| bits % (2 * HALF_STEP) == HALF_STEP;
        assert!(about_a_third(count(tie, halfway)));
        let halfway = |one: One| one.value().abs() / power_of_two(-150) % 2.0 == 1.0;
        assert!(about_a_third(count(subnormal_tie, halfway)));
    }

    #[test]
    fn many_norms_are_halfway() {
        let halfway = |pair: Pair<u32>| {
            let (re, im) = (f64::from(pair.value().re), f64::from(pair.value().im));
            C64::new(re, im).norm().to_bits() % (2 * HALF_STEP) == HALF_STEP
        };
        assert!(count(whole_norm, halfway) > DRAWS / 10);
    }

    #[test]
    fn squares_and_norms_leave_their_range() {
        let square = |pair: Pair<u32>| pair.value().norm_sqr();
        assert_eq!(
            count(overflowing_32, |pair| square(pair) == f32::INFINITY),
            DRAWS
        );
        let norm = |pair: Pair<u32>| pair.value().norm();
        assert!(count(overflowing_32, |pair| norm(pair) == f32::INFINITY) > DRAWS / 20);
        let square = |pair: Pair<u64>| pair.value().norm_sqr();
        let overflowing = count(overflowing_64, |pair| square(pair) == f64::INFINITY);
        assert!((DRAWS / 2..DRAWS).contains(&overflowing));
        assert!(count(underflowing_64, |pair| square(pair).is_subnormal()) > DRAWS / 2);
        assert!(count(underflowing_64, |pair| square(pair) == 0.0) > DRAWS / 100);
    }

    #[test]
    fn whole_parts_keep_to_their_limit() {
        let size = |pair: Pair<u32>| pair.value().re.abs().max(pair.value().im.abs());
        assert_eq!(count(whole_32, |pair| size(pair) <= 8_388_608.0), DRAWS);
        assert!(count(whole_32, |pair| size(pair) <= 32_768.0) > DRAWS / 5);
    }

    #[test]
    fn special_values_are_there() {
        let ones = special_ones();
        let wanted = [
            0.0,
            -0.0,
            f64::from_bits(1),
            f64::MIN_POSITIVE,
            -f64::MAX,
            f64::NEG_INFINITY,
            1.0 + f64::EPSILON,
            4.0 - 2.0 * f64::EPSILON,
            power_of_two(-150),
            f64::from(f32::MAX) + power_of_two(103),
        ];
        for x in wanted {
            assert!(ones.contains(&One(x.to_bits())), "{x:e}");
        }
        let nans = ones.iter().filter(|one| one.value().is_nan()).count();
        assert!(nans >= 2 * NANS_64.len());
        assert_eq!(special_pairs_64().len(), ones.len().pow(2));
    }

    #[test]
    fn inputs_are_shown_by_their_bits() {
        assert_eq!(One(1).to_string(), "bits 0x0000000000000001");
        let pair = Pair { re: 1_u32, im: 255 };
        assert_eq!(pair.to_string(), "bits 0x00000001 and 0x000000ff");
    }
}
