//! The angle of a pair of `f64`, in 1/65536 of a turn.
//!
//! The Rust has no such whole number. The port is compared bit for bit with a twin, written here from
//! the request and docs/ANGLE.md in another way than the port's, and held near the angle that `atan2`
//! gives.

use super::Operation;
use crate::complex::C64;
use crate::harness::function::{Function, Near, count_inputs};
use crate::harness::rng::Rng;
use crate::harness::run::Plan;
use crate::harness::stored::Record;
use crate::harness::tally::Row;
use crate::harness::timed_values::{agree, value_row};
use crate::harness::timing::{self, Effort};
use crate::inputs::angles::{self, AmplifiedPair};
use crate::inputs::floats::{self, Pair};
use crate::inputs::timed_floats::timed_pairs;
use sillurwy::ffi;
use std::cmp::Ordering;
use std::f64::consts::TAU;
use std::sync::LazyLock;

pub const OPERATION: Operation = Operation {
    name: "angle",
    number: Some(20),
    part: "floats",
    streams: &[STREAM, CHANGED_STREAM],
    compare,
    bench,
    stored,
};

// ---- The operation

/// How it is called: real and imaginary part.
pub type Port = fn(f64, f64) -> i32;

/// Units in a turn.
pub const TURN: i32 = 65536;

/// How far from the true angle an answer may be, in units, by the request.
pub const ASKED: f64 = 3.0;

/// How far from the true angle an answer may be, in units, before it counts as a difference.
pub const LIMIT: f64 = 1.0;

const _: () = assert!(LIMIT <= ASKED);

/// A number without its sign: digits × 2^place, the place counted from that of the smallest subnormal.
#[derive(Debug, Clone, Copy)]
struct Exact {
    digits: u128,
    place: u32,
}

impl Exact {
    /// The size of a finite number.
    fn of(x: f64) -> Self {
        let bits = x.abs().to_bits();
        let (exponent, fraction) = (bits >> 52, u128::from(bits % (1 << 52)));
        match exponent {
            0 => Self {
                digits: fraction,
                place: 0,
            },
            _ => Self {
                digits: fraction + (1 << 52),
                place: exponent as u32 - 1,
            },
        }
    }

    /// True if `times` × this number is at most 2^22 × the other, which is not larger than this.
    fn fits(self, times: u128, other: Self) -> bool {
        // In steps of this number's place: what the other's digits have below one decides nothing.
        let apart = self.place - other.place;
        let whole = (other.digits << 22).checked_shr(apart).unwrap_or(0);
        times * self.digits <= whole
    }
}

/// The largest whole number of 2^−22 in smaller / larger: digit by digit from the highest.
fn slope(smaller: Exact, larger: Exact) -> u64 {
    let add = |slope: u64, digit: u32| {
        let more = slope + (1 << digit);
        let fits = larger.fits(u128::from(more), smaller);
        if fits { more } else { slope }
    };
    (0..=22).rev().fold(0, add)
}

/// Intervals of the table, and its entries, in quarters of a unit: the angles of i / 64.
const INTERVALS: usize = 64;

static TABLE: LazyLock<[u64; INTERVALS + 1]> = LazyLock::new(|| std::array::from_fn(entry));

fn entry(i: usize) -> u64 {
    let turns = (i as f64 / INTERVALS as f64).atan() / TAU;
    let quarters = turns * f64::from(4 * TURN);
    // Whatever last digit a machine's `atan` has, it rounds to the same number.
    assert!((quarters - quarters.round()).abs() < 0.5 - 1e-6, "{i}");
    quarters.round() as u64
}

/// The angle up to an eighth of a turn: on a straight line between two entries of the table, and then
/// the nearest unit, the higher one of two.
fn octant(slope: u64) -> i32 {
    const INTERVAL: u64 = 1 << 16;
    let (at, beyond) = ((slope / INTERVAL) as usize, slope % INTERVAL);
    let low = TABLE[at];
    let rise = TABLE.get(at + 1).map_or(0, |high| high - low);
    let unit = 4 * INTERVAL;
    ((low * INTERVAL + rise * beyond + unit / 2) / unit) as i32
}

/// The twin of the port's angle: the pair is turned back by quarters until it lies in the first one.
pub fn twin(re: f64, im: f64) -> i32 {
    let finite = re.is_finite() && im.is_finite();
    if !finite || (re == 0.0 && im == 0.0) {
        return 0;
    }
    let (mut x, mut y, mut quarters) = (re, im, 0);
    while !(x > 0.0 && y >= 0.0) {
        (x, y, quarters) = (y, -x, quarters + 1);
    }
    let (across, up) = (Exact::of(x), Exact::of(y));
    let within = match x.total_cmp(&y) {
        Ordering::Less => TURN / 4 - octant(slope(across, up)),
        _ => octant(slope(up, across)),
    };
    round_the_circle(quarters * (TURN / 4) + within)
}

/// The same angle above −32768 and at most 32768.
fn round_the_circle(angle: i32) -> i32 {
    let turned = angle.rem_euclid(TURN);
    if turned > TURN / 2 {
        turned - TURN
    } else {
        turned
    }
}

/// How far apart two angles are round the circle, in units.
pub fn apart(one: f64, other: f64) -> f64 {
    let turn = f64::from(TURN);
    let apart = (one - other).abs() % turn;
    apart.min(turn - apart)
}

/// True if the request leaves an angle to the pair: both parts are finite, and one is not zero.
pub fn has_angle(pair: Pair<u64>) -> bool {
    let C64 { re, im, .. } = pair.value();
    re.is_finite() && im.is_finite() && (re != 0.0 || im != 0.0)
}

/// How far an answer is from the true angle. Where the pair has none the request names the answer, and
/// everything else is infinitely far.
fn distance(pair: Pair<u64>, port: i32) -> f64 {
    if has_angle(pair) {
        let units = pair.value().arg() / TAU * f64::from(TURN);
        return apart(f64::from(port), units);
    }
    if port == 0 { 0.0 } else { f64::INFINITY }
}

// ---- What is compared

/// The streams of its random numbers.
const STREAM: u64 = 404;
const CHANGED_STREAM: u64 = 405;

/// The angle of a pair.
pub fn function() -> Function<Pair<u64>, i32> {
    Function {
        name: "angle",
        port: |pair| ffi::angle(pair.value().re, pair.value().im),
        rust: |pair| twin(pair.value().re, pair.value().im),
        near: Some(Near {
            distance,
            limit: LIMIT,
        }),
        departs: None,
        special: floats::special_pairs_64(),
        classes: angles::ANGLE,
    }
}

/// What is claimed of an answer to a changed pair, and what the port gave.
fn differ(what: &str, wanted: i32, found: i32) -> Option<String> {
    (wanted != found).then(|| format!("{what}: wanted {wanted}, found {found}"))
}

/// The first claim on changed pairs that the port breaks: a quarter turn of a pair that has an angle adds
/// 16384 round the circle; another sign of the imaginary part changes the sign of the answer, but for
/// 32768; a power of two that keeps all digits of both parts keeps the answer.
fn broken(port: Port, input: AmplifiedPair) -> Option<String> {
    let C64 { re, im, .. } = input.pair.value();
    let before = port(re, im);
    let turned = || {
        let wanted = round_the_circle(before + TURN / 4);
        has_angle(input.pair).then_some(())?;
        differ("turned by a quarter", wanted, port(-im, re))
    };
    let mirrored = || differ("mirrored", round_the_circle(-before), port(re, -im));
    let amplified = || {
        let (re, im) = input.amplified()?;
        differ("amplified", before, port(re, im))
    };
    turned().or_else(mirrored).or_else(amplified)
}

/// Compares a port with itself on changed pairs.
pub fn changed(port: Port, seed: u64, count: u64) -> Row {
    let special = angles::special_amplified();
    let streams = (seed, CHANGED_STREAM);
    let tally = count_inputs(
        &special,
        angles::AMPLIFIED,
        streams,
        count,
        |input, tally| {
            tally.count(false, broken(port, input), || input);
        },
    );
    tally.row("angle, changed")
}

fn compare(plan: &Plan) -> Vec<Row> {
    vec![
        function().compare(plan.seed, STREAM, plan.floats),
        changed(ffi::angle, plan.seed, plan.floats),
    ]
}

// ---- The benchmark

/// The C library's, called once for each value, as the port's is.
#[inline(never)]
extern "C" fn rust_atan2(re: f64, im: f64) -> f64 {
    im.atan2(re)
}

fn bench(effort: &Effort) -> Vec<timing::Row> {
    let port = |x: C64| u64::from(ffi::angle(x.re, x.im).cast_unsigned());
    let right = |x: C64| u64::from(twin(x.re, x.im).cast_unsigned());
    let row = |(what, inputs): (&str, Vec<C64>)| {
        agree(&inputs, port, right);
        let atan2 = |x: C64| rust_atan2(x.re, x.im).to_bits();
        value_row(
            format!("angle, {what}"),
            "`atan2`",
            &inputs,
            effort,
            port,
            atan2,
        )
    };
    timed_pairs().into_iter().map(row).collect()
}

// ---- Stored answers

fn stored(rng: &mut Rng) -> Vec<Record> {
    let same_everywhere = Function {
        classes: angles::STORED,
        ..function()
    };
    same_everywhere.stored(rng, |record, pair| record.wide(&[pair.re, pair.im]))
}

#[cfg(test)]
mod tests {
    use super::*;

    /// The twin and the port.
    const ANGLES: [Port; 2] = [twin, ffi::angle];

    #[test]
    fn axes_and_diagonals_are_exact() {
        for (re, im, wanted) in [
            (1.0, 0.0, 0),
            (1.0, -0.0, 0),
            (2.5, 2.5, 8192),
            (0.0, 1e300, 16384),
            (-0.0, 1e300, 16384),
            (-3.0, 3.0, 24576),
            (-1e-310, 0.0, 32768),
            (-1e-310, -0.0, 32768),
            (-1.0, -1.0, -24576),
            (0.0, -7.0, -16384),
            (-0.0, -7.0, -16384),
            (f64::MAX, -f64::MAX, -8192),
        ] {
            for angle in ANGLES {
                assert_eq!(angle(re, im), wanted, "{re:e}, {im:e}");
            }
        }
    }

    #[test]
    fn what_has_no_angle_gives_0() {
        for angle in ANGLES {
            for (re, im) in [(0.0, 0.0), (0.0, -0.0), (-0.0, 0.0), (-0.0, -0.0)] {
                assert_eq!(angle(re, im), 0);
            }
            for part in [f64::INFINITY, f64::NEG_INFINITY, f64::NAN] {
                assert_eq!((angle(part, 1.0), angle(-1.0, part)), (0, 0));
            }
        }
    }

    /// Within an octant the angle depends on the slope alone, cut to 2^−22; what is cut lies between two
    /// neighbouring slopes, and the true angle between theirs. So this is the farthest of all pairs.
    #[test]
    fn no_slope_is_farther_than_the_document_says() {
        const STEPS: u32 = 1 << 22;
        let units = |slope: u32| {
            let slope = f64::from(slope.min(STEPS)) / f64::from(STEPS);
            slope.atan() / TAU * f64::from(TURN)
        };
        let farthest = |slope: u32| {
            let port = f64::from(ffi::angle(f64::from(STEPS), f64::from(slope)));
            let (low, high) = (units(slope), units(slope + 1));
            (port - low).abs().max((port - high).abs())
        };
        let farthest = (0..=STEPS).map(farthest).fold(0.0, f64::max);
        assert!((0.8008..0.8009).contains(&farthest), "{farthest}");
    }

    #[test]
    fn the_slope_is_cut() {
        let slope_of = |smaller, larger| slope(Exact::of(smaller), Exact::of(larger));
        assert_eq!(slope_of(1.0, 1.0), 1 << 22);
        assert_eq!(slope_of(1.0_f64.next_down(), 1.0), (1 << 22) - 1);
        assert_eq!(slope_of(1.0, 3.0), (1 << 22) / 3);
        assert_eq!(slope_of(1.0, f64::from(1 << 22)), 1);
        assert_eq!(slope_of(1.0_f64.next_down(), f64::from(1 << 22)), 0);
        assert_eq!(slope_of(f64::from_bits(1), f64::MAX), 0);
        assert_eq!(
            slope_of(f64::from_bits(1), f64::from_bits(3)),
            (1 << 22) / 3
        );
        assert_eq!(
            slope_of(f64::MIN_POSITIVE / 2.0, f64::MIN_POSITIVE),
            1 << 21
        );
    }

    #[test]
    fn the_table_has_its_ends() {
        assert_eq!((TABLE[0], TABLE[1], TABLE[64]), (0, 652, 32768));
        assert!(TABLE.windows(2).all(|pair| pair[0] < pair[1]));
    }

    #[test]
    fn distances_go_round_the_circle() {
        assert_eq!(apart(32768.0, -32767.5), 0.5);
        assert_eq!(apart(-10.0, 10.0), 20.0);
        assert_eq!(apart(0.0, 65536.0), 0.0);
        assert!(apart(0.0, f64::NAN).is_nan());
        assert_eq!(round_the_circle(-32768), 32768);
        assert_eq!(round_the_circle(32768 + 16384), -16384);
    }

    #[test]
    fn some_of_each_are_stored() {
        let records = stored(&mut Rng::new(1));
        assert!(records.len() > 180 && records.len() <= 120 + 180);
        // The head, two numbers, and the angle behind how many are written.
        let size = 22 + 2 * 8 + 3 + 8;
        assert!(records.iter().all(|record| record.stored(20).len() == size));
    }
}
