//! Mistakes in the angle.

use crate::floats::{each_is_found, found, is_right};
use oracle::harness::function::Function;
use oracle::inputs::floats::Pair;
use oracle::ops::angle::{Port, changed, function as angle};
use sillurwy::ffi;
use std::f64::consts::TAU;

/// The steps to an angle, as the port takes them.
#[derive(Clone, Copy)]
struct Rules {
    /// What is answered without an angle.
    at_once: fn(f64, f64) -> Option<i32>,
    /// Digits and exponent of a number without its sign, by its bits.
    parted: fn(u64) -> (u64, u64),
    /// The quotient of the smaller number's digits, and 22 more, by the larger's.
    quotient: fn(u128, u128) -> u128,
    /// The slope: the quotient divided by so many powers of two.
    cut: fn(u128, u64) -> u64,
    /// An entry of the table.
    table: fn(u64) -> u64,
    /// From two entries of the table, and how far it is to the second.
    between: fn(u64, u64, u64) -> u64,
    /// The second octant, from the first.
    second: fn(i32) -> i32,
    /// If re and im lie in the second octant, signs aside.
    in_second: fn(f64, f64) -> bool,
    /// The second quadrant, from the first.
    left: fn(i32) -> i32,
    /// Below the axis, from above it, up to a turn.
    below: fn(i32) -> i32,
    /// A part's sign counts.
    is_minus: fn(f64) -> bool,
    /// Round the circle.
    round: fn(i32) -> i32,
}

fn is_finite(re: f64, im: f64) -> bool {
    re.is_finite() && im.is_finite()
}

fn entry(i: u64) -> u64 {
    ((i.min(64) as f64 / 64.0).atan() / TAU * 262_144.0).round() as u64
}

const RIGHT: Rules = Rules {
    at_once: |re, im| (!is_finite(re, im) || (re == 0.0 && im == 0.0)).then_some(0),
    parted: |bits| match (bits >> 52, bits % (1 << 52)) {
        (0, fraction) => (fraction, 0),
        (exponent, fraction) => (fraction + (1 << 52), exponent - 1),
    },
    quotient: |smaller, larger| smaller / larger,
    cut: |quotient, by| {
        if by > 22 { 0 } else { (quotient >> by) as u64 }
    },
    table: entry,
    between: |low, high, beyond| (low * (65536 - beyond) + high * beyond + 131_072) / 262_144,
    second: |octant| 16384 - octant,
    in_second: |re, im| im.abs() > re.abs(),
    left: |quarter| 32768 - quarter,
    below: |above| (65536 - above) % 65536,
    is_minus: |part| part.is_sign_negative(),
    round: |angle| {
        if angle > 32768 { angle - 65536 } else { angle }
    },
};

fn angle_by(rules: Rules, re: f64, im: f64) -> i32 {
    if let Some(answer) = (rules.at_once)(re, im) {
        return answer;
    }
    let in_second = (rules.in_second)(re, im);
    let (smaller, larger) = if in_second { (re, im) } else { (im, re) };
    let (m, k) = (rules.parted)(smaller.abs().to_bits());
    let (n, l) = (rules.parted)(larger.abs().to_bits());
    let quotient = (rules.quotient)(u128::from(m) << 22, u128::from(n));
    let slope = (rules.cut)(quotient, l - k);
    let (at, beyond) = (slope >> 16, slope % 65536);
    let octant = (rules.between)((rules.table)(at), (rules.table)(at + 1), beyond) as i32;
    let quarter = if in_second {
        (rules.second)(octant)
    } else {
        octant
    };
    let is_minus = rules.is_minus;
    let half = if is_minus(re) {
        (rules.left)(quarter)
    } else {
        quarter
    };
    let turned = if is_minus(im) {
        (rules.below)(half)
    } else {
        half
    };
    (rules.round)(turned)
}

/// A port that goes by rules.
macro_rules! by {
    ($($field:ident: $value:expr),*) => {
        |re: f64, im: f64| -> i32 {
            #[allow(clippy::needless_update)]
            let rules = Rules { $($field: $value,)* ..RIGHT };
            angle_by(rules, re, im)
        }
    };
}

/// The same of a pair.
macro_rules! of_pair {
    ($($field:ident: $value:expr),*) => {
        |pair: Pair<u64>| -> i32 {
            let port: Port = by!($($field: $value),*);
            port(pair.value().re, pair.value().im)
        }
    };
}

/// Both parts of a pair.
struct C {
    re: f64,
    im: f64,
}

fn parts(pair: Pair<u64>) -> C {
    let (re, im) = (pair.value().re, pair.value().im);
    C { re, im }
}

#[test]
fn the_port_has_no_difference() {
    is_right(angle);
    let row = changed(ffi::angle, 1, 100_000);
    assert!(row.cases() > 100_000);
    assert_eq!(row.smallest(), None);
}

#[test]
fn other_right_ports_have_no_difference() {
    assert_eq!(found(angle(), of_pair!()).0, 0);
    // On the diagonal both octants say the same.
    let diagonal = of_pair!(in_second: |re, im| im.abs() >= re.abs());
    assert_eq!(found(angle(), diagonal).0, 0);
    // On the axes both signs of a zero say the same.
    let no_signs = of_pair!(is_minus: |part| part < 0.0);
    assert_eq!(found(angle(), no_signs).0, 0);
}

#[test]
fn one_wrong_result_is_found() {
    let (differences, smallest) = found(angle(), |pair| {
        let wrong = pair.value().re == 3.0 && pair.value().im == -2.0;
        ffi::angle(pair.value().re, pair.value().im) - i32::from(wrong)
    });
    assert!(differences > 0);
    let wanted = "bits 0x4008000000000000 and 0xc000000000000000\n    \
                  result: oracle -6133, port -6134";
    assert_eq!(smallest, wanted);
}

#[test]
fn mistakes_in_the_octant_are_found() {
    each_is_found(
        angle,
        &[
            // An octant's ends swapped.
            of_pair!(between: |low, high, beyond| 8192 - (RIGHT.between)(low, high, beyond)),
            // One entry of the table too high.
            of_pair!(table: |i| entry(i) + u64::from(i == 37)),
            // The last entry one too low.
            of_pair!(table: |i| entry(i) - u64::from(i == 64)),
            // The table's entries in whole units.
            of_pair!(table: |i| (entry(i) + 2) / 4 * 4),
            // Nothing between two entries.
            of_pair!(between: |low, _, _| (low + 2) / 4),
            // The end of an interval taken for its start.
            of_pair!(between: |low, high, beyond| (RIGHT.between)(high, low, beyond)),
            // The last rounding left out.
            of_pair!(between: |low, high, beyond| (low * (65536 - beyond) + high * beyond) / 262_144),
            // Of two units that are as near the lower.
            of_pair!(between: |low, high, beyond| {
                (low * (65536 - beyond) + high * beyond + 131_071) / 262_144
            }),
        ],
    );
}

#[test]
fn mistakes_in_the_slope_are_found() {
    each_is_found(
        angle,
        &[
            // Rounded, not cut.
            of_pair!(quotient: |smaller, larger| (smaller + larger / 2) / larger),
            // Subnormals taken for normal numbers.
            of_pair!(parted: |bits| (bits % (1 << 52) + (1 << 52), (bits >> 52).max(1) - 1)),
            // Subnormals a power of two too small.
            of_pair!(parted: |bits| ((RIGHT.parted)(bits).0, bits >> 52)),
            // Two subnormals taken for zeros.
            of_pair!(at_once: |re, im| {
                let subnormal = (re.is_subnormal() && im.is_subnormal()).then_some(0);
                (RIGHT.at_once)(re, im).or(subnormal)
            }),
            // The exponents not looked at.
            of_pair!(cut: |quotient, _| quotient.min(1 << 22) as u64),
            // Parts that are far apart come round again.
            of_pair!(cut: |quotient, by| (quotient >> (by % 64)) as u64),
            // Parts that are just not too far apart taken for it.
            of_pair!(cut: |quotient, by| if by > 10 { 0 } else { (quotient >> by) as u64 }),
        ],
    );
}

#[test]
fn mistakes_in_the_quadrant_are_found() {
    each_is_found(
        angle,
        &[
            // Half a turn below the axis.
            of_pair!(round: |angle| if angle >= 32768 { angle - 65536 } else { angle }),
            // The same by the sign of a zero imaginary part.
            |pair| {
                let C { re, im } = parts(pair);
                match ffi::angle(re, im) {
                    32768 if im.is_sign_negative() => -32768,
                    angle => angle,
                }
            },
            // Quadrants mixed up: the second goes on upward.
            of_pair!(left: |quarter| 16384 + quarter),
            // Left and right alike.
            of_pair!(left: |quarter| quarter),
            // The sign of the imaginary part dropped.
            of_pair!(below: |above| above),
            // Below the axis by half a turn.
            of_pair!(below: |above| (above + 32768) % 65536),
            // The second octant one too low, also where the diagonal is counted to it.
            of_pair!(second: |octant| 16383 - octant),
            of_pair!(second: |octant| 16383 - octant, in_second: |re, im| im.abs() >= re.abs()),
            // Not negative: up to a turn.
            of_pair!(round: |angle| angle),
            // Real and imaginary part in the other order.
            |pair| ffi::angle(pair.value().im, pair.value().re),
        ],
    );
}

#[test]
fn mistakes_where_there_is_no_angle_are_found() {
    each_is_found(
        angle,
        &[
            // Infinity taken for the largest number.
            |pair| {
                let C { re, im } = parts(pair);
                let finite = |x: f64| x.clamp(-f64::MAX, f64::MAX);
                ffi::angle(finite(re), finite(im))
            },
            // An infinity outweighs everything.
            |pair| match parts(pair) {
                C { re, im } if im == f64::INFINITY && re.is_finite() => 16384,
                C { re, im } => ffi::angle(re, im),
            },
            // A NaN taken for zero.
            |pair| {
                let C { re, im } = parts(pair);
                let number = |x: f64| if x.is_nan() { 0.0 } else { x };
                ffi::angle(number(re), number(im))
            },
            // A NaN taken for a number by its bits, as it is where only infinity is looked for.
            |pair| {
                let C { re, im } = parts(pair);
                let number = |x: f64| if x.is_nan() { f64::MAX.copysign(x) } else { x };
                ffi::angle(number(re), number(im))
            },
            // Zeros by their signs, as `atan2` has them.
            |pair| match parts(pair) {
                C { re, im } if re == 0.0 && im == 0.0 && re.is_sign_negative() => 32768,
                C { re, im } => ffi::angle(re, im),
            },
            // Everything with a zero taken for nothing.
            |pair| match parts(pair) {
                C { re, im } if re * im == 0.0 => 0,
                C { re, im } => ffi::angle(re, im),
            },
        ],
    );
}

/// The nearest unit to the angle that `atan2` gives.
fn nearest(pair: Pair<u64>) -> i32 {
    let C { re, im } = parts(pair);
    if !is_finite(re, im) || (re == 0.0 && im == 0.0) {
        return 0;
    }
    let units = (im.atan2(re) / TAU * 65536.0).round() as i32;
    if units == -32768 { 32768 } else { units }
}

#[test]
fn an_angle_by_floats_is_found() {
    let (differences, _) = found(angle(), nearest);
    assert!(differences > 1000, "{differences}");
}

/// What is found of a mistake by its distance from the true angle alone, without the twin.
fn found_by_distance(port: fn(Pair<u64>) -> i32) -> (u64, String) {
    let rust = port;
    found(Function { rust, ..angle() }, port)
}

#[test]
fn distances_alone_find_mistakes() {
    assert_eq!(found_by_distance(nearest).0, 0);
    assert_eq!(found_by_distance(of_pair!()).0, 0);
    let mistakes: [fn(Pair<u64>) -> i32; 8] = [
        // Multiples of 8.
        |pair| (nearest(pair) + 4).div_euclid(8) * 8,
        // One unit and a half off, where the table is.
        of_pair!(table: |i| entry(i) + 6 * u64::from(i == 37)),
        of_pair!(left: |quarter| 16384 + quarter),
        of_pair!(between: |low, high, beyond| (RIGHT.between)(high, low, beyond)),
        of_pair!(parted: |bits| (bits % (1 << 52) + (1 << 52), (bits >> 52).max(1) - 1)),
        of_pair!(cut: |quotient, by| (quotient >> (by % 64)) as u64),
        // Zeros and infinities, by what the request says of them.
        |pair| {
            if pair.re << 1 == 0 && pair.im << 1 == 0 {
                1
            } else {
                nearest(pair)
            }
        },
        |pair| {
            if pair.value().re.is_infinite() {
                32768
            } else {
                nearest(pair)
            }
        },
    ];
    for (index, mistake) in mistakes.into_iter().enumerate() {
        let (differences, smallest) = found_by_distance(mistake);
        assert!(differences > 0, "mistake {index}");
        assert!(
            smallest.contains("\n    distance: "),
            "mistake {index}: {smallest}"
        );
    }
}

#[test]
fn broken_claims_on_changed_pairs_are_found() {
    let broken: [(&str, Port); 7] = [
        ("turned by a quarter", by!(left: |quarter| 16384 + quarter)),
        ("turned by a quarter", by!(second: |octant| 16383 - octant)),
        // Half a turn by the sign of a zero.
        ("turned by a quarter", |re, im| {
            let half = ffi::angle(re, im) == 32768 && im.is_sign_negative();
            if half { -32768 } else { ffi::angle(re, im) }
        }),
        // All angles one further.
        (
            "mirrored",
            by!(round: |angle| (RIGHT.round)((angle + 1) % 65536)),
        ),
        // Not 0 where there is no angle.
        (
            "mirrored",
            by!(at_once: |re, im| (RIGHT.at_once)(re, im).map(|_| 1)),
        ),
        // Subnormals taken for normal numbers, or for half of what they are.
        (
            "amplified",
            by!(parted: |bits| (bits % (1 << 52) + (1 << 52), (bits >> 52).max(1) - 1)),
        ),
        (
            "amplified",
            by!(parted: |bits| ((RIGHT.parted)(bits).0, bits >> 52)),
        ),
    ];
    for (index, (what, port)) in broken.into_iter().enumerate() {
        let row = changed(port, 1, 100_000);
        let smallest = row.smallest().unwrap_or_default();
        let wanted = format!("\n    {what}: wanted ");
        assert!(smallest.contains(&wanted), "mistake {index}: {smallest}");
    }
}
