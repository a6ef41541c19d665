//! Mistakes in the ratio of one bin.

use crate::{found, is_broken, is_found, is_found_at_boundary, quiet, unsquared};
use oracle::C32;
use oracle::acquire::{Acquire, Oracle};
use oracle::harness::call::{Call, write_answer};
use oracle::ops::bin_ratio::{Port, Ports, RatioArguments, RatioCall, RatiosLeft, answer};
use oracle::ops::detect_kinds::KindsCall;
use oracle::ops::integer_cfo::ShiftCall;

const RUST: Port = RatioCall::RUST;

/// Writes what is made of the pairs, where the Rust accepts them.
fn made(pairs: &[f32], ratio: &mut f32, make: impl FnOnce(&[C32]) -> f32) -> u8 {
    let answer = answer::<Oracle>(pairs).map(|_| make(&Oracle::pairs(pairs)));
    write_answer(answer, |found| *ratio = found)
}

/// Writes the ratio of other pairs, where the Rust accepts those that are given.
fn of_others(pairs: &[f32], ratio: &mut f32, others: impl FnOnce(&[f32]) -> Vec<f32>) -> u8 {
    let answer = answer::<Oracle>(pairs).and_then(|_| answer::<Oracle>(&others(pairs)));
    write_answer(answer, |found| *ratio = found)
}

/// A pair and the one before, to their product.
type Product = fn(C32, C32) -> C32;

fn product(x: C32, before: C32) -> C32 {
    x * before.conj()
}

/// The sum of the squared products and the energy, both from `start` on, of pairs that lie `apart`.
fn sums(pairs: &[C32], start: f32, apart: usize, product: Product) -> (C32, f32) {
    let (mut sum, mut energy) = (C32::new(start, start), start);
    for at in apart..pairs.len() {
        let p = product(pairs[at], pairs[at - apart]);
        sum += p * p;
        energy += p.norm_sqr();
    }
    (sum, energy)
}

/// The ratio of the right sums.
fn of_sums(pairs: &[f32], ratio: &mut f32, divide: fn(C32, f32) -> f32) -> u8 {
    made(pairs, ratio, |pairs| {
        let (sum, energy) = sums(pairs, 0.0, 1, product);
        divide(sum, energy)
    })
}

fn quotient((sum, energy): (C32, f32)) -> f32 {
    if energy > 0.0 {
        sum.norm() / energy
    } else {
        0.0
    }
}

#[test]
fn the_sums_themselves_are_right() {
    let right: Port =
        |pairs, ratio| made(pairs, ratio, |pairs| quotient(sums(pairs, 0.0, 1, product)));
    assert_eq!(found::<RatioCall>(right), None);
    // Sums that start with −0.0 give the same: a norm has no sign, and the energy is tested for
    // "above zero".
    let from_below: Port = |pairs, ratio| {
        made(pairs, ratio, |pairs| {
            quotient(sums(pairs, -0.0, 1, product))
        })
    };
    assert_eq!(found::<RatioCall>(from_below), None);
}

#[test]
fn pairs_that_are_passed_over_are_found() {
    is_found::<RatioCall>("the last", |pairs, ratio| {
        of_others(pairs, ratio, |pairs| {
            let but_last = (pairs.len() - 2).max(2);
            pairs[..but_last].to_vec()
        })
    });
    is_found::<RatioCall>("the first", |pairs, ratio| {
        of_others(pairs, ratio, |pairs| {
            let second = if pairs.len() > 2 { 2 } else { 0 };
            pairs[second..].to_vec()
        })
    });
    is_found::<RatioCall>("all but the first two", |pairs, ratio| {
        of_others(pairs, ratio, |pairs| pairs[..pairs.len().min(4)].to_vec())
    });
    is_found::<RatioCall>("those beyond 64", |pairs, ratio| {
        of_others(pairs, ratio, |pairs| pairs[..pairs.len().min(128)].to_vec())
    });
}

#[test]
fn pairs_in_another_order_are_found() {
    is_found::<RatioCall>("two apart", |pairs, ratio| {
        made(pairs, ratio, |pairs| quotient(sums(pairs, 0.0, 2, product)))
    });
    is_found::<RatioCall>("the last first", |pairs, ratio| {
        of_others(pairs, ratio, |pairs| {
            pairs.rchunks(2).flatten().copied().collect()
        })
    });
    is_found::<RatioCall>("round the circle", |pairs, ratio| {
        of_others(pairs, ratio, |pairs| {
            let most = pairs.len() == 2048;
            let again = if most { &[] } else { &pairs[..2] };
            [pairs, again].concat()
        })
    });
    is_found::<RatioCall>("all real parts first", |pairs, ratio| {
        of_others(pairs, ratio, |pairs| {
            let (re, im) = pairs.split_at(pairs.len() / 2);
            re.iter().zip(im).flat_map(|(&re, &im)| [re, im]).collect()
        })
    });
}

const NOT_SQUARED: Port = |pairs, ratio| {
    let answer = answer::<Oracle>(pairs).map(|_| unsquared(pairs, 1)[0]);
    write_answer(answer, |found| *ratio = found)
};

#[test]
fn wrong_products_are_found() {
    is_found::<RatioCall>("the conjugate left out", |pairs, ratio| {
        made(pairs, ratio, |pairs| {
            quotient(sums(pairs, 0.0, 1, |x, before| x * before))
        })
    });
    is_found::<RatioCall>("not squared", NOT_SQUARED);
    is_found::<RatioCall>("times its conjugate", |pairs, ratio| {
        made(pairs, ratio, |pairs| {
            let (_, energy) = sums(pairs, 0.0, 1, product);
            quotient((C32::new(energy, 0.0), energy))
        })
    });
    is_found::<RatioCall>("the parts of one product swapped", |pairs, ratio| {
        made(pairs, ratio, |pairs| {
            let swapped: Product = |x, before| {
                let p = product(x, before);
                if x.re < 0.0 { C32::new(p.im, p.re) } else { p }
            };
            quotient(sums(pairs, 0.0, 1, swapped))
        })
    });
    is_found::<RatioCall>("sums in f64", |pairs, ratio| {
        made(pairs, ratio, |pairs| {
            let (mut re, mut im, mut energy) = (0.0, 0.0, 0.0);
            for neighbours in pairs.windows(2) {
                let p = product(neighbours[1], neighbours[0]);
                let square = p * p;
                re += f64::from(square.re);
                im += f64::from(square.im);
                energy += f64::from(p.norm_sqr());
            }
            quotient((C32::new(re as f32, im as f32), energy as f32))
        })
    });
}

#[test]
fn wrong_quotients_are_found() {
    is_found::<RatioCall>("an energy of zero", |pairs, ratio| {
        of_sums(pairs, ratio, |sum, energy| match energy >= 0.0 {
            true => sum.norm() / energy,
            false => 0.0,
        })
    });
    is_found::<RatioCall>("an energy that is no number", |pairs, ratio| {
        of_sums(pairs, ratio, |sum, energy| match energy <= 0.0 {
            true => 0.0,
            false => sum.norm() / energy,
        })
    });
    is_found::<RatioCall>("any energy", |pairs, ratio| {
        of_sums(pairs, ratio, |sum, energy| sum.norm() / energy)
    });
    is_found::<RatioCall>("sum and energy swapped", |pairs, ratio| {
        of_sums(pairs, ratio, |sum, energy| match energy > 0.0 {
            true => energy / sum.norm(),
            false => 0.0,
        })
    });
    is_found::<RatioCall>("the real part alone", |pairs, ratio| {
        of_sums(pairs, ratio, |sum, energy| {
            quotient((C32::new(sum.re, 0.0), energy))
        })
    });
    is_found::<RatioCall>("a NaN put to zero", |pairs, ratio| {
        of_sums(pairs, ratio, |sum, energy| {
            let found = quotient((sum, energy));
            if found.is_nan() { 0.0 } else { found }
        })
    });
    is_found::<RatioCall>("no more than 1", |pairs, ratio| {
        of_sums(pairs, ratio, |sum, energy| {
            let found = quotient((sum, energy));
            if found > 1.0 { 1.0 } else { found }
        })
    });
    is_found::<RatioCall>("a norm whose squares are `f32`", |pairs, ratio| {
        of_sums(pairs, ratio, |sum, energy| {
            quotient((C32::new(sum.norm_sqr().sqrt(), 0.0), energy))
        })
    });
}

fn refused(pairs: &[f32]) -> bool {
    answer::<Oracle>(pairs).is_err()
}

#[test]
fn mistakes_at_the_refusals_are_found() {
    is_found_at_boundary::<RatioCall>("1,024 pairs refused", |pairs, ratio| {
        if pairs.len() == 2048 {
            return 5;
        }
        RUST(pairs, ratio)
    });
    is_found_at_boundary::<RatioCall>("1,025 pairs accepted", |pairs, ratio| {
        let accepted = pairs.len() == 2050;
        RUST(if accepted { &pairs[..2048] } else { pairs }, ratio)
    });
    is_found_at_boundary::<RatioCall>("an odd length accepted", |pairs, ratio| {
        let odd = pairs.len() % 2 == 1 && pairs.len() > 1;
        RUST(
            if odd {
                &pairs[..pairs.len() - 1]
            } else {
                pairs
            },
            ratio,
        )
    });
    is_found_at_boundary::<RatioCall>("1,024 pairs and a half accepted", |pairs, ratio| {
        RUST(
            if pairs.len() == 2049 {
                &pairs[..2048]
            } else {
                pairs
            },
            ratio,
        )
    });
    is_found_at_boundary::<RatioCall>("half a pair is none", |pairs, ratio| {
        match RUST(pairs, ratio) {
            5 if pairs.len() == 1 => 6,
            code => code,
        }
    });
    is_found_at_boundary::<RatioCall>("none accepted", |pairs, ratio| {
        if pairs.is_empty() {
            *ratio = 0.0;
            return 0;
        }
        RUST(pairs, ratio)
    });
    is_found_at_boundary::<RatioCall>("none refused as a length", |pairs, ratio| {
        match RUST(pairs, ratio) {
            6 => 5,
            code => code,
        }
    });
    is_found_at_boundary::<RatioCall>("lengths that are cut to 16 bits", |pairs, ratio| {
        RUST(&pairs[..pairs.len() % (1 << 16)], ratio)
    });
}

#[test]
fn what_is_written_wrongly_is_found() {
    is_found_at_boundary::<RatioCall>("a refusal that writes", |pairs, ratio| {
        if refused(pairs) {
            *ratio = 0.0;
        }
        RUST(pairs, ratio)
    });
    is_found_at_boundary::<RatioCall>("a refusal that quiets NaNs", |pairs, ratio| {
        if refused(pairs) {
            quiet(ratio);
        }
        RUST(pairs, ratio)
    });
    is_found::<RatioCall>("a ratio that is left", |pairs, ratio| {
        let elsewhere = &mut 0.0;
        RUST(pairs, if pairs.len() == 2 { elsewhere } else { ratio })
    });
}

#[test]
fn a_ratio_that_depends_on_a_sign_breaks_the_claim() {
    is_broken::<RatioArguments>("ratio", NOT_SQUARED);
}

#[test]
fn a_ratio_that_depends_on_a_gain_breaks_the_claim() {
    is_broken::<RatioArguments>("ratio", |pairs, ratio| {
        of_sums(pairs, ratio, |sum, energy| quotient((sum, energy + 1.0)))
    });
}

/// Another ratio of the last bin, where the call is accepted.
fn other_last(code: u8, spectra: &[f32], ratios: &mut [f32]) -> u8 {
    if code == 0 {
        let last = ratios.len() - 1;
        ratios[last] = unsquared(spectra, ratios.len())[last];
    }
    code
}

#[test]
fn other_ratios_that_are_left_break_the_claim() {
    is_broken::<RatiosLeft>(
        "the last ratio of the shift",
        Ports {
            shift: |mode, spectra, bound, ratios, shift, score| {
                let code = ShiftCall::RUST(mode, spectra, bound, ratios, shift, score);
                other_last(code, spectra, ratios)
            },
            ..Ports::RUST
        },
    );
    is_broken::<RatiosLeft>(
        "the last ratio of the kinds",
        Ports {
            kinds: |mode, spectra, ratios, kinds, scores| {
                let code = KindsCall::RUST(mode, spectra, ratios, kinds, scores);
                other_last(code, spectra, ratios)
            },
            ..Ports::RUST
        },
    );
    is_broken::<RatiosLeft>(
        "the ratio of the first two pairs",
        Ports {
            ratio: |pairs, ratio| {
                of_others(pairs, ratio, |pairs| pairs[..pairs.len().min(4)].to_vec())
            },
            ..Ports::RUST
        },
    );
    is_broken::<RatiosLeft>(
        "everything refused by the one",
        Ports {
            ratio: |_, _| 5,
            ..Ports::RUST
        },
    );
}
