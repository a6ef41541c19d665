//! Mistakes in the guess.

use crate::{found, is_broken, is_found, is_found_at_boundary, quiet64};
use oracle::C32;
use oracle::acquire::{Acquire, Oracle};
use oracle::codes::mode_of;
use oracle::complex::C64;
use oracle::harness::call::{Call, write_answer};
use oracle::harness::rng::Rng;
use oracle::ops::cfo_frac::{self, OfGuess};
use oracle::ops::detect_mode::{Guess, GuessArguments, GuessCall, Port, Ports, answer, write};
use sillurwy::ffi;

/// What decides in the search: an energy is passed over, a metric is better.
#[derive(Clone, Copy)]
struct Rules {
    passed_over: fn(f64) -> bool,
    better: fn(f64, f64) -> bool,
    /// Fewest symbols searched.
    symbols: usize,
}

const RIGHT: Rules = Rules {
    passed_over: |energy| energy <= 0.0,
    better: |metric, best| metric > best,
    symbols: 4,
};

/// Sums of the products and energies before each sample.
fn prefixes(pairs: &[C32], n: usize) -> Vec<(C64, f64)> {
    let (mut product, mut energy) = (C64::default(), 0.0);
    let mut sums = vec![(product, energy)];
    for (a, b) in pairs.iter().zip(&pairs[n..]) {
        let p = *a * b.conj();
        product += C64::new(f64::from(p.re), f64::from(p.im));
        energy += f64::from(a.norm_sqr() + b.norm_sqr()) * 0.5;
        sums.push((product, energy));
    }
    sums
}

/// The correlation and energy at an offset.
fn summed(sums: &[(C64, f64)], n: usize, ng: usize, offset: usize) -> (C64, f64) {
    let (len, period) = (sums.len() - 1, n + ng);
    let (mut g, mut e) = (C64::default(), 0.0);
    for symbol in 0..(len - ng) / period {
        let start = offset + symbol * period;
        if start + ng > len {
            break;
        }
        g += sums[start + ng].0 - sums[start].0;
        e += sums[start + ng].1 - sums[start].1;
    }
    (g, e)
}

/// The guess by the given rules.
fn guess_by(
    rules: Rules,
    samples: &[f32],
    (modes, guards): (&[u8], &[u8]),
    scratch: usize,
) -> Result<Option<Guess>, u8> {
    answer::<Oracle>(samples, modes, guards, scratch)?;
    let pairs = Oracle::pairs(samples);
    let mut best: Option<Guess> = None;
    for &mode in modes {
        let n = mode_of(mode)?.fft_size();
        if pairs.len() <= n {
            continue;
        }
        let sums = prefixes(&pairs, n);
        for &guard in guards {
            let ng = n / usize::from(guard);
            if sums.len() - 1 < ng + rules.symbols * (n + ng) {
                continue;
            }
            for offset in 0..n + ng {
                let (g, e) = summed(&sums, n, ng, offset);
                let metric = g.norm() / e;
                let better = best.is_none_or(|best| (rules.better)(metric, best.metric));
                if !(rules.passed_over)(e) && better {
                    best = Some(Guess {
                        mode,
                        guard,
                        offset,
                        metric,
                        re: g.re,
                        im: g.im,
                        cfo_frac: cfo_frac::rust(g.re, g.im),
                    });
                }
            }
        }
    }
    Ok(best)
}

/// A port that guesses by rules.
macro_rules! by {
    ($($field:ident: $value:expr),*) => {
        |samples, modes, guards, scratch, out| {
            let rules = Rules { $($field: $value,)* ..RIGHT };
            let answer = guess_by(rules, samples, (modes, guards), scratch.len());
            write(answer, scratch, out)
        }
    };
}

#[test]
fn the_search_itself_is_right() {
    let right: Port = by!();
    assert_eq!(found::<GuessCall>(right), None);
}

#[test]
fn an_energy_tested_with_above_zero_is_found() {
    is_found::<GuessCall>(
        "energy above zero",
        by!(passed_over: |energy| energy.is_nan() || energy <= 0.0),
    );
}

#[test]
fn mistakes_in_the_search_are_found() {
    is_found::<GuessCall>(
        "the later of equal metrics",
        by!(better: |metric, best| metric >= best),
    );
    is_found::<GuessCall>(
        "a first metric that is NaN is replaced",
        by!(better: |metric, best| metric > best || best.is_nan()),
    );
    is_found::<GuessCall>("too few symbols searched", by!(symbols: 3));
}

#[test]
fn mistakes_in_the_guess_are_found() {
    is_found::<GuessCall>(
        "nothing is ever found",
        |samples, modes, guards, scratch, out| {
            let answer = answer::<Oracle>(samples, modes, guards, scratch.len());
            write(answer.map(|_| None), scratch, out)
        },
    );
    is_found::<GuessCall>(
        "scratch that is not zero at its end",
        |samples, modes, guards, scratch, out| {
            let answer = answer::<Oracle>(samples, modes, guards, scratch.len());
            write_answer(answer, |guess| {
                scratch[..3 * (samples.len() / 2 + 1)].fill(0.0);
                out.write(guess);
            })
        },
    );
    is_found::<GuessCall>(
        "an offset where nothing is found",
        |samples, modes, guards, scratch, out| {
            let answer = answer::<Oracle>(samples, modes, guards, scratch.len());
            write_answer(answer, |guess| {
                scratch.fill(0.0);
                *out.offset = 0;
                out.write(guess);
            })
        },
    );
    is_found::<GuessCall>(
        "the last guard only",
        |samples, modes, guards, scratch, out| {
            let ask = |guards: &[u8]| answer::<Oracle>(samples, modes, guards, scratch.len());
            let last = &guards[guards.len().saturating_sub(1)..];
            let answer = ask(guards).and_then(|_| ask(last));
            write(answer, scratch, out)
        },
    );
}

#[test]
fn a_refusal_that_quiets_nans_is_found() {
    is_found_at_boundary::<GuessCall>("parts", |samples, modes, guards, scratch, out| {
        let answer = answer::<Oracle>(samples, modes, guards, scratch.len());
        if answer.is_err() {
            quiet64(out.re);
            quiet64(out.im);
        }
        write(answer, scratch, out)
    });
    is_found_at_boundary::<GuessCall>("scratch", |samples, modes, guards, scratch, out| {
        let answer = answer::<Oracle>(samples, modes, guards, scratch.len());
        if answer.is_err() {
            scratch.iter_mut().for_each(quiet64);
        }
        write(answer, scratch, out)
    });
}

#[test]
fn an_answer_that_quiets_what_it_leaves_is_found() {
    is_found::<GuessCall>("metric", |samples, modes, guards, scratch, out| {
        let answer = answer::<Oracle>(samples, modes, guards, scratch.len());
        if answer.as_ref().is_ok_and(Option::is_none) {
            quiet64(out.metric);
        }
        write(answer, scratch, out)
    });
}

/// The claim is broken by a port of the guess, beside the linked one of the fractional offset.
fn guess_is_broken(what: &str, port: Port) {
    is_broken::<GuessArguments>(what, (port, ffi::cfo_frac));
}

#[test]
fn an_answer_that_depends_on_the_gain_breaks_the_claim() {
    guess_is_broken("metric", |samples, modes, guards, scratch, out| {
        let answer = answer::<Oracle>(samples, modes, guards, scratch.len());
        let answer = answer.map(|guess| {
            guess.map(|guess| Guess {
                metric: guess.metric + 1.0 / (1e-9 + guess.re.abs()),
                ..guess
            })
        });
        write(answer, scratch, out)
    });
}

#[test]
fn parts_that_turn_break_the_claim() {
    guess_is_broken("parts", |samples, modes, guards, scratch, out| {
        let answer = answer::<Oracle>(samples, modes, guards, scratch.len());
        let first = samples.first().copied().unwrap_or(0.0);
        let answer = answer.map(|guess| {
            guess.map(|guess| Guess {
                re: if first > 0.0 { guess.re } else { -guess.re },
                ..guess
            })
        });
        write(answer, scratch, out)
    });
}

/// True if some random call shows that the fractional offset is not the port's.
fn offset_is_found(cfo_frac: cfo_frac::Port) -> bool {
    (0..200).any(|index| {
        let call = GuessCall::random(&mut Rng::for_case(1, GuessCall::STREAM, index));
        let outcome = call.run_with(GuessCall::LINKED, cfo_frac, index);
        let found = outcome.difference.unwrap_or_default();
        found.starts_with("fractional offset: ")
    })
}

#[test]
fn mistakes_in_the_fractional_offset_of_a_guess_are_found() {
    assert!(!offset_is_found(ffi::cfo_frac));
    assert!(!offset_is_found(cfo_frac::right));
    assert!(offset_is_found(|re, im| -ffi::cfo_frac(re, im)));
    assert!(offset_is_found(
        |re, im| ffi::cfo_frac(re, im) + 2.0 / 65536.0
    ));
    // The Rust's own is NaN, or the angle of an infinity, where the request has 0.
    assert!(offset_is_found(cfo_frac::rust));
}

#[test]
fn a_part_that_is_minus_zero_is_found() {
    let of_guess = |parts| OfGuess {
        parts,
        port: 0.0,
        rust: 0.0,
    };
    assert_eq!(of_guess(C64::new(0.0, 0.0)).difference(), None);
    assert_eq!(of_guess(C64::new(1.0, 0.0)).difference(), None);
    let parts = [C64::new(-0.0, 0.0), C64::new(1.0, -0.0)];
    for found in parts.map(|parts| of_guess(parts).difference()) {
        assert!(found.unwrap().starts_with("a part is −0.0: "));
    }
}

#[test]
fn a_fractional_offset_that_changes_breaks_the_claim() {
    // By the gain: whole parts are larger, and their lower digits are other ones.
    let by_size: Ports = (GuessCall::LINKED, |re, im| {
        let size = if re.abs() > 1e9 { 1.0 / 65536.0 } else { 0.0 };
        ffi::cfo_frac(re, im) + size
    });
    is_broken::<GuessArguments>("by size", by_size);
}
