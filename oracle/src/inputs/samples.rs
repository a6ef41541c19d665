//! Samples to compare the guess on: symbols with their guard intervals, and unusual ones.

use super::captures::{self, FILLINGS, draw};
use crate::complex::C64;
use crate::harness::rng::Rng;
use crate::isdb::params::{GuardInterval, Mode};
use std::f64::consts::TAU;

/// A pair of size 1 at an angle, in turns.
fn unit(turns: f64) -> C64 {
    let (sin, cos) = (turns * TAU).sin_cos();
    C64::new(cos, sin)
}

/// The values at places whose binary digits are reversed.
fn reversed(values: &[C64]) -> Vec<C64> {
    let digits = values.len().trailing_zeros();
    let from = |i: usize| i.reverse_bits() >> (usize::BITS - digits);
    (0..values.len()).map(|i| values[from(i)]).collect()
}

/// The sum over all bins b of value × unit(b × place / n), for every place; n is a power of two
/// above 1.
pub fn transform(bins: &[C64]) -> Vec<C64> {
    let mut values = reversed(bins);
    let mut half = 1;
    while half < values.len() {
        let turns: Vec<C64> = (0..half)
            .map(|i| unit(i as f64 / (2 * half) as f64))
            .collect();
        for block in values.chunks_mut(2 * half) {
            let (low, high) = block.split_at_mut(half);
            for ((x, y), &turn) in low.iter_mut().zip(high).zip(&turns) {
                let turned = *y * turn;
                (*x, *y) = (*x + turned, *x - turned);
            }
        }
        half *= 2;
    }
    values
}

/// The useful part of a symbol: data on the carriers of the band, in their bins.
fn useful_part(rng: &mut Rng, mode: Mode) -> Vec<C64> {
    let n = mode.fft_size();
    let half_band = mode.total_carriers() / 2;
    let mut bins = vec![C64::default(); n];
    for (bin, value) in bins.iter_mut().enumerate() {
        if bin <= half_band || bin >= n - half_band {
            *value = unit(rng.below(4) as f64 / 4.0 + 0.125);
        }
    }
    let scale = 1.0 / (2.0 * half_band as f64).sqrt();
    transform(&bins).into_iter().map(|x| x * scale).collect()
}

/// Symbols with guard intervals, from some place in a symbol on: `pairs` of them.
fn symbols(rng: &mut Rng, mode: Mode, guard: GuardInterval, pairs: usize) -> Vec<C64> {
    let (n, ng) = (mode.fft_size(), guard.samples(mode));
    let skip = rng.below(n + ng);
    let mut all = Vec::with_capacity(skip + pairs + n + ng);
    while all.len() < skip + pairs {
        let useful = useful_part(rng, mode);
        all.extend_from_slice(&useful[n - ng..]);
        all.extend(useful);
    }
    all[skip..skip + pairs].to_vec()
}

/// Strengths of noise; the signal has about 1.
const NOISE: [f32; 5] = [0.0, 0.01, 0.3, 1.0, 10.0];

/// What a receiver hands over: symbols, turned ever further by a frequency offset, with noise of a
/// strength, times a factor.
pub fn received(
    rng: &mut Rng,
    mode: Mode,
    guard: GuardInterval,
    pairs: usize,
    (noise, scale): (f32, f32),
) -> Vec<f32> {
    let symbols = symbols(rng, mode, guard, pairs);
    let step = unit(f64::from(draw::noise(rng)) / mode.fft_size() as f64);
    let mut turn = unit(draw::fraction(rng));
    let mut floats = Vec::with_capacity(2 * pairs);
    for symbol in symbols {
        let value = symbol * turn;
        for part in [value.re, value.im] {
            floats.push((part as f32 + noise * draw::noise(rng)) * scale);
        }
        turn = turn * step;
    }
    floats
}

/// The same as whole numbers, from −32,768 to 32,768.
pub fn received_whole(rng: &mut Rng, mode: Mode, guard: GuardInterval, pairs: usize) -> Vec<f32> {
    let (noise, scale) = (*rng.pick(&NOISE), *rng.pick(&[30.0, 4096.0, 20000.0]));
    let mut floats = received(rng, mode, guard, pairs, (noise, scale));
    for float in &mut floats {
        *float = float.round().clamp(-32768.0, 32768.0);
    }
    floats
}

/// Silence in a part of the samples, so that the energy of many offsets is 0.
fn silence_part(rng: &mut Rng, floats: &mut [f32]) {
    let (one, other) = (rng.below(floats.len() + 1), rng.below(floats.len() + 1));
    floats[one.min(other)..one.max(other)].fill(0.0);
}

/// Random samples: received, damaged or partly silent, or unusual.
pub fn samples(rng: &mut Rng, mode: Mode, guard: GuardInterval, floats: usize) -> Vec<f32> {
    let pairs = floats.div_ceil(2);
    let mut all = match rng.below(8) {
        0 | 1 => {
            let (noise, scale) = (*rng.pick(&NOISE), *rng.pick(&[1.0, 1e-3, 4e3]));
            received(rng, mode, guard, pairs, (noise, scale))
        }
        2 => received_whole(rng, mode, guard, pairs),
        _ => {
            let mut all = vec![0.0; 2 * pairs];
            rng.pick(&FILLINGS)(rng, pairs.max(1), &mut all);
            all
        }
    };
    match rng.below(8) {
        0 => captures::damage(rng, &mut all),
        1 => silence_part(rng, &mut all),
        _ => {}
    }
    all.truncate(floats);
    all
}

#[cfg(test)]
mod tests {
    use super::*;

    #[test]
    fn transform_is_the_sum() {
        let mut rng = Rng::new(1);
        let draw = |rng: &mut Rng| f64::from(draw::noise(rng));
        let bins: Vec<C64> = (0..16)
            .map(|_| C64::new(draw(&mut rng), draw(&mut rng)))
            .collect();
        for (place, found) in transform(&bins).into_iter().enumerate() {
            let term = |(b, &x): (usize, &C64)| x * unit((b * place) as f64 / 16.0);
            let sum: C64 = bins.iter().enumerate().map(term).sum();
            assert!((found - sum).norm() < 1e-12, "{place}");
        }
    }

    #[test]
    fn a_guard_repeats_the_end() {
        let mut rng = Rng::new(1);
        let (mode, guard) = (Mode::M1, GuardInterval::G1_8);
        let (n, ng) = (2048, 256);
        let all = symbols(&mut rng, mode, guard, 2 * (n + ng));
        let repeats = |start: usize| (0..ng).all(|m| all[start + m] == all[start + m + n]);
        assert_eq!((0..n + ng).filter(|&start| repeats(start)).count(), 1);
    }
}
