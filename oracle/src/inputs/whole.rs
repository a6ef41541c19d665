//! Captures that are stored: every part is a whole number from −128 to 127, so that it takes a byte, and
//! they are in mode 1.
//!
//! The floats are made by sums, products and quotients alone, which are the same on every machine.

use super::captures::{Places, draw};
use crate::codes::kinds_of_choice;
use crate::complex::C64;
use crate::harness::rng::Rng;
use crate::isdb::frame::{CarrierRole, FrameLayout, pilot_value};
use crate::isdb::ofdm::carrier_bin;
use crate::isdb::params::Mode;

const MODE: Mode = Mode::M1;

/// A pair of size 1, turned by twice the angle whose tangent is t.
fn unit(t: f64) -> C64 {
    let size = 1.0 + t * t;
    C64::new((1.0 - t * t) / size, 2.0 * t / size)
}

/// Both parts of a value with noise, as whole numbers, none of them −0.0.
fn received(rng: &mut Rng, value: C64, noise: f64) -> [f32; 2] {
    [value.re, value.im].map(|part| {
        let noisy = part + f64::from(draw::noise(rng)) * noise;
        noisy.round().clamp(-128.0, 127.0) as f32 + 0.0
    })
}

/// A band whose spectra are stored.
#[derive(Debug, Clone, Copy)]
pub struct Band {
    /// The choice of kinds.
    pub choice: u16,
    /// Phase of the first symbol.
    pub phase: usize,
    /// The shift of the bins.
    pub shift: i64,
    /// Strength of the noise; pilots have 80, data 60.
    pub noise: f64,
}

impl Band {
    /// `count` spectra, each symbol and each carrier turned against the one before.
    pub fn spectra(self, rng: &mut Rng, places: Places, count: usize) -> Vec<f32> {
        let layout = FrameLayout::new(MODE, kinds_of_choice(self.choice));
        let (drift, slope) = (unit(draw::fraction(rng)), unit(draw::fraction(rng) / 256.0));
        let mut signs = layout.w.clone();
        let mut turn = unit(draw::fraction(rng));
        let mut floats = Vec::new();
        for symbol in 0..count {
            if symbol > 0 {
                flip(rng, &layout, &mut signs);
            }
            let mut values = vec![C64::default(); places.count(MODE)];
            let mut turned = turn;
            for (k, role) in layout.roles((self.phase + symbol) % 4).iter().enumerate() {
                let value = match role {
                    CarrierRole::Data => data_point(rng),
                    _ => C64::new(f64::from(pilot_value(signs[k]).re) * 60.0, 0.0),
                };
                values[self.place(places, k)] = value * turned;
                turned = turned * slope;
            }
            turn = turn * drift;
            floats.extend(values.iter().flat_map(|&v| received(rng, v, self.noise)));
        }
        floats
    }

    /// Where carrier k stands.
    fn place(self, places: Places, k: usize) -> usize {
        match places {
            Places::Carriers => k,
            Places::Bins => {
                let n = MODE.fft_size() as i64;
                (carrier_bin(MODE, k) as i64 + self.shift).rem_euclid(n) as usize
            }
        }
    }
}

/// What TMCC and AC carry: one bit on all TMCC carriers, one on each AC carrier.
fn flip(rng: &mut Rng, layout: &FrameLayout, signs: &mut [u8]) {
    let bit = u8::from(rng.once_in(2));
    for carrier in &layout.tmcc {
        signs[carrier.k as usize] ^= bit;
    }
    for carrier in &layout.ac {
        signs[carrier.k as usize] ^= u8::from(rng.once_in(2));
    }
}

/// A point of QPSK.
fn data_point(rng: &mut Rng) -> C64 {
    let part = |rng: &mut Rng| if rng.once_in(2) { 42.0 } else { -42.0 };
    C64::new(part(rng), part(rng))
}

/// Any whole numbers.
pub fn any_bytes(rng: &mut Rng, count: usize) -> Vec<f32> {
    (0..count).map(|_| f32::from(rng.byte()) - 128.0).collect()
}

/// Units and, once in `silent` times, silence: energies vanish, ratios and scores tie.
pub fn units(rng: &mut Rng, pairs: usize, silent: usize) -> Vec<f32> {
    const UNITS: [[f32; 2]; 4] = [[1.0, 0.0], [0.0, 1.0], [-1.0, 0.0], [0.0, -1.0]];
    let pair = |_| match rng.once_in(silent) {
        true => [0.0, 0.0],
        false => *rng.pick(&UNITS),
    };
    (0..pairs).flat_map(pair).collect()
}

/// Samples of symbols with guard intervals of 1/32, from some place in a symbol on, turned ever
/// further.
pub fn symbols(rng: &mut Rng, pairs: usize, noise: f64) -> Vec<f32> {
    let (n, ng) = (MODE.fft_size(), MODE.fft_size() / 32);
    let skip = rng.below(n + ng);
    let mut values = Vec::new();
    while values.len() < skip + pairs {
        let part = |rng: &mut Rng| f64::from(draw::noise(rng)) * 100.0;
        let useful: Vec<C64> = (0..n).map(|_| C64::new(part(rng), part(rng))).collect();
        values.extend_from_slice(&useful[n - ng..]);
        values.extend(useful);
    }
    let step = unit(draw::fraction(rng) / 2048.0);
    let mut turn = unit(draw::fraction(rng));
    let mut floats = Vec::new();
    for &value in &values[skip..skip + pairs] {
        floats.extend(received(rng, value * turn, noise));
        turn = turn * step;
    }
    floats
}
