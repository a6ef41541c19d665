//! Spectra to compare with: those of a band as a receiver has them, and unusual ones.

use crate::C32;
use crate::codes::kinds_of_choice;
use crate::harness::rng::Rng;
use crate::isdb::frame::{CarrierRole, FrameLayout, pilot_value};
use crate::isdb::ofdm::carrier_bin;
use crate::isdb::params::Mode;
use std::f64::consts::TAU;

/// What the pairs of a spectrum are.
#[derive(Debug, Clone, Copy, PartialEq, Eq)]
pub enum Places {
    /// FFT bins, n of them.
    Bins,
    /// Carriers of the band, k_total of them.
    Carriers,
}

impl Places {
    /// Pairs in a spectrum.
    pub fn count(self, mode: Mode) -> usize {
        match self {
            Places::Bins => mode.fft_size(),
            Places::Carriers => mode.total_carriers(),
        }
    }
}

/// Random values of several shapes.
pub mod draw {
    use super::Rng;

    /// From −1 to 1, small values more often.
    pub fn noise(rng: &mut Rng) -> f32 {
        let bits = rng.next_u64();
        let part = |shift: u32| (bits >> shift & 0xffff) as f32;
        (part(0) - part(16)) / 65536.0
    }

    /// From 0 to 1.
    pub fn fraction(rng: &mut Rng) -> f64 {
        (rng.next_u64() >> 11) as f64 / (1_u64 << 53) as f64
    }

    /// A whole number from −`limit` to `limit`; often one of the two.
    pub fn whole(rng: &mut Rng, limit: usize) -> f32 {
        let whole = match rng.below(32) {
            0 => 0,
            1 => 2 * limit,
            _ => rng.below(2 * limit + 1),
        };
        whole as f32 - limit as f32
    }

    /// Any number whose exponent's bits are from `low` to `high`.
    pub fn sized(rng: &mut Rng, low: usize, high: usize) -> f32 {
        let exponent = (low + rng.below(high - low + 1)) as u32;
        f32::from_bits((rng.next_u64() as u32 & 0x807f_ffff) | exponent << 23)
    }

    /// Values where something changes: signs of zero, ends of the subnormals and the normals,
    /// squares and products that overflow or vanish, infinities, NaNs.
    pub fn special(rng: &mut Rng) -> f32 {
        const BITS: [u32; 20] = [
            0x0000_0000, // 0
            0x3f80_0000, // 1
            0x3f80_0001, // just above 1
            0x3faa_aaab, // 4/3
            0x0000_0001, // the smallest subnormal
            0x007f_ffff, // the largest subnormal
            0x0080_0000, // the smallest normal
            0x1a80_0000, // its square is subnormal
            0x2000_0000, // its fourth power vanishes
            0x4680_0000, // 2^14
            0x4700_0000, // 2^15
            0x4b00_0000, // 2^23
            0x4f80_0000, // 2^32: its fourth power overflows
            0x5f00_0000, // 2^63
            0x5f80_0000, // 2^64: its square overflows
            0x7f7f_ffff, // the largest
            0x7f80_0000, // infinity
            0x7fc0_0000, // NaN
            0x7f80_0001, // signalling NaN
            0x7fff_ffff, // NaN
        ];
        let sign = rng.next_u64() as u32 & 1 << 31;
        f32::from_bits(*rng.pick(&BITS) | sign)
    }
}

/// A band as a receiver has it.
#[derive(Debug)]
pub struct Band {
    layout: FrameLayout,
    roles: [Vec<CarrierRole>; 4],
    /// Strength of the noise.
    pub noise: f32,
    /// Phase of the first symbol.
    pub phase: usize,
    /// The shift of the bins.
    pub shift: i64,
    /// How far each symbol is turned against the one before, in turns.
    pub drift: f64,
    /// How far each carrier is turned against the one below, in turns.
    pub slope: f64,
    /// Factor of every value.
    pub scale: f32,
    /// Every part is a whole number.
    pub whole: bool,
}

/// Strengths of noise. Pilots have 4/3, data 1.
const NOISE: [f32; 7] = [0.0, 0.01, 0.1, 0.3, 1.0, 3.0, 100.0];
/// Factors.
const SCALES: [f32; 5] = [1.0, 1.0, 1e-3, 1e4, 3e-9];
/// Factors of a band of whole numbers.
const WHOLE_SCALES: [f32; 4] = [30.0, 1000.0, 8192.0, 20000.0];

impl Band {
    /// A random one.
    pub fn new(rng: &mut Rng, mode: Mode, choice: u16) -> Self {
        let layout = FrameLayout::new(mode, kinds_of_choice(choice));
        let whole = rng.once_in(4);
        Self {
            roles: std::array::from_fn(|phase| layout.roles(phase)),
            layout,
            noise: *rng.pick(&NOISE),
            phase: rng.below(4),
            shift: rng.below(129) as i64 - 64,
            drift: draw::fraction(rng),
            slope: *rng.pick(&[0.0, 0.003, 0.1]) * draw::fraction(rng),
            scale: if whole { 8192.0 } else { *rng.pick(&SCALES) },
            whole,
        }
    }

    /// A random one whose parts are whole numbers from −32,768 to 32,768.
    pub fn of_whole_numbers(rng: &mut Rng, mode: Mode, choice: u16) -> Self {
        let mut band = Self::new(rng, mode, choice);
        (band.whole, band.scale) = (true, *rng.pick(&WHOLE_SCALES));
        band
    }

    /// `count` spectra, one behind another.
    pub fn spectra(&self, rng: &mut Rng, places: Places, count: usize) -> Vec<f32> {
        let mut signs = self.layout.w.clone();
        let mut floats = Vec::new();
        for symbol in 0..count {
            self.flip(rng, symbol, &mut signs);
            let carriers = self.carriers(rng, symbol, &signs);
            let values = match places {
                Places::Carriers => carriers,
                Places::Bins => self.bins(&carriers),
            };
            for value in values {
                floats.extend(self.received(rng, value));
            }
        }
        floats
    }

    /// What TMCC and AC carry: one bit on all TMCC carriers, one on each AC carrier. The first symbol
    /// has the register's signs.
    fn flip(&self, rng: &mut Rng, symbol: usize, signs: &mut [u8]) {
        if symbol == 0 {
            return;
        }
        let bit = u8::from(rng.once_in(2));
        for carrier in &self.layout.tmcc {
            signs[carrier.k as usize] ^= bit;
        }
        for carrier in &self.layout.ac {
            signs[carrier.k as usize] ^= u8::from(rng.once_in(2));
        }
    }

    /// The carriers of a symbol, turned.
    fn carriers(&self, rng: &mut Rng, symbol: usize, signs: &[u8]) -> Vec<C32> {
        let roles = &self.roles[(self.phase + symbol) % 4];
        let mut turn = unit(self.drift * (symbol + 1) as f64);
        let step = unit(self.slope);
        let mut values = Vec::with_capacity(roles.len());
        for (role, &sign) in roles.iter().zip(signs) {
            let value = match role {
                CarrierRole::Data => data_point(rng),
                _ => pilot_value(sign),
            };
            values.push(value * turn);
            turn = turn * step;
        }
        values
    }

    /// The carriers in their bins, shifted; the other bins are empty.
    fn bins(&self, carriers: &[C32]) -> Vec<C32> {
        let mode = self.layout.mode;
        let n = mode.fft_size() as i64;
        let mut bins = vec![C32::default(); mode.fft_size()];
        for (k, &value) in carriers.iter().enumerate() {
            let bin = (carrier_bin(mode, k) as i64 + self.shift).rem_euclid(n);
            bins[bin as usize] = value;
        }
        bins
    }

    /// The value with noise and factor.
    fn received(&self, rng: &mut Rng, value: C32) -> [f32; 2] {
        [value.re, value.im].map(|part| {
            let part = (part + draw::noise(rng) * self.noise) * self.scale;
            if self.whole {
                part.round().clamp(-32768.0, 32768.0)
            } else {
                part
            }
        })
    }
}

/// A pair of size 1 at an angle, in turns.
fn unit(turns: f64) -> C32 {
    let (sin, cos) = (turns * TAU).sin_cos();
    C32::new(cos as f32, sin as f32)
}

/// A point of QPSK.
fn data_point(rng: &mut Rng) -> C32 {
    const PART: f32 = std::f32::consts::FRAC_1_SQRT_2;
    let bits = rng.next_u64();
    let part = |bit: u32| if bits >> bit & 1 == 1 { PART } else { -PART };
    C32::new(part(0), part(1))
}

/// One of (1, 0), (0, 1), (−1, 0), (0, −1): ratios and scores are then simple and often equal.
fn quarter(rng: &mut Rng) -> [f32; 2] {
    *rng.pick(&[[1.0, 0.0], [0.0, 1.0], [-1.0, 0.0], [0.0, -1.0]])
}

/// Unusual values: fills `floats`, spectra of `len` pairs each.
pub type Filling = fn(&mut Rng, len: usize, floats: &mut [f32]);

fn each(floats: &mut [f32], mut value: impl FnMut() -> f32) {
    floats.iter_mut().for_each(|float| *float = value());
}

fn each_pair(floats: &mut [f32], mut pair: impl FnMut() -> [f32; 2]) {
    floats
        .chunks_mut(2)
        .for_each(|place| place.copy_from_slice(&pair()[..place.len()]));
}

/// Any bits.
fn any_bits(rng: &mut Rng, _: usize, floats: &mut [f32]) {
    each(floats, || f32::from_bits(rng.next_u64() as u32));
}

/// Special values.
fn specials(rng: &mut Rng, _: usize, floats: &mut [f32]) {
    each(floats, || draw::special(rng));
}

/// Units.
pub(super) fn quarters(rng: &mut Rng, _: usize, floats: &mut [f32]) {
    each_pair(floats, || quarter(rng));
}

/// Units and silence, so that energies are 0 in places.
fn quarters_and_zeros(rng: &mut Rng, _: usize, floats: &mut [f32]) {
    each_pair(floats, || {
        let silent = rng.once_in(2);
        if silent { [0.0, 0.0] } else { quarter(rng) }
    });
}

/// One value everywhere: everything ties.
fn constant(rng: &mut Rng, _: usize, floats: &mut [f32]) {
    let pair = match rng.below(4) {
        0 => [1.0, 0.0],
        1 => [3.0, -4.0],
        2 => [draw::noise(rng), draw::noise(rng)],
        _ => [draw::special(rng), draw::special(rng)],
    };
    each_pair(floats, || pair);
}

/// Silence: zeros of one sign, or of both.
pub(super) fn silence(rng: &mut Rng, _: usize, floats: &mut [f32]) {
    let mixed = rng.once_in(2);
    let zero = *rng.pick(&[0.0, -0.0]);
    each(
        floats,
        || if mixed && rng.once_in(2) { -zero } else { zero },
    );
}

/// Whole numbers as a recorder has them.
pub(super) fn whole_numbers(rng: &mut Rng, _: usize, floats: &mut [f32]) {
    let limit = *rng.pick(&[1, 3, 100, 1 << 15]);
    each(floats, || draw::whole(rng, limit));
}

/// Whole numbers up to 32,768 × 256.
fn large_whole_numbers(rng: &mut Rng, _: usize, floats: &mut [f32]) {
    each(floats, || draw::whole(rng, 1 << 23));
}

/// Values whose products, or the squares of these, overflow.
fn overflowing(rng: &mut Rng, _: usize, floats: &mut [f32]) {
    let low = *rng.pick(&[127 + 28, 127 + 60, 250]);
    let high = (low + 6).min(254);
    each(floats, || draw::sized(rng, low, high));
}

/// Values whose products, or the squares of these, are subnormal or vanish; and subnormals.
fn vanishing(rng: &mut Rng, _: usize, floats: &mut [f32]) {
    let low = *rng.pick(&[0, 40, 127 - 77, 127 - 40]);
    each(floats, || draw::sized(rng, low, low + 8));
}

/// Units that come round again after a number of places, the same in every spectrum but for a turn:
/// shifts by that number tie exactly.
fn periodic(rng: &mut Rng, len: usize, floats: &mut [f32]) {
    let period = 1 << rng.below(12);
    let row: Vec<[f32; 2]> = (0..period).map(|_| quarter(rng)).collect();
    let other: Vec<[f32; 2]> = (0..period).map(|_| quarter(rng)).collect();
    for (symbol, spectrum) in floats.chunks_mut(2 * len).enumerate() {
        let row = if symbol % 3 == 1 { &other } else { &row };
        for (at, place) in spectrum.chunks_mut(2).enumerate() {
            place.copy_from_slice(&row[at % period][..place.len()]);
        }
    }
}

/// Noise of one strength.
pub(super) fn noise(rng: &mut Rng, _: usize, floats: &mut [f32]) {
    each(floats, || draw::noise(rng));
}

/// The unusual fillings.
pub const FILLINGS: [Filling; 12] = [
    any_bits,
    specials,
    quarters,
    quarters_and_zeros,
    constant,
    silence,
    whole_numbers,
    large_whole_numbers,
    overflowing,
    vanishing,
    periodic,
    noise,
];

/// Those of whole numbers from −32,768 to 32,768.
pub const WHOLE_FILLINGS: [Filling; 5] = [
    whole_numbers,
    quarters,
    quarters_and_zeros,
    silence,
    periodic,
];

/// Floats that differ from one another in [`simple`]; behind them they come again.
const REPEATED: usize = 1 << 17;

/// Floats for a boundary, where what they are matters least.
pub fn simple(rng: &mut Rng, len: usize, floats: usize) -> Vec<f32> {
    let mut start = vec![0.0; floats.min(REPEATED)];
    let filling = *rng.pick(&[quarters as Filling, noise, periodic, quarters_and_zeros]);
    filling(rng, len, &mut start);
    let mut all = Vec::with_capacity(floats);
    while all.len() < floats {
        all.extend_from_slice(&start[..start.len().min(floats - all.len())]);
    }
    all
}

/// Five spectra of units: every ratio is 0, 1/2 or 1, and many scores of kinds are exactly 1/2.
pub fn halves(rng: &mut Rng, len: usize) -> Vec<f32> {
    let mut floats = vec![0.0; 5 * 2 * len];
    quarters(rng, len, &mut floats);
    floats
}

/// Puts a few special values among the others.
pub fn damage(rng: &mut Rng, floats: &mut [f32]) {
    if floats.is_empty() {
        return;
    }
    for _ in 0..1 << rng.below(6) {
        let at = rng.below(floats.len());
        floats[at] = draw::special(rng);
    }
}

/// Silences some spectra, or repeats the one before.
pub fn disturb(rng: &mut Rng, len: usize, floats: &mut [f32]) {
    for start in (2 * len..floats.len()).step_by(2 * len) {
        match rng.below(4) {
            0 => floats[start..start + 2 * len].fill(0.0),
            1 => floats.copy_within(start - 2 * len..start, start),
            _ => {}
        }
    }
}

/// `count` random spectra: of a band, of a band that was damaged or disturbed, or unusual.
pub fn spectra(rng: &mut Rng, mode: Mode, choice: u16, places: Places, count: usize) -> Vec<f32> {
    let len = places.count(mode);
    if rng.once_in(2) {
        let mut floats = vec![0.0; 2 * len * count];
        rng.pick(&FILLINGS)(rng, len, &mut floats);
        return floats;
    }
    let mut floats = Band::new(rng, mode, choice).spectra(rng, places, count);
    match rng.below(8) {
        0 => damage(rng, &mut floats),
        1 => disturb(rng, len, &mut floats),
        _ => {}
    }
    floats
}

/// How many spectra: mostly few.
pub fn few(rng: &mut Rng) -> usize {
    match rng.below(32) {
        0..24 => 1 + rng.below(4),
        24..31 => 1 + rng.below(12),
        _ => 1 + rng.below(40),
    }
}

/// A mode, mostly 1.
pub fn mostly_mode_1(rng: &mut Rng) -> Mode {
    match rng.below(32) {
        0 | 1 => Mode::M2,
        2 => Mode::M3,
        _ => Mode::M1,
    }
}
