// Carried over from isdb-rs 754ed06c49 (Apache-2.0, see NOTICE).
// From crates/isdbt-core/src/params.rs, its first 117 lines. Left out: everything after
// `GuardInterval` (modulation, code rate, interleaving, layers, `Params`) and `use std::fmt`, which
// only those parts use.

//! Transmission parameters and derived figures (ARIB STD-B31 §2.3, §3,
//! Tables 3-1 .. 3-7, 3-9, 3-12).

/// Symbols per OFDM frame (Table 3-1).
pub const SYMBOLS_PER_FRAME: usize = 204;
/// OFDM segments in the 6 MHz channel (Table 3-2, Ns).
pub const SEGMENTS: usize = 13;
/// IFFT sampling frequency numerator/denominator: 512/63 MHz = 2048/252 µs
/// (Table 3-1 "FFT sampling frequency").
pub const SAMPLE_RATE_NUM: u64 = 512_000_000;
/// See [`SAMPLE_RATE_NUM`].
pub const SAMPLE_RATE_DEN: u64 = 63;
/// Transmission TSP length: 188 bytes + 16 bytes (RS parity) (§3.2.1, §3.3).
pub const TRANSMISSION_TSP: usize = 204;
/// Transport stream packet length.
pub const TSP: usize = 188;

/// IFFT sampling frequency in Hz (≈ 8.126984 MHz).
pub fn sample_rate_hz() -> f64 {
    SAMPLE_RATE_NUM as f64 / SAMPLE_RATE_DEN as f64
}

/// System mode (§2.3, Table 3-1).
#[derive(Debug, Clone, Copy, PartialEq, Eq, Hash, PartialOrd, Ord)]
pub enum Mode {
    /// Mode 1: 108 carriers/segment, 2k FFT.
    M1,
    /// Mode 2: 216 carriers/segment, 4k FFT.
    M2,
    /// Mode 3: 432 carriers/segment, 8k FFT.
    M3,
}

impl Mode {
    /// 1, 2 or 3.
    pub const fn number(self) -> u8 {
        match self {
            Mode::M1 => 1,
            Mode::M2 => 2,
            Mode::M3 => 3,
        }
    }
    /// From 1, 2 or 3.
    pub fn from_number(n: u8) -> Option<Self> {
        match n {
            1 => Some(Mode::M1),
            2 => Some(Mode::M2),
            3 => Some(Mode::M3),
            _ => None,
        }
    }
    /// 2^(mode-1): the scale factor between modes.
    pub const fn scale(self) -> usize {
        1 << (self.number() - 1)
    }
    /// Carriers per OFDM segment (Table 3-1 "Total count": 108/216/432).
    pub fn carriers_per_segment(self) -> usize {
        108 * self.scale()
    }
    /// Data carriers per segment, `nc` (Table 3-1: 96/192/384).
    pub fn data_carriers_per_segment(self) -> usize {
        96 * self.scale()
    }
    /// Total carriers in the band: 108·Ns+1 etc. (Table 3-2: 1405/2809/5617).
    pub fn total_carriers(self) -> usize {
        self.carriers_per_segment() * SEGMENTS + 1
    }
    /// IFFT size (2048/4096/8192): useful symbol length × sample rate.
    pub fn fft_size(self) -> usize {
        2048 * self.scale()
    }
    /// Useful (effective) symbol length in µs (Table 3-1: 252/504/1008).
    pub fn useful_symbol_us(self) -> f64 {
        252.0 * self.scale() as f64
    }
}

/// Guard-interval ratio (Table 3-1).
#[derive(Debug, Clone, Copy, PartialEq, Eq, Hash, PartialOrd, Ord)]
pub enum GuardInterval {
    /// 1/4
    G1_4,
    /// 1/8
    G1_8,
    /// 1/16
    G1_16,
    /// 1/32
    G1_32,
}

impl GuardInterval {
    /// Denominator of the ratio (4, 8, 16, 32).
    pub fn denominator(self) -> usize {
        match self {
            GuardInterval::G1_4 => 4,
            GuardInterval::G1_8 => 8,
            GuardInterval::G1_16 => 16,
            GuardInterval::G1_32 => 32,
        }
    }
    /// From denominator 4/8/16/32.
    pub fn from_denominator(d: usize) -> Option<Self> {
        match d {
            4 => Some(GuardInterval::G1_4),
            8 => Some(GuardInterval::G1_8),
            16 => Some(GuardInterval::G1_16),
            32 => Some(GuardInterval::G1_32),
            _ => None,
        }
    }
    /// Guard samples for a mode (FFT size / denominator).
    pub fn samples(self, mode: Mode) -> usize {
        mode.fft_size() / self.denominator()
    }
}
