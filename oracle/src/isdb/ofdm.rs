// Carried over from isdb-rs 754ed06c49 (Apache-2.0, see NOTICE).
// From crates/isdbt-ofdm/src/ofdm.rs. Changed: the paths of the `use` lines. Left out: everything
// but `carrier_bin` (the generator, the receiver's FFT).

//! IFFT / guard interval (ARIB STD-B31 §3.14.1–3.14.2) and the receiver
//! FFT.
//!
//! §3.14.1: carrier `k` of symbol `n` is the complex exponential
//! `exp(j2π (k − Kc)/Tu · (t − Tg − n·Ts))` on `n·Ts ≤ t < (n+1)·Ts`.  At
//! the FFT sample rate 512/63 MHz (`Tu` = N samples) sample `m` of the
//! symbol (0 ≤ m < Ng + N) is
//!
//! `x[m] = g/√K · Σ_k c(n,k) · exp(j2π (k − Kc)(m − Ng)/N)`,
//!
//! i.e. the IFFT with carrier `k` in bin `(k − Kc) mod N` (Kc → bin 0, the
//! RF centre at baseband DC), output samples `Ng..Ng+N` = IFFT output and
//! samples `0..Ng` = its last `Ng` samples (§3.14.2 guard interval).
//!
//! Scaling: with the spec's normalised carrier values (data carriers of
//! unit mean power, pilots ±4/3) the factor `1/√K` gives a mean sample
//! power of `(1/K)·Σ|c|²` — exactly 1 if every active carrier had unit
//! power; ≈1.03–1.06 in practice because of the boosted pilots — times
//! `g²` (user gain, default 1).

use crate::isdb::ofdm_params::center_carrier;
use crate::isdb::params::Mode;

/// FFT bin of band carrier `k` (§3.14.1).
pub fn carrier_bin(mode: Mode, k: usize) -> usize {
    let n = mode.fft_size() as isize;
    (k as isize - center_carrier(mode) as isize).rem_euclid(n) as usize
}
