//! Mode, guard interval and timing of a capture.

use crate::cfo_frac::cfo_frac;
use crate::ffi;
use crate::params::{guard_codes, mode_codes, GuardInterval, Mode};
use crate::refusal::{accepted, Refusal};

/// The most samples, in pairs, that the guard search takes.
pub const MOST_SAMPLES: usize = 1 << 20;
/// The most symbols of [`samples_needed`].
pub const MOST_SYMBOLS: usize = 64;

/// A guess. Its correlation tells the fractional carrier offset: [`cfo_frac`](ModeGuess::cfo_frac).
#[derive(Debug, Clone, Copy, PartialEq)]
pub struct ModeGuess {
    /// Mode.
    pub mode: Mode,
    /// Guard interval.
    pub guard: GuardInterval,
    /// The sample at which a guard interval starts.
    pub offset: usize,
    /// Normalised correlation.
    pub metric: f64,
    /// Real part of the summed correlation.
    pub re: f64,
    /// Imaginary part of the summed correlation.
    pub im: f64,
}

impl ModeGuess {
    /// The fractional carrier offset that the summed correlation tells, in carrier spacings: from -0.5
    /// up to, not including, 0.5.
    ///
    /// The correlation sums products of sample x\[i\] and the conjugate of x\[i + n\]. A positive
    /// offset is one in which carriers sit above their bins: all frequencies are too high by that much
    /// of a carrier spacing. To take it off, sample i is multiplied by exp(-2πj · cfo_frac · i / n), where
    /// j is the imaginary unit and n the `fft_size` of `mode`.
    ///
    /// This is the fraction alone. Whole carrier spacings are the shift that
    /// [`integer_cfo`](crate::shift::integer_cfo) gives for spectra of samples from which the fraction
    /// was taken off, and the two add up.
    ///
    /// ```
    /// use sillurwy::guess::detect_mode;
    /// use sillurwy::params::{GuardInterval, Mode};
    /// use std::f64::consts::TAU;
    ///
    /// // Samples, each multiplied by exp(2πj · spacings · i / n).
    /// fn moved_up(samples: &[f32], spacings: f64) -> Vec<f32> {
    ///     let step = TAU * spacings / Mode::M1.fft_size() as f64;
    ///     let moved = |(i, pair): (usize, &[f32])| {
    ///         let (sin, cos) = (step * i as f64).sin_cos();
    ///         let (re, im) = (f64::from(pair[0]), f64::from(pair[1]));
    ///         [(re * cos - im * sin) as f32, (re * sin + im * cos) as f32]
    ///     };
    ///     samples.chunks(2).enumerate().flat_map(moved).collect()
    /// }
    ///
    /// // The carrier of bin 0 alone, a fifth of a carrier spacing too high.
    /// let samples = moved_up(&[1.0, 0.0].repeat(10_560), 0.2);
    /// let search = |samples: &[f32]| detect_mode(samples, &[Mode::M1], &[GuardInterval::G1_32]);
    /// let guess = search(&samples)?.expect("there are enough samples");
    /// let unit = 1.0 / 65536.0;
    /// assert!((guess.cfo_frac() - 0.2).abs() <= unit);
    ///
    /// // Taken off, nothing is left of it.
    /// let corrected = moved_up(&samples, -guess.cfo_frac());
    /// let guess = search(&corrected)?.expect("there are enough samples");
    /// assert!(guess.cfo_frac().abs() <= unit);
    /// # Ok::<(), sillurwy::Refusal>(())
    /// ```
    pub fn cfo_frac(&self) -> f64 {
        cfo_frac(self.re, self.im)
    }
}

/// The samples, in pairs, that the guard search needs to try each mode and guard with at least
/// `symbols` symbols.
///
/// Refused: [`BadSymbols`](Refusal::BadSymbols) above [`MOST_SYMBOLS`].
///
/// ```
/// use sillurwy::guess::samples_needed;
/// use sillurwy::params::{GuardInterval, Mode};
/// use sillurwy::Refusal;
///
/// let few = samples_needed(&[Mode::M1], &[GuardInterval::G1_32], 4)?;
/// let more = samples_needed(&[Mode::M1], &[GuardInterval::G1_32], 5)?;
/// assert_eq!(more - few, 2048 + 64);
/// let refused = samples_needed(&[Mode::M1], &[GuardInterval::G1_32], 65);
/// assert_eq!(refused, Err(Refusal::BadSymbols));
/// # Ok::<(), Refusal>(())
/// ```
pub fn samples_needed(
    modes: &[Mode],
    guards: &[GuardInterval],
    symbols: usize,
) -> Result<usize, Refusal> {
    let mut samples = 0;
    accepted(ffi::samples_needed(
        &mode_codes(modes),
        &guard_codes(guards),
        symbols,
        &mut samples,
    ))?;
    Ok(samples)
}

/// Entries of scratch that [`detect_mode_lent`] asks for, of this many pairs of samples.
pub fn scratch_length(pairs: usize) -> usize {
    3 * (pairs + 1)
}

/// The guard search. Modes and guards are tried in the order given; the answer may be that nothing
/// is found.
///
/// Refused: [`BadFloats`](Refusal::BadFloats) for an odd number of floats or more than
/// [`MOST_SAMPLES`] pairs.
///
/// ```
/// use sillurwy::guess::detect_mode;
/// use sillurwy::params::{GuardInterval, Mode};
///
/// let samples: Vec<f32> = [1.0, 0.0].repeat(10_560);
/// let (modes, guards) = ([Mode::M1], [GuardInterval::G1_32]);
/// let guess = detect_mode(&samples, &modes, &guards)?.expect("there are enough samples");
/// assert_eq!((guess.mode, guess.offset), (Mode::M1, 0));
/// // One pair less, and nothing is found.
/// assert_eq!(detect_mode(&samples[2..], &modes, &guards)?, None);
/// # Ok::<(), sillurwy::Refusal>(())
/// ```
pub fn detect_mode(
    samples: &[f32],
    modes: &[Mode],
    guards: &[GuardInterval],
) -> Result<Option<ModeGuess>, Refusal> {
    // More samples are refused before the scratch is looked at.
    let pairs = (samples.len() / 2).min(MOST_SAMPLES);
    detect_mode_lent(
        samples,
        modes,
        guards,
        &mut vec![0.0; scratch_length(pairs)],
    )
}

/// [`detect_mode`] with a lent scratch of [`scratch_length`] entries or more, which is all zeros
/// afterwards.
///
/// Refused: [`BadFloats`](Refusal::BadFloats) as above; [`BadLength`](Refusal::BadLength) for too
/// short a scratch.
///
/// ```
/// use sillurwy::guess::{detect_mode_lent, scratch_length};
/// use sillurwy::params::{GuardInterval, Mode};
///
/// let samples: Vec<f32> = [1.0, 0.0].repeat(10_560);
/// let mut scratch = vec![0.0; scratch_length(10_560)];
/// let guess = detect_mode_lent(&samples, &[Mode::M1], &GuardInterval::ALL, &mut scratch)?;
/// assert_eq!(guess.map(|g| g.guard), Some(GuardInterval::G1_32));
/// assert!(scratch.iter().all(|&x| x == 0.0));
/// # Ok::<(), sillurwy::Refusal>(())
/// ```
pub fn detect_mode_lent(
    samples: &[f32],
    modes: &[Mode],
    guards: &[GuardInterval],
    scratch: &mut [f64],
) -> Result<Option<ModeGuess>, Refusal> {
    let (mut found, mut mode, mut guard, mut offset) = (0, 0, 0, 0);
    let (mut metric, mut re, mut im) = (0.0, 0.0, 0.0);
    accepted(ffi::detect_mode(
        samples,
        &mode_codes(modes),
        &guard_codes(guards),
        scratch,
        &mut found,
        &mut mode,
        &mut guard,
        &mut offset,
        &mut metric,
        &mut re,
        &mut im,
    ))?;
    if found == 0 {
        return Ok(None);
    }
    Ok(Some(ModeGuess {
        mode: Mode::from_number(mode)?,
        guard: GuardInterval::from_denominator(guard)?,
        offset,
        metric,
        re,
        im,
    }))
}
