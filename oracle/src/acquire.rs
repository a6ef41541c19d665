//! The Rust's acquisition by two norms: the requirement's, which makes it the oracle, and `hypot`, that
//! of num-complex, which makes it the untouched Rust.
//!
//! Both are the same source file, compiled a second time in `untouched` with other pairs, so that
//! nothing else can differ. An answer is written once, over [`Acquire`].

use crate::complex;
use crate::isdb::frame::{FrameLayout, SegmentKind};
use crate::isdb::params::{GuardInterval, Mode, SEGMENTS};
use crate::isdb::rx::acquire::{self as oracle, Ballot};
use crate::untouched::acquire as untouched;

/// What `detect_sp_phase` gives: the phase, its share, the votes, and of each symbol a [`Ballot`]: the
/// phase that it chooses and the energies of the four pilot sets. None without scattered pilots.
pub type DetectedPhase = Option<(usize, f32, [usize; 4], Vec<Ballot>)>;

/// The functions of acquisition in which a norm is taken, by one norm.
pub trait Acquire {
    /// A pair of floats.
    type C32: Copy;

    /// The pair of both parts.
    fn pair(re: f32, im: f32) -> Self::C32;
    fn continual_metric(spectra: &[Vec<Self::C32>]) -> Vec<f32>;
    fn integer_cfo(mode: Mode, spectra: &[Vec<Self::C32>], max_shift: usize) -> (i64, f32);
    fn detect_kinds(
        mode: Mode,
        spectra: &[Vec<Self::C32>],
    ) -> ([SegmentKind; SEGMENTS], [f32; SEGMENTS]);
    fn tmcc_soft(
        layout: &FrameLayout,
        y: &[Self::C32],
        y_prev: &[Self::C32],
        kind: Option<SegmentKind>,
    ) -> f32;
    fn detect_sp_phase(layout: &FrameLayout, spectra: &[Vec<Self::C32>]) -> DetectedPhase;
    fn samples_needed(modes: &[Mode], guards: &[GuardInterval], symbols: usize) -> usize;
    fn detect_mode(
        samples: &[Self::C32],
        modes: &[Mode],
        guards: &[GuardInterval],
    ) -> Option<oracle::ModeGuess>;

    /// The pairs of a list of floats.
    fn pairs(floats: &[f32]) -> Vec<Self::C32> {
        let pair = |pair: &[f32]| Self::pair(pair[0], pair[1]);
        floats.chunks_exact(2).map(pair).collect()
    }

    /// Spectra of `len` pairs each, as the Rust takes them.
    fn spectra(floats: &[f32], len: usize) -> Vec<Vec<Self::C32>> {
        floats.chunks_exact(2 * len).map(Self::pairs).collect()
    }
}

/// The Rust with the requirement's norms.
#[derive(Debug)]
pub struct Oracle;

/// The untouched Rust.
#[derive(Debug)]
pub struct Untouched;

/// Acquisition by the functions of a module, over the pairs of another.
macro_rules! acquire {
    ($by:ty, $functions:ident, $pairs:path) => {
        impl Acquire for $by {
            type C32 = $pairs;

            fn pair(re: f32, im: f32) -> Self::C32 {
                <$pairs>::new(re, im)
            }

            fn continual_metric(spectra: &[Vec<Self::C32>]) -> Vec<f32> {
                $functions::continual_metric(spectra)
            }

            fn integer_cfo(mode: Mode, spectra: &[Vec<Self::C32>], max_shift: usize) -> (i64, f32) {
                $functions::integer_cfo(mode, spectra, max_shift)
            }

            fn detect_kinds(
                mode: Mode,
                spectra: &[Vec<Self::C32>],
            ) -> ([SegmentKind; SEGMENTS], [f32; SEGMENTS]) {
                $functions::detect_kinds(mode, spectra)
            }

            fn tmcc_soft(
                layout: &FrameLayout,
                y: &[Self::C32],
                y_prev: &[Self::C32],
                kind: Option<SegmentKind>,
            ) -> f32 {
                $functions::tmcc_soft(layout, y, y_prev, kind)
            }

            fn detect_sp_phase(layout: &FrameLayout, spectra: &[Vec<Self::C32>]) -> DetectedPhase {
                $functions::detect_sp_phase(layout, spectra)
            }

            fn samples_needed(modes: &[Mode], guards: &[GuardInterval], symbols: usize) -> usize {
                $functions::samples_needed(modes, guards, symbols)
            }

            fn detect_mode(
                samples: &[Self::C32],
                modes: &[Mode],
                guards: &[GuardInterval],
            ) -> Option<oracle::ModeGuess> {
                let guess = $functions::detect_mode(samples, modes, guards)?;
                Some(oracle::ModeGuess {
                    mode: guess.mode,
                    guard: guess.guard,
                    offset: guess.offset,
                    cfo_frac: guess.cfo_frac,
                    re: guess.re,
                    im: guess.im,
                    metric: guess.metric,
                })
            }
        }
    };
}

acquire!(Oracle, oracle, complex::C32);
acquire!(Untouched, untouched, complex::hypot::C32);
