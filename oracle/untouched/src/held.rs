//! One call, made to the oracle and to the untouched Rust.

use crate::C32;
use crate::acquire;
use crate::chanest::ChannelEstimator;
use oracle::acquire::Oracle;
use oracle::codes::{guards_of, kinds_of, mode_of, modes_of};
use oracle::harness::call::Call;
use oracle::harness::value::Value;
use oracle::isdb::frame::{FrameLayout, SegmentKind};
use oracle::ops::detect_kinds::KindsCall;
use oracle::ops::detect_mode::GuessCall;
use oracle::ops::detect_sp_phase::{PhaseCall, heard_counts, lead};
use oracle::ops::estimate_grid::GridCall;
use oracle::ops::integer_cfo::ShiftCall;
use oracle::ops::tmcc_soft::TmccCall;
use std::fmt::Debug;

/// What departs.
#[derive(Debug, Clone, Copy, PartialEq, Eq, PartialOrd, Ord)]
pub enum Departs {
    /// The answer: shift, kinds, phase, what was guessed.
    Answer,
    /// Only a score, a ratio, votes, their share and the lead, a metric, a value or points of the grid.
    Float,
}

/// What the two answers have in common and where they depart.
#[derive(Debug, Default)]
pub struct Both {
    answer: bool,
    float: bool,
    shown: Vec<String>,
}

impl Both {
    /// What departs, if anything does.
    pub fn departs(&self) -> Option<Departs> {
        if self.answer {
            Some(Departs::Answer)
        } else {
            self.float.then_some(Departs::Float)
        }
    }

    /// The two answers; of lists, only the first place where they depart.
    pub fn shown(&self) -> String {
        self.shown.join("\n    ")
    }

    fn show(&mut self, name: &str, oracle: impl Debug, untouched: impl Debug) {
        let line = format!("{name}: oracle {oracle:?}, untouched {untouched:?}");
        self.shown.push(line);
    }

    fn show_bits<V: Value>(&mut self, name: &str, oracle: V, untouched: V) -> bool {
        let width = 2 + 2 * size_of::<V>();
        let (oracle, untouched) = (oracle.compared_bits(), untouched.compared_bits());
        let line = format!("{name}: oracle {oracle:#0width$x}, untouched {untouched:#0width$x}");
        self.shown.push(line);
        oracle != untouched
    }

    /// An answer.
    fn answer<T: PartialEq + Debug>(&mut self, name: &str, oracle: T, untouched: T) {
        self.answer |= oracle != untouched;
        self.show(name, oracle, untouched);
    }

    /// Counts that stand beside the answer.
    fn beside<T: PartialEq + Debug>(&mut self, name: &str, oracle: T, untouched: T) {
        self.float |= oracle != untouched;
        self.show(name, oracle, untouched);
    }

    /// A float of the answer: its bits, all NaNs alike.
    fn float<V: Value>(&mut self, name: &str, oracle: V, untouched: V) {
        self.float |= self.show_bits(name, oracle, untouched);
    }

    /// A list of floats.
    fn floats(&mut self, name: &str, oracle: &[f32], untouched: &[f32]) {
        let differs = |&at: &usize| oracle[at].compared_bits() != untouched[at].compared_bits();
        let places: Vec<usize> = (0..oracle.len()).filter(differs).collect();
        if let Some(&first) = places.first() {
            let name = format!("{} of the {name} depart; [{first}]", places.len());
            self.float(&name, oracle[first], untouched[first]);
        }
    }
}

/// A call that is made to both.
pub trait Held: Call {
    /// Makes the call, or gives the oracle's refusal.
    fn held(&self) -> Result<Both, u8>;

    /// The floats that it hands over.
    fn given(&self) -> &[f32];
}

/// The pairs of a list of floats.
fn pairs(floats: &[f32]) -> Vec<C32> {
    let pair = |pair: &[f32]| C32::new(pair[0], pair[1]);
    floats.chunks_exact(2).map(pair).collect()
}

/// Spectra of `len` pairs each.
fn spectra_of(floats: &[f32], len: usize) -> Vec<Vec<C32>> {
    floats.chunks_exact(2 * len).map(pairs).collect()
}

impl Held for ShiftCall {
    fn held(&self) -> Result<Both, u8> {
        let oracle = self.answer::<Oracle>()?;
        let mode = mode_of(self.mode)?;
        let spectra = spectra_of(&self.spectra.0, mode.fft_size());
        let (shift, score) = acquire::integer_cfo(mode, &spectra, self.bound);
        let ratios = acquire::continual_metric(&spectra);
        let mut both = Both::default();
        both.answer("shift", oracle.shift, shift);
        both.float("score", oracle.score, score);
        both.floats("ratios", &oracle.ratios, &ratios);
        Ok(both)
    }

    fn given(&self) -> &[f32] {
        &self.spectra.0
    }
}

impl Held for KindsCall {
    fn held(&self) -> Result<Both, u8> {
        let oracle = self.answer::<Oracle>()?;
        let mode = mode_of(self.mode)?;
        let spectra = spectra_of(&self.spectra.0, mode.total_carriers());
        let (kinds, scores) = acquire::detect_kinds(mode, &spectra);
        let ratios = acquire::continual_metric(&spectra);
        let mut both = Both::default();
        let kinds = kinds.map(|kind| u8::from(kind == SegmentKind::Differential));
        both.answer("kinds", oracle.kinds, kinds);
        both.floats("scores", &oracle.scores, &scores);
        both.floats("ratios", &oracle.ratios, &ratios);
        Ok(both)
    }

    fn given(&self) -> &[f32] {
        &self.spectra.0
    }
}

impl Held for PhaseCall {
    fn held(&self) -> Result<Both, u8> {
        let oracle = self.answer::<Oracle>()?;
        let mode = mode_of(self.mode)?;
        let layout = FrameLayout::new(mode, kinds_of(&self.kinds)?);
        let spectra = spectra_of(&self.spectra.0, mode.total_carriers());
        let found = acquire::detect_sp_phase(&layout, &spectra);
        let mut both = Both::default();
        let phase = found.as_ref().map(|&(phase, ..)| phase as u8);
        both.answer("phase", oracle.found.map(|(phase, _)| phase), phase);
        if let (Some((_, one)), Some((_, other, votes, ballots))) = (oracle.found, found) {
            both.beside("votes", oracle.counts, votes.map(|count| count as u32));
            both.beside("lead", oracle.lead, lead(heard_counts(&ballots)));
            both.float("share", one, other);
        }
        Ok(both)
    }

    fn given(&self) -> &[f32] {
        &self.spectra.0
    }
}

impl Held for TmccCall {
    fn held(&self) -> Result<Both, u8> {
        let oracle = self.answer::<Oracle>()?;
        let mode = mode_of(self.mode)?;
        let layout = FrameLayout::new(mode, kinds_of(&self.kinds)?);
        let filter = match self.filter {
            0 => Some(SegmentKind::Coherent),
            1 => Some(SegmentKind::Differential),
            _ => None,
        };
        let (earlier, later) = self.spectra.0.split_at(2 * mode.total_carriers());
        let value = acquire::tmcc_soft(&layout, &pairs(later), &pairs(earlier), filter);
        let mut both = Both::default();
        both.float("value", oracle, value);
        Ok(both)
    }

    fn given(&self) -> &[f32] {
        &self.spectra.0
    }
}

impl Held for GuessCall {
    fn held(&self) -> Result<Both, u8> {
        let oracle = self.answer::<Oracle>()?;
        let (modes, guards) = (modes_of(&self.modes)?, guards_of(&self.guards)?);
        let found = acquire::detect_mode(&pairs(&self.samples.0), &modes, &guards);
        let mut both = Both::default();
        both.answer(
            "mode, guard, offset",
            oracle.map(|g| (g.mode, g.guard, g.offset)),
            found.map(|g| (g.mode.number(), g.guard.denominator() as u8, g.offset)),
        );
        if let (Some(one), Some(other)) = (oracle, found) {
            both.float("metric", one.metric, other.metric);
            both.float("re", one.re, other.re);
            both.float("im", one.im, other.im);
        }
        Ok(both)
    }

    fn given(&self) -> &[f32] {
        &self.samples.0
    }
}

impl Held for GridCall {
    fn held(&self) -> Result<Both, u8> {
        let oracle = self.answer(&vec![0.0; self.grid])?;
        let mode = mode_of(self.mode)?;
        let layout = FrameLayout::new(mode, kinds_of(&self.kinds)?);
        let spectra = spectra_of(&self.spectra.0, mode.total_carriers());
        let ring = |offset: i32| {
            let at = self.index.checked_add_signed(offset as isize)?;
            spectra.get(at).map(Vec::as_slice)
        };
        let mut estimator = ChannelEstimator::new(&layout);
        estimator.estimate(&spectra[self.index], ring, self.phase.into(), self.w);
        let parts = |pair: &C32| [pair.re, pair.im];
        let grid: Vec<f32> = estimator.grid.iter().flat_map(parts).collect();
        let mut both = Both::default();
        both.floats("floats of the grid", &oracle, &grid);
        Ok(both)
    }

    fn given(&self) -> &[f32] {
        &self.spectra.0
    }
}
