//! What demand 3 does to a capture: some spectra negated, all turned by a quarter or none, all
//! amplified by a power of two, their bins moved round.

use super::captures::{self, Band, Places};
use crate::harness::call::Floats;
use crate::harness::rng::Rng;
use crate::isdb::params::Mode;
use std::fmt;

/// What is done to a capture.
#[derive(Debug, Clone, Default, PartialEq, Eq, PartialOrd, Ord)]
pub struct Change {
    /// Which spectra are negated.
    pub negated: Vec<bool>,
    /// Every pair is turned by a quarter.
    pub turned: bool,
    /// Every value is multiplied by 2 to this power.
    pub doublings: u8,
    /// How far the bins are moved.
    pub moved: i64,
}

/// The most doublings.
const DOUBLINGS: usize = 8;

impl Change {
    /// A random change of `count` spectra. Nothing is moved.
    pub fn random(rng: &mut Rng, count: usize) -> Self {
        let amplified = rng.once_in(2);
        Self {
            negated: (0..count).map(|_| rng.once_in(2)).collect(),
            turned: rng.once_in(2),
            doublings: if amplified {
                1 + rng.below(DOUBLINGS) as u8
            } else {
                0
            },
            moved: 0,
        }
    }

    /// The factor of every value.
    pub fn gain(&self) -> f32 {
        f32::from(1_u16 << self.doublings)
    }

    /// The pair of one spectrum, changed. A factor of 1 is not applied.
    fn pair(&self, negated: bool, [re, im]: [f32; 2]) -> [f32; 2] {
        let [re, im] = if negated { [-re, -im] } else { [re, im] };
        let [re, im] = if self.turned { [-im, re] } else { [re, im] };
        match self.doublings {
            0 => [re, im],
            _ => [re * self.gain(), im * self.gain()],
        }
    }

    /// The spectra of `len` pairs each, changed.
    pub fn of(&self, len: usize, floats: &[f32]) -> Vec<f32> {
        let mut changed = vec![0.0; floats.len()];
        let spectra = floats.chunks_exact(2 * len);
        for (index, (old, new)) in spectra.zip(changed.chunks_exact_mut(2 * len)).enumerate() {
            let negated = self.negated.get(index).copied().unwrap_or(false);
            for (bin, pair) in old.chunks_exact(2).enumerate() {
                let to = 2 * moved_bin(bin, self.moved, len);
                new[to..to + 2].copy_from_slice(&self.pair(negated, [pair[0], pair[1]]));
            }
        }
        changed
    }
}

/// Bin b moved by s: (b + s) mod n.
pub fn moved_bin(bin: usize, by: i64, n: usize) -> usize {
    (bin as i64 + by).rem_euclid(n as i64) as usize
}

impl fmt::Display for Change {
    fn fmt(&self, f: &mut fmt::Formatter<'_>) -> fmt::Result {
        let negated: Vec<usize> = (0..self.negated.len())
            .filter(|&index| self.negated[index])
            .collect();
        write!(
            f,
            "negated {negated:?}, {}, times 2^{}, moved by {}",
            if self.turned { "turned" } else { "not turned" },
            self.doublings,
            self.moved
        )
    }
}

/// A capture, the arguments that stay, and what is done to it.
#[derive(Debug, Clone, PartialEq, Eq, PartialOrd, Ord)]
pub struct Changed<A> {
    /// The spectra or samples.
    pub floats: Floats,
    /// The other arguments.
    pub arguments: A,
    /// The change.
    pub change: Change,
}

impl<A: fmt::Debug> fmt::Display for Changed<A> {
    fn fmt(&self, f: &mut fmt::Formatter<'_>) -> fmt::Result {
        let Self {
            floats,
            arguments,
            change,
        } = self;
        write!(f, "{arguments:?}: {change}; of {floats}")
    }
}

/// Spectra for a change. Where they are amplified, every part is a whole number from −32,768 to
/// 32,768.
pub fn spectra_to_change(
    rng: &mut Rng,
    mode: Mode,
    places: Places,
    count: usize,
    whole: bool,
) -> Vec<f32> {
    let choice = rng.choice();
    if !whole {
        return captures::spectra(rng, mode, choice, places, count);
    }
    let len = places.count(mode);
    if rng.once_in(3) {
        let mut floats = vec![0.0; 2 * len * count];
        rng.pick(&captures::WHOLE_FILLINGS)(rng, len, &mut floats);
        return floats;
    }
    Band::of_whole_numbers(rng, mode, choice).spectra(rng, places, count)
}

#[cfg(test)]
mod tests {
    use super::*;

    #[test]
    fn all_changes_together() {
        let change = Change {
            negated: vec![false, true],
            turned: true,
            doublings: 3,
            moved: -1,
        };
        let changed = change.of(2, &[1.0, 2.0, 3.0, 4.0, 1.0, 2.0, 3.0, 4.0]);
        let wanted = [-32.0, 24.0, -16.0, 8.0, 32.0, -24.0, 16.0, -8.0];
        assert_eq!(changed, wanted);
    }

    #[test]
    fn bins_move_round() {
        assert_eq!(
            [-9, -1, 0, 7, 15].map(|by| moved_bin(1, by, 8)),
            [0, 0, 1, 0, 0]
        );
    }

    #[test]
    fn no_change_keeps_every_bit() {
        let floats = [0.0, -0.0, f32::INFINITY, 1e-45];
        let kept = Change::default().of(2, &floats);
        let bits = |floats: &[f32]| floats.iter().map(|x| x.to_bits()).collect::<Vec<_>>();
        assert_eq!(bits(&kept), bits(&floats));
    }
}
