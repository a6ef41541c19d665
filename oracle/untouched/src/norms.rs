//! The norms alone: the oracle's exact roots against `hypot`.

use oracle::complex::{C32, C64};
use oracle::harness::rng::Rng;
use oracle::harness::tally::on_all_processors;
use oracle::harness::value::Value;
use oracle::inputs::floats::{NORM_32, NORM_64};

/// What was counted of one norm on inputs of one class. The pair at which it departs first has the
/// lowest larger part, then the lowest smaller one.
#[derive(Debug, Clone, Default)]
pub struct Norms {
    /// Pairs.
    pub pairs: u64,
    /// Pairs where the oracle's result is infinite and `hypot` gives a finite one.
    pub overflow: u64,
    /// Pairs where the oracle's result departs because a square is subnormal or vanishes.
    pub vanish: u64,
    /// Other pairs that depart by one step of the last place.
    pub one_step: u64,
    /// Other pairs that depart by more.
    pub more: u64,
    /// The first pair that departs, larger part first, and what was found.
    pub first: Option<((f64, f64), String)>,
}

impl Norms {
    /// Pairs that depart.
    pub fn departing(&self) -> u64 {
        self.overflow + self.vanish + self.one_step + self.more
    }

    fn add(mut self, other: Self) -> Self {
        self.pairs += other.pairs;
        self.overflow += other.overflow;
        self.vanish += other.vanish;
        self.one_step += other.one_step;
        self.more += other.more;
        if let Some((pair, found)) = other.first {
            self.keep_first(pair, || found);
        }
        self
    }

    fn keep_first(&mut self, pair: (f64, f64), found: impl FnOnce() -> String) {
        if self.first.as_ref().is_none_or(|(kept, _)| pair < *kept) {
            self.first = Some((pair, found()));
        }
    }

    fn count<N: Norm>(&mut self, re: N, im: N) {
        self.pairs += 1;
        let (oracle, hypot) = (N::oracle(re, im), N::hypot(re, im));
        let bits = (oracle.compared_bits(), hypot.compared_bits());
        if bits.0 == bits.1 {
            return;
        }
        let (re, im) = (re.wide().abs(), im.wide().abs());
        let pair = (re.max(im), re.min(im));
        if oracle.wide().is_infinite() {
            self.overflow += 1;
        } else if N::vanishes(pair.0) {
            self.vanish += 1;
        } else if bits.0.abs_diff(bits.1) == 1 {
            self.one_step += 1;
        } else {
            self.more += 1;
        }
        let width = 2 + 2 * size_of::<N>();
        self.keep_first(pair, || {
            format!(
                "oracle {:#0width$x}, hypot {:#0width$x}, parts {} and {}",
                bits.0,
                bits.1,
                N::bits_of(pair.0),
                N::bits_of(pair.1)
            )
        });
    }
}

/// A width of floats.
pub trait Norm: Copy + Value + Send + Sync {
    /// The norm's name.
    const NAME: &'static str;

    /// Its number in the streams of random numbers.
    const STREAM: u64;

    /// The oracle's norm.
    fn oracle(re: Self, im: Self) -> Self;

    /// num-complex's.
    fn hypot(re: Self, im: Self) -> Self;

    /// Any bits.
    fn any(rng: &mut Rng) -> Self;

    /// A pair of the classes that the comparison of the norms has.
    fn hard(rng: &mut Rng) -> (Self, Self);

    /// A whole number.
    fn whole(number: i32) -> Self;

    /// The same number.
    fn wide(self) -> f64;

    /// True if the square of this larger part is subnormal in `f64`, or 0.
    fn vanishes(larger: f64) -> bool {
        larger * larger < f64::MIN_POSITIVE
    }

    /// The bits of a number of this width.
    fn bits_of(number: f64) -> String;
}

impl Norm for f32 {
    const NAME: &'static str = "norm32";
    const STREAM: u64 = 0;

    fn oracle(re: Self, im: Self) -> Self {
        C32::new(re, im).norm()
    }

    fn hypot(re: Self, im: Self) -> Self {
        crate::C32::new(re, im).norm()
    }

    fn any(rng: &mut Rng) -> Self {
        Self::from_bits(rng.next_u64() as u32)
    }

    fn hard(rng: &mut Rng) -> (Self, Self) {
        let pair = rng.pick(NORM_32)(rng).value();
        (pair.re, pair.im)
    }

    fn whole(number: i32) -> Self {
        number as Self
    }

    fn wide(self) -> f64 {
        f64::from(self)
    }

    fn bits_of(number: f64) -> String {
        format!("{:#010x}", (number as Self).to_bits())
    }
}

impl Norm for f64 {
    const NAME: &'static str = "norm64";
    const STREAM: u64 = 1;

    fn oracle(re: Self, im: Self) -> Self {
        C64::new(re, im).norm()
    }

    fn hypot(re: Self, im: Self) -> Self {
        crate::C64::new(re, im).norm()
    }

    fn any(rng: &mut Rng) -> Self {
        Self::from_bits(rng.next_u64())
    }

    fn hard(rng: &mut Rng) -> (Self, Self) {
        let pair = rng.pick(NORM_64)(rng).value();
        (pair.re, pair.im)
    }

    fn whole(number: i32) -> Self {
        Self::from(number)
    }

    fn wide(self) -> f64 {
        self
    }

    fn bits_of(number: f64) -> String {
        format!("{:#018x}", number.to_bits())
    }
}

/// The largest whole part.
const LARGEST: i32 = 32_768;
/// Pairs in a job of one thread.
const JOB: u64 = 1 << 14;

/// Counts `count` random pairs of a class.
fn random<N: Norm>(seed: u64, stream: u64, count: u64, pair: fn(&mut Rng) -> (N, N)) -> Norms {
    let jobs = count.div_ceil(JOB);
    let parts = on_all_processors(jobs as usize, |job| {
        let mut rng = Rng::for_case(seed, stream + N::STREAM, job as u64);
        let mut norms = Norms::default();
        for _ in 0..JOB.min(count - job as u64 * JOB) {
            let (re, im) = pair(&mut rng);
            norms.count(re, im);
        }
        norms
    });
    parts.into_iter().fold(Norms::default(), Norms::add)
}

/// Random pairs of whole numbers from −32,768 to 32,768, each as often as any other.
pub fn random_whole<N: Norm>(seed: u64, stream: u64, count: u64) -> Norms {
    random::<N>(seed, stream, count, |rng| (whole(rng), whole(rng)))
}

/// A whole number from −32,768 to 32,768.
fn whole<N: Norm>(rng: &mut Rng) -> N {
    N::whole(rng.below(2 * LARGEST as usize + 1) as i32 - LARGEST)
}

/// The next pair whose parts are finite.
fn finite<N: Norm>(rng: &mut Rng, pair: impl Fn(&mut Rng) -> (N, N)) -> (N, N) {
    loop {
        let (re, im) = pair(rng);
        if re.wide().is_finite() && im.wide().is_finite() {
            return (re, im);
        }
    }
}

/// Random pairs of any finite bits.
pub fn random_finite<N: Norm>(seed: u64, stream: u64, count: u64) -> Norms {
    random::<N>(seed, stream, count, |rng| {
        finite(rng, |rng| (N::any(rng), N::any(rng)))
    })
}

/// Random finite pairs of the classes that the comparison of the norms has.
pub fn random_hard<N: Norm>(seed: u64, stream: u64, count: u64) -> Norms {
    random::<N>(seed, stream, count, |rng| finite(rng, N::hard))
}

/// Every pair of whole numbers from 0 to 32,768 whose second is not the larger one.
pub fn every_whole<N: Norm>() -> Norms {
    let parts = on_all_processors(LARGEST as usize + 1, |larger| {
        let mut norms = Norms::default();
        for smaller in 0..=larger as i32 {
            norms.count(N::whole(larger as i32), N::whole(smaller));
        }
        norms
    });
    parts.into_iter().fold(Norms::default(), Norms::add)
}

/// Which of the two norms of `f64` pairs is the norm's nearest `f64`.
#[derive(Debug, Clone, Copy, Default)]
pub struct Nearest {
    /// Pairs.
    pub pairs: u64,
    /// Pairs that depart.
    pub departing: u64,
    /// Pairs where the oracle's norm is not the nearest.
    pub oracle_off: u64,
    /// Pairs where `hypot` is not the nearest.
    pub hypot_off: u64,
}

impl Nearest {
    fn count(&mut self, re: u32, im: u32) {
        let sum = u128::from(re).pow(2) + u128::from(im).pow(2);
        let (re, im) = (f64::from(re), f64::from(im));
        let (oracle, hypot) = (f64::oracle(re, im), f64::hypot(re, im));
        self.pairs += 1;
        self.departing += u64::from(oracle.to_bits() != hypot.to_bits());
        self.oracle_off += u64::from(!is_nearest_root(oracle, sum));
        self.hypot_off += u64::from(!is_nearest_root(hypot, sum));
    }
}

/// True if `root`, from 1 to 2^32, lies within half a step of the root of `square`.
fn is_nearest_root(root: f64, square: u128) -> bool {
    let bits = root.to_bits();
    let digits = u128::from(bits & ((1 << 52) - 1) | 1 << 52);
    // The root is digits / 2^places.
    let places = 1075 - (bits >> 52);
    let low = (2 * digits - 1).pow(2);
    let high = (2 * digits + 1).pow(2);
    (low..=high).contains(&(square << (2 * places + 2)))
}

/// Random pairs of whole numbers from 1 to `limit`, which is at most 2^31.
pub fn nearest(seed: u64, stream: u64, count: u64, limit: usize) -> Nearest {
    let mut rng = Rng::for_case(seed, stream, limit as u64);
    let mut nearest = Nearest::default();
    for _ in 0..count {
        let mut part = || 1 + rng.below(limit) as u32;
        nearest.count(part(), part());
    }
    nearest
}

#[cfg(test)]
mod tests {
    use super::*;

    #[test]
    fn nearest_roots() {
        let step = |x: f64, up: i64| f64::from_bits(x.to_bits().wrapping_add_signed(up));
        for square in [1_u32, 2, 3, 1018, 2993, u32::MAX] {
            let root = f64::from(square).sqrt();
            assert!(is_nearest_root(root, square.into()), "{square}");
            assert!(!is_nearest_root(step(root, 1), square.into()), "{square}");
            assert!(
                !is_nearest_root(step(root, -1), square.into()) || square == 1,
                "{square}"
            );
        }
    }
}
