//! Compares a port with the oracle: on calls that are listed, on those at the boundaries, on random
//! ones.

use super::call::Call;
use super::rng::Rng;
use super::simpler::simpler;
use super::tally::{Row, Tally, on_all_processors};
use crate::inputs::captures;
use crate::isdb::params::Mode;

/// How much is compared.
#[derive(Debug, Clone, Copy)]
pub struct Plan {
    /// Seed of everything that is random.
    pub seed: u64,
    /// Random calls of each operation that takes no capture.
    pub calls: usize,
    /// Random inputs of each function of floats.
    pub floats: u64,
    /// Random calls, and changed or partly silent captures, of each operation that takes a capture.
    pub captures: usize,
    /// Of the layouts whose carriers are looked up one by one, every how many-th is taken.
    pub spread: usize,
}

/// Cases in a job of one thread.
const JOB: usize = 16;

/// Runs cases 0 to `count` − 1 on all processors and counts them.
pub fn count_cases<K: Ord + std::fmt::Display + Send>(
    count: usize,
    case: impl Fn(usize, &mut Tally<K>) + Sync,
) -> Tally<K> {
    Tally::sum(on_all_processors(count.div_ceil(JOB), |job| {
        let mut tally = Tally::default();
        for index in job * JOB..count.min((job + 1) * JOB) {
            case(index, &mut tally);
        }
        tally
    }))
}

/// Makes `count` calls to the port and counts them; the smallest that differs is made simpler.
pub fn calls<C: Call>(port: C::Port, count: usize, call: impl Fn(usize) -> C + Sync) -> Tally<C> {
    let mut tally = count_cases(count, |index, tally| {
        let call = call(index);
        let outcome = call.run(port, index as u64);
        tally.count_outcome(outcome, || call);
    });
    tally.simplify(|call, found| {
        simpler(call, found, C::floats, |call| call.run(port, 0).difference)
    });
    tally
}

/// The calls of a list.
pub fn list<C: Call>(port: C::Port, calls_made: &[C]) -> Tally<C> {
    calls(port, calls_made.len(), |index| calls_made[index].clone())
}

/// The calls at the boundaries of an operation's refusals.
pub fn boundary<C: Call>(port: C::Port, seed: u64) -> Row {
    let unfilled = C::boundary();
    let tally = calls(port, unfilled.len(), |index| {
        let (mut call, count) = unfilled[index].clone();
        if let Some(floats) = call.floats() {
            let mut rng = Rng::for_case(seed, 0, index as u64);
            floats.0 = captures::simple(&mut rng, Mode::M1.fft_size(), count);
        }
        call
    });
    tally.row(format!("{}, boundaries", C::TITLE))
}

/// Random calls of an operation.
pub fn random<C: Call>(port: C::Port, seed: u64, cases: usize) -> Row {
    let tally = calls(port, cases, |index| {
        C::random(&mut Rng::for_case(seed, C::STREAM, index as u64))
    });
    tally.row(format!("{}, random", C::TITLE))
}
