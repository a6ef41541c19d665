//! Mistakes in the bin lookup.

use crate::{found, is_found, is_found_at_boundary};
use oracle::codes::{BAD_CARRIER, mode_of};
use oracle::harness::call::{Call, write_answer};
use oracle::harness::run;
use oracle::isdb::params::Mode;
use oracle::ops::carrier_bin::{BinCall, answer};

#[test]
fn the_rust_differs_nowhere_from_itself() {
    assert_eq!(found::<BinCall>(BinCall::RUST), None);
    assert_eq!(run::boundary::<BinCall>(BinCall::RUST, 1).differences(), 0);
}

/// Every call with its answer changed.
fn changed(mode: u8, k: usize, bin: &mut usize, change: fn(Mode, usize) -> usize) -> u8 {
    let answer = answer(mode, k).and_then(|found| Ok(change(mode_of(mode)?, found)));
    write_answer(answer, |found| *bin = found)
}

#[test]
fn wrong_bins_are_found() {
    is_found::<BinCall>("the band begins at bin 0", |mode, k, bin| {
        write_answer(answer(mode, k), |_| *bin = k)
    });
    is_found::<BinCall>("one bin too high", |mode, k, bin| {
        changed(mode, k, bin, |mode, found| (found + 1) % mode.fft_size())
    });
    is_found::<BinCall>("half of the band is not wrapped", |mode, k, bin| {
        changed(mode, k, bin, |mode, found| {
            let n = mode.fft_size();
            if found > n / 2 {
                found.wrapping_sub(n)
            } else {
                found
            }
        })
    });
    // The last carrier is seldom met at random.
    is_found_at_boundary::<BinCall>("the edge in the lowest bin", |mode, k, bin| {
        let last = mode_of(mode).is_ok_and(|mode| k == mode.total_carriers() - 1);
        write_answer(answer(mode, k), |found| *bin = if last { 0 } else { found })
    });
}

#[test]
fn a_bin_written_after_a_refusal_is_found() {
    let port: fn(u8, usize, &mut usize) -> u8 = |mode, k, bin| {
        let answer = answer(mode, k);
        *bin = answer.unwrap_or(0);
        answer.err().unwrap_or(0)
    };
    is_found::<BinCall>("a bin after a refusal", port);
    is_found_at_boundary::<BinCall>("a bin after a refusal", port);
}

#[test]
fn wrong_refusals_are_found() {
    is_found_at_boundary::<BinCall>("one carrier too many", |mode, k, bin| {
        let last = mode_of(mode).map(|mode| k == mode.total_carriers());
        let k = if last == Ok(true) { k - 1 } else { k };
        write_answer(answer(mode, k), |found| *bin = found)
    });
    is_found_at_boundary::<BinCall>("the carrier before the mode", |mode, k, bin| {
        if k > Mode::M3.total_carriers() {
            return BAD_CARRIER;
        }
        write_answer(answer(mode, k), |found| *bin = found)
    });
    is_found_at_boundary::<BinCall>("a carrier cut to 32 bits", |mode, k, bin| {
        write_answer(answer(mode, k & 0xffff_ffff), |found| *bin = found)
    });
}
