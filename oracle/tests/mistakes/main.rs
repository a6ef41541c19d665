//! The comparisons report what differs: each mistake below is put in the place of the port, and
//! must be found. So must ports that break what is claimed of changed captures. A module has the
//! mistakes of one operation.

mod angle;
mod bin_ratio;
mod carrier_bin;
mod carrier_role;
mod cfo_frac;
mod continual_list;
mod data_list;
mod detect_kinds;
mod detect_mode;
mod detect_sp_phase;
mod estimate_grid;
mod floats;
mod frame_start;
mod integer_cfo;
mod narrow;
mod norm32;
mod norm64;
mod role_map;
mod root;
mod samples_needed;
mod sign_map;
mod tmcc_soft;

use oracle::C32;
use oracle::acquire::{Acquire, Oracle};
use oracle::harness::call::Call;
use oracle::harness::changed::{self, Claim};
use oracle::harness::run;

/// Random cases for each mistake.
const CASES: usize = 600;

/// The smallest failing random call of a port.
fn found<C: Call>(port: C::Port) -> Option<String> {
    let row = run::random::<C>(port, 1, CASES);
    row.smallest().map(str::to_string)
}

/// The mistake is found, and the failing input is shown.
fn is_found<C: Call>(what: &str, port: C::Port) {
    let smallest = found::<C>(port).unwrap_or_else(|| panic!("not found: {what}"));
    assert!(smallest.starts_with(C::TITLE), "{what}: {smallest}");
}

/// The mistake is found at a boundary of the refusals.
fn is_found_at_boundary<C: Call>(what: &str, port: C::Port) {
    let row = run::boundary::<C>(port, 1);
    assert!(row.differences() > 0, "not found: {what}");
}

/// The claim is broken by the port.
fn is_broken<C: Claim>(what: &str, port: C::Port) {
    let row = changed::claim::<C>(port, 1, CASES);
    assert!(row.differences() > 0, "not found: {what}");
}

/// A signalling NaN becomes a quiet one, as it would by any operation on floats.
fn quiet(float: &mut f32) {
    if float.is_nan() {
        *float = f32::from_bits(float.to_bits() | 1 << 22);
    }
}

fn quiet64(float: &mut f64) {
    if float.is_nan() {
        *float = f64::from_bits(float.to_bits() | 1 << 51);
    }
}

/// The first two spectra of `len` pairs each, where there are more.
fn first_pair(len: usize, spectra: &[f32]) -> &[f32] {
    &spectra[..spectra.len().min(4 * len)]
}

/// Ratios of products that are not squared.
fn unsquared(spectra: &[f32], len: usize) -> Vec<f32> {
    let pairs = Oracle::pairs(spectra);
    let ratio = |bin: usize| {
        let (mut sum, mut size) = (C32::default(), 0.0);
        for at in (bin..pairs.len() - len).step_by(len) {
            let p = pairs[at + len] * pairs[at].conj();
            sum += p;
            size += p.norm();
        }
        if size > 0.0 { sum.norm() / size } else { 0.0 }
    };
    (0..len).map(ratio).collect()
}
