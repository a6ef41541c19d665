//! The samples needed.

use crate::has_no_difference;
use oracle::acquire::Oracle;
use oracle::harness::call::Call;
use oracle::ops::samples_needed::{NeededCall, answer};

#[test]
fn samples_needed_of_mode_1() {
    assert_eq!(answer::<Oracle>(&[1], &[4], 4), Ok(5 * 2560 + 2048));
    assert_eq!(answer::<Oracle>(&[], &[4], 4), Ok(0));
    assert_eq!(answer::<Oracle>(&[1, 4], &[5], 65), Err(1));
    assert_eq!(answer::<Oracle>(&[1], &[5], 65), Err(9));
    assert_eq!(answer::<Oracle>(&[1], &[4], 65), Err(10));
}

#[test]
fn the_port_has_no_difference() {
    has_no_difference::<NeededCall>(NeededCall::LINKED, 100);
}

#[test]
fn the_rust_has_no_difference_to_itself() {
    has_no_difference::<NeededCall>(NeededCall::RUST, 100);
}
