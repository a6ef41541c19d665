//! The soft TMCC value.

use crate::has_no_difference;
use oracle::harness::call::Call;
use oracle::ops::tmcc_soft::TmccCall;

#[test]
fn the_port_has_no_difference() {
    has_no_difference::<TmccCall>(TmccCall::LINKED, 100);
}

#[test]
fn the_rust_has_no_difference_to_itself() {
    has_no_difference::<TmccCall>(TmccCall::RUST, 100);
}
