//! The untouched Rust: acquisition and grid of isdb-rs on the crate num-complex, compared with the oracle.
//!
//! The oracle has the requirement's exact norms in the place of num-complex's, which are `hypot`.
//! `acquire` and `chanest` are the oracle's own source files, compiled here with the types of
//! num-complex, so that nothing else can differ. `held` makes one call to both, `count` counts over many random ones,
//! `input_kind` says of what kind an input is, `by_hand` has calls with few floats that are not zero,
//! and `norms` compares the norms alone.

pub use num_complex::{Complex32 as C32, Complex64 as C64};

/// The modules of isdb-rs that have no complex numbers but the pilots' values, of which `acquire` and
/// `chanest` take the real part.
pub mod isdb {
    pub use oracle::isdb::{frame, ofdm, ofdm_params, params};
}

#[path = "../../src/isdb/rx/acquire.rs"]
pub mod acquire;
pub mod by_hand;
#[path = "../../src/isdb/rx/chanest.rs"]
pub mod chanest;
pub mod count;
pub mod held;
pub mod input_kind;
pub mod norms;
