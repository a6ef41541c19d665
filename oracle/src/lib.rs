//! The oracle: the Rust of isdb-rs, and what compares the proved port with it.
//!
//! `isdb` is the Rust that was carried over, `complex` the complex numbers that it computes with,
//! `acquire` its acquisition by two norms, and `untouched` the same with the norms it came with. `codes`
//! has the numbers that the port's operations take and give. `harness` is what every comparison needs,
//! `inputs` what calls are made of. `ops` has a file for each operation and the table of all that the
//! programs in src/bin go through.

pub mod acquire;
pub mod codes;
pub mod complex;
pub mod harness;
pub mod inputs;
pub mod isdb;
pub mod ops;
pub mod untouched;

pub use complex::C32;
