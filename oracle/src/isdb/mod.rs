//! The modules of isdb-rs that the port answers to (../../CHANGES.md says what was changed).

pub mod frame;
pub mod ofdm;
pub mod ofdm_params;
pub mod params;
pub mod rx;
pub mod tables;
