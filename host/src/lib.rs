//! Carrier layout and acquisition for ISDB-T captures.
//!
//! The operations are proved, in Rattle, and linked as a static library; this crate calls them
//! through C and adds types. A module has the name of the crate that it calls; [`guess`] calls
//! `samples_needed` too, and [`ieee`] calls `root`.
//!
//! | module | operations |
//! |---|---|
//! | [`ofdm`] | [`carrier_bin`](ofdm::carrier_bin) |
//! | [`prbs`] | [`sign_map`](prbs::sign_map) |
//! | [`frame`] | [`role_map`](frame::role_map) |
//! | [`carrier_role`] | [`carrier_role`](carrier_role::carrier_role) |
//! | [`carrier_lists`] | [`data_list`](carrier_lists::data_list), [`continual_list`](carrier_lists::continual_list) |
//! | [`guess`] | [`samples_needed`](guess::samples_needed), [`detect_mode`](guess::detect_mode) |
//! | [`ratio`] | [`bin_ratio`](ratio::bin_ratio) |
//! | [`shift`] | [`integer_cfo`](shift::integer_cfo) |
//! | [`segment_kinds`] | [`detect_kinds`](segment_kinds::detect_kinds) |
//! | [`tmcc`] | [`tmcc_soft`](tmcc::tmcc_soft) |
//! | [`pilot_phase`] | [`detect_sp_phase`](pilot_phase::detect_sp_phase) |
//! | [`frame_start`] | [`frame_start`](frame_start::frame_start) |
//! | [`chanest`] | [`estimate_grid`](chanest::estimate_grid) |
//! | [`ieee`] | [`root`](ieee::root), [`narrow`](ieee::narrow) |
//! | [`complex`] | [`norm32`](complex::norm32), [`norm64`](complex::norm64) |
//! | [`angle`] | [`angle`](angle::angle) |
//! | [`cfo_frac`] | [`cfo_frac`](cfo_frac::cfo_frac) |
//!
//! An operation answers, or gives a [`Refusal`] and leaves everything lent as it was. Where an
//! operation needs a buffer, a function of its name makes one of the right size, and a second one,
//! whose name ends in `_lent`, takes the caller's, so that many calls need no new buffer.
//!
//! Spectra and samples are floats, real and imaginary part in turn; spectra lie one behind another.
//!
//! ```
//! use sillurwy::frame::{role_map, CarrierRole};
//! use sillurwy::params::{Mode, Phase, SegmentKind};
//!
//! let mut kinds = [SegmentKind::Coherent; 13];
//! kinds[0] = SegmentKind::Differential;
//! let roles = role_map(Mode::M1, Phase::P0, &kinds)?;
//! assert_eq!(roles[648], CarrierRole::Cp);
//! assert_eq!(roles[651], CarrierRole::Ac2);
//! assert_eq!(roles[1404], CarrierRole::Edge);
//! # Ok::<(), sillurwy::Refusal>(())
//! ```
#![deny(missing_docs)]
// What is unsafe is written by dev/declare, in `ffi` alone.
#![deny(unsafe_code)]

pub mod angle;
pub mod carrier_lists;
pub mod carrier_role;
pub mod cfo_frac;
pub mod chanest;
pub mod complex;
#[allow(unsafe_code)]
#[doc(hidden)]
pub mod ffi;
pub mod frame;
pub mod frame_start;
pub mod guess;
pub mod ieee;
pub mod ofdm;
pub mod params;
pub mod pilot_phase;
pub mod prbs;
pub mod ratio;
mod refusal;
pub mod segment_kinds;
pub mod shift;
pub mod tmcc;

pub use refusal::Refusal;

/// The most spectra that an operation takes, and so the most pairs of one bin.
pub const MOST_SPECTRA: usize = 1024;
