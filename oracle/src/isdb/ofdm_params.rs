// Not carried over: the module `ofdm_params` of isdb-rs is not among the published files that this
// port starts from. Its three functions are written here from what the requirement says of them.

//! The arrangement of segments in the band (ARIB STD-B31 §3.14, Fig. 3-32).

use crate::isdb::params::{Mode, SEGMENTS};

/// Segment numbers from the lowest place in the band upward.
const SEGMENT_AT_POSITION: [usize; SEGMENTS] = [11, 9, 7, 5, 3, 1, 0, 2, 4, 6, 8, 10, 12];

/// Segment at place `pos` of the band, 0 being the lowest.
///
/// # Panics
///
/// If `pos` ≥ 13.
pub fn segment_at_position(pos: usize) -> usize {
    SEGMENT_AT_POSITION[pos]
}

/// Place in the band of segment `seg`.
///
/// # Panics
///
/// If `seg` ≥ 13.
pub fn segment_position(seg: usize) -> usize {
    SEGMENT_AT_POSITION
        .iter()
        .position(|&s| s == seg)
        .expect("segment number below 13")
}

/// Band carrier at the centre of the band, the one in FFT bin 0.
pub fn center_carrier(mode: Mode) -> usize {
    (mode.total_carriers() - 1) / 2
}
