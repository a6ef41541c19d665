// Carried over from isdb-rs 754ed06c49 (Apache-2.0, see NOTICE).
// From crates/isdbt-ofdm/src/rx/mod.rs. Changed: `continual_list` is public; `acquire` finds its
// complex numbers here; the two lines of `step_acquire` that read the synchronising bits are the
// function `sync_bits`. Left out: everything else of that file but the lines of `acquire` and
// `chanest`.

pub mod acquire;
pub mod chanest;

use crate::complex::{C32, C64};
use crate::isdb::frame::FrameLayout;

/// Continual carriers of a layout: TMCC, AC, differential CPs, band edge.
pub fn continual_list(layout: &FrameLayout) -> Vec<usize> {
    layout
        .tmcc
        .iter()
        .map(|t| t.k as usize)
        .chain(layout.ac.iter().map(|a| a.k as usize))
        .chain(layout.cp.iter().map(|&k| k as usize))
        .chain(std::iter::once(layout.edge as usize))
        .collect()
}

/// The sixteen synchronising bits, B1 to B16, of a frame that starts at symbol `f`.
pub fn sync_bits(soft: &[f32], f: usize) -> Vec<u8> {
    let bit = |n: usize| u8::from(soft[f + n - 1] < 0.0);
    (1..17).map(bit).collect()
}
