//! Layouts: all of them, those at the boundaries of the refusals, and those that are stored.

use super::arguments::{PHASE_NUMBERS, boundary_kinds};
use crate::codes::{KINDS, MODES, PHASES, kinds_of_choice};
use crate::harness::call::Unfilled;
use crate::harness::rng::Rng;
use crate::isdb::frame::FrameLayout;
use crate::isdb::params::Mode;

/// How many modes and choices of kinds there are.
pub const COUNT: usize = MODES.len() * KINDS as usize;

/// How many there are with their phases.
pub const WITH_PHASES: usize = COUNT * PHASES as usize;

/// The Rust's layout of one of all modes and choices of kinds, below [`COUNT`], and the choice.
pub fn layout(index: usize) -> (FrameLayout, u16) {
    let kinds = usize::from(KINDS);
    let (mode, choice) = (MODES[index / kinds], (index % kinds) as u16);
    (FrameLayout::new(mode, kinds_of_choice(choice)), choice)
}

/// One of all modes, choices of kinds and phases, below [`WITH_PHASES`]: the layout, the choice and the
/// phase. The next one has the next phase, or the next choice of kinds.
pub fn with_phase(index: usize) -> (FrameLayout, u16, u8) {
    let phases = usize::from(PHASES);
    let (layout, choice) = layout(index / phases);
    (layout, choice, (index % phases) as u8)
}

/// Every combination of phases, kinds and the given sizes: lengths of what is lent, or carriers.
pub fn boundary_layouts<C>(
    sizes: &[usize],
    call: impl Fn(u8, Vec<u8>, usize) -> C,
) -> Vec<Unfilled<C>> {
    let mut calls = Vec::new();
    for phase in PHASE_NUMBERS {
        for kinds in boundary_kinds() {
            for &size in sizes {
                calls.push((call(phase, kinds.clone(), size), 0));
            }
        }
    }
    calls
}

/// Mode, phase and choice of kinds of the layouts that are stored. Every mode and phase comes
/// twice: with all segments of one kind, by turns, and with random kinds.
pub fn stored_layouts(rng: &mut Rng) -> Vec<(Mode, u8, u16)> {
    let mut layouts = Vec::new();
    for mode in MODES {
        for phase in 0..PHASES {
            let alike = if (mode.number() + phase) % 2 == 1 {
                0
            } else {
                KINDS - 1
            };
            layouts.extend([(mode, phase, alike), (mode, phase, rng.choice())]);
        }
    }
    layouts
}
