//! Mistakes in the grid.

use crate::{found, is_found, is_found_at_boundary, quiet};
use oracle::C32;
use oracle::acquire::{Acquire, Oracle};
use oracle::codes::{MODES, kinds_of, mode_of};
use oracle::harness::call::{Call, write_answer};
use oracle::isdb::frame::{FrameLayout, SegmentKind};
use oracle::isdb::ofdm_params::segment_at_position;
use oracle::isdb::params::SEGMENTS;
use oracle::ops::estimate_grid::{GridCall, Port, answer, at_offset, grid_floats, write};

const RUST: Port = GridCall::RUST;

// ---- the estimate, by rules that can be changed

/// What the estimate of a grid depends on.
#[derive(Clone, Copy)]
struct Rules {
    /// A value without its pilot of a sign.
    unsigned: fn(C32, u8) -> C32,
    /// The value of a point with no spectrum.
    raw: fn(C32, u8) -> C32,
    /// What a time window counts as.
    window: fn(usize) -> i32,
    /// The offsets of a scattered pilot: time window, symbols back.
    scattered: fn(i32, i32) -> Vec<i32>,
    /// The offsets of a continual pilot.
    continual: fn(i32) -> Vec<i32>,
    /// The line at 0.
    line: fn(&[(f32, C32)]) -> Option<C32>,
    /// Symbols since the pilot of point i was sent: phase, i.
    back: fn(usize, usize) -> usize,
    /// Segments are closed by continual pilots.
    closed: bool,
    /// The segment above one at a place.
    above: fn(usize) -> usize,
}

const RIGHT: Rules = Rules {
    unsigned: |value, sign| value * if sign == 0 { 0.75 } else { -0.75 },
    raw: |value, _| value,
    window: |w| w.max(1) as i32,
    scattered: |w, back| (1 - w..=w).map(|i| 4 * i - back).collect(),
    continual: |w| (1 - 2 * w..2 * w).collect(),
    line: |points| line(points, |x, mean| x - mean),
    back: |phase, i| (phase + 4 - i % 4) % 4,
    closed: true,
    above: |place| segment_at_position(place + 1),
};

/// The line through points at 0, with `from_mean` for the distances in the sum of the slope.
fn line(points: &[(f32, C32)], from_mean: fn(f32, f32) -> f32) -> Option<C32> {
    match points {
        [] => None,
        [(_, value)] => Some(*value),
        _ => Some(fitted(points, from_mean)),
    }
}

fn fitted(points: &[(f32, C32)], from_mean: fn(f32, f32) -> f32) -> C32 {
    let count = points.len() as f32;
    let mean = points.iter().map(|point| point.0).sum::<f32>() / count;
    let middle = points.iter().map(|point| point.1).sum::<C32>() / count;
    let spread: f32 = points.iter().map(|(x, _)| (x - mean) * (x - mean)).sum();
    if spread <= 0.0 {
        return middle;
    }
    let lean = |&(x, value): &(f32, C32)| (value - middle) * from_mean(x, mean);
    let slope = points.iter().map(lean).sum::<C32>() / spread;
    middle + slope * (0.0 - mean)
}

/// The grid by the given rules.
fn grid_by(
    rules: Rules,
    (mode, phase, kinds): (u8, u8, &[u8]),
    (spectra, index, w): (&[f32], usize, usize),
    before: &[f32],
) -> Result<Vec<f32>, u8> {
    answer(mode, phase, kinds, spectra, index, w, before)?;
    let (mode, kinds) = (mode_of(mode)?, kinds_of(kinds)?);
    let (signs, w) = (FrameLayout::new(mode, kinds).w, (rules.window)(w));
    let spectra = Oracle::spectra(spectra, mode.total_carriers());
    let mut grid = before.to_vec();
    let mut estimate = |i: usize, offsets: Vec<i32>| {
        let k = 3 * i;
        let point = |&offset: &i32| {
            let spectrum = at_offset(&spectra, index, offset)?;
            Some((offset as f32, (rules.unsigned)(spectrum[k], signs[k])))
        };
        let points: Vec<(f32, C32)> = offsets.iter().filter_map(point).collect();
        let none = || (rules.raw)(spectra[index][k], signs[k]);
        let value = (rules.line)(&points).unwrap_or_else(none);
        grid[2 * i..2 * i + 2].copy_from_slice(&[value.re, value.im]);
    };
    let points = mode.carriers_per_segment() / 3;
    let coherent = |segment: usize| kinds[segment] == SegmentKind::Coherent;
    for place in (0..SEGMENTS).filter(|&place| coherent(segment_at_position(place))) {
        for i in place * points..(place + 1) * points {
            let back = (rules.back)(usize::from(phase), i) as i32;
            estimate(i, (rules.scattered)(w, back));
        }
        let last = place + 1 == SEGMENTS;
        if rules.closed && (last || !coherent((rules.above)(place))) {
            estimate((place + 1) * points, (rules.continual)(w));
        }
    }
    Ok(grid)
}

/// A port that estimates by rules.
macro_rules! by {
    ($($field:ident: $value:expr),*) => {
        |mode, phase, kinds, spectra, index, w, grid| {
            let rules = Rules { $($field: $value,)* ..RIGHT };
            let answer = grid_by(rules, (mode, phase, kinds), (spectra, index, w), grid);
            write(answer, grid)
        }
    };
}

#[test]
fn the_estimate_itself_is_right() {
    let right: Port = by!();
    assert_eq!(found::<GridCall>(right), None);
}

#[test]
fn mistakes_in_the_pilots_are_found() {
    is_found::<GridCall>("sign not removed", by!(unsigned: |value, _| value * 0.75));
    is_found::<GridCall>(
        "amplitude not removed",
        by!(unsigned: |value, sign| {
            if sign == 0 { value } else { value * -1.0 }
        }),
    );
    is_found::<GridCall>(
        "divided by the pilot",
        by!(unsigned: |value, sign| {
            value / if sign == 0 { 4.0 / 3.0 } else { -4.0 / 3.0 }
        }),
    );
    is_found::<GridCall>(
        "sign removed where there is no spectrum",
        by!(raw: RIGHT.unsigned),
    );
    is_found::<GridCall>(
        "zero where there is no spectrum",
        by!(raw: |_, _| C32::default()),
    );
}

#[test]
fn mistakes_in_the_window_are_found() {
    is_found::<GridCall>("w of 0 is 0", by!(window: |w| w as i32));
    is_found::<GridCall>(
        "w of 0 is 2",
        by!(window: |w| if w == 0 { 2 } else { w as i32 }),
    );
    is_found::<GridCall>(
        "a window one short",
        by!(scattered: |w, back| {
            (1 - w..w).map(|i| 4 * i - back).collect()
        }),
    );
    is_found::<GridCall>(
        "a window one short at its start",
        by!(scattered: |w, back| {
            (2 - w..=w).map(|i| 4 * i - back).collect()
        }),
    );
    is_found::<GridCall>(
        "a closing window one short",
        by!(continual: |w| (1 - 2 * w..2 * w - 1).collect()),
    );
    is_found::<GridCall>(
        "a closing window one long",
        by!(continual: |w| (1 - 2 * w..=2 * w).collect()),
    );
    is_found::<GridCall>(
        "the latest spectrum first",
        by!(continual: |w| (1 - 2 * w..2 * w).rev().collect()),
    );
    is_found::<GridCall>(
        "phases that run backwards",
        by!(back: |phase, i| (i + 4 - phase) % 4),
    );
}

#[test]
fn mistakes_in_the_line_are_found() {
    is_found::<GridCall>("x not centred", by!(line: |points| line(points, |x, _| x)));
    is_found::<GridCall>(
        "a single value is summed",
        by!(line: |points| {
            if points.is_empty() { None } else { Some(fitted(points, |x, mean| x - mean)) }
        }),
    );
    is_found::<GridCall>(
        "the mean alone",
        by!(line: |points| {
            line(points, |_, _| 0.0)
        }),
    );
    is_found::<GridCall>(
        "a pair's sum from -0.0",
        by!(line: |points| {
            let all_zero = |part: fn(&C32) -> f32| {
                points.len() > 1 && points.iter().all(|point| part(&point.1).to_bits() == 1 << 31)
            };
            let mut value = (RIGHT.line)(points)?;
            value.re = if all_zero(|value| value.re) { -0.0 } else { value.re };
            value.im = if all_zero(|value| value.im) { -0.0 } else { value.im };
            Some(value)
        }),
    );
}

#[test]
fn mistakes_in_the_points_are_found() {
    is_found::<GridCall>("closing pilot dropped", by!(closed: false));
    is_found::<GridCall>(
        "closed by segment number",
        by!(above: |place| {
            (segment_at_position(place) + 1) % SEGMENTS
        }),
    );
    is_found::<GridCall>(
        "differential segments estimated",
        |mode, phase, kinds, spectra, index, w, grid| {
            let ask = |kinds: &[u8]| answer(mode, phase, kinds, spectra, index, w, grid);
            let answer = ask(kinds).and_then(|_| ask(&[0; SEGMENTS]));
            write(answer, grid)
        },
    );
    is_found::<GridCall>(
        "a point written in a differential segment",
        |mode, phase, kinds, spectra, index, w, grid| {
            let code = RUST(mode, phase, kinds, spectra, index, w, grid);
            if code == 0 && kinds[11] == 1 {
                grid[2] = 0.0;
            }
            code
        },
    );
    is_found::<GridCall>(
        "the point beyond the edge written",
        |mode, phase, kinds, spectra, index, w, grid| {
            let code = RUST(mode, phase, kinds, spectra, index, w, grid);
            if code == 0 {
                grid[grid.len() - 1] = 0.0;
            }
            code
        },
    );
    is_found::<GridCall>(
        "points not estimated put to zero",
        |mode, phase, kinds, spectra, index, w, grid| {
            let zeros = vec![0.0; grid.len()];
            let answer = answer(mode, phase, kinds, spectra, index, w, &zeros);
            write(answer, grid)
        },
    );
    is_found::<GridCall>(
        "nothing is written",
        |mode, phase, kinds, spectra, index, w, grid| {
            let answer = answer(mode, phase, kinds, spectra, index, w, grid);
            write_answer(answer, |_| ())
        },
    );
    is_found::<GridCall>(
        "the spectrum after the current one",
        |mode, phase, kinds, spectra, index, w, grid| {
            let ask = |index| answer(mode, phase, kinds, spectra, index, w, grid);
            let next = index.saturating_add(1);
            let answer = ask(index).map(|points| ask(next).unwrap_or(points));
            write(answer, grid)
        },
    );
}

#[test]
fn other_bytes_of_a_nan_are_found() {
    is_found::<GridCall>(
        "NaNs that are left are quieted",
        |mode, phase, kinds, spectra, index, w, grid| {
            let code = RUST(mode, phase, kinds, spectra, index, w, grid);
            if code == 0 {
                grid.iter_mut().for_each(quiet);
            }
            code
        },
    );
    is_found::<GridCall>(
        "the plain NaN for every other one",
        |mode, phase, kinds, spectra, index, w, grid| {
            let code = RUST(mode, phase, kinds, spectra, index, w, grid);
            let nans = grid.iter_mut().filter(|float| float.is_nan());
            if code == 0 {
                nans.for_each(|float| *float = f32::from_bits(0x7fc0_0000));
            }
            code
        },
    );
    is_found_at_boundary::<GridCall>(
        "a refusal that quiets NaNs",
        |mode, phase, kinds, spectra, index, w, grid| {
            let code = RUST(mode, phase, kinds, spectra, index, w, grid);
            if code != 0 {
                grid.iter_mut().for_each(quiet);
            }
            code
        },
    );
}

// ---- refusals

/// A port that gives `later` in the place of `earlier` where both hold.
macro_rules! swapped {
    ($earlier:literal, $later:literal, $holds:expr) => {
        |mode, phase, kinds, spectra, index, w, grid| {
            let holds: fn(u8, &[f32], usize, usize, usize) -> bool = $holds;
            let early = holds(phase, spectra, index, w, grid.len());
            match RUST(mode, phase, kinds, spectra, index, w, grid) {
                $earlier if early => $later,
                code => code,
            }
        }
    };
}

#[test]
fn refusals_out_of_order_are_found() {
    is_found_at_boundary::<GridCall>("3 before 1", swapped!(1, 3, |phase, _, _, _, _| phase > 3));
    is_found_at_boundary::<GridCall>("3 before 2", swapped!(2, 3, |phase, _, _, _, _| phase > 3));
    is_found_at_boundary::<GridCall>(
        "6 before 3",
        swapped!(3, 6, |_, spectra, _, _, _| spectra.is_empty()),
    );
    is_found_at_boundary::<GridCall>("4 before 6", swapped!(6, 4, |_, _, index, _, _| index > 0));
    is_found_at_boundary::<GridCall>("10 before 5", swapped!(5, 10, |_, _, _, w, _| w > 64));
    is_found_at_boundary::<GridCall>("10 before 4", swapped!(4, 10, |_, _, _, w, _| w > 64));
    is_found_at_boundary::<GridCall>("7 before 10", swapped!(10, 7, |_, _, _, _, grid| grid == 0));
    is_found_at_boundary::<GridCall>("7 before 4", swapped!(4, 7, |_, _, _, _, grid| grid == 0));
}

#[test]
fn what_is_not_refused_is_found() {
    is_found_at_boundary::<GridCall>(
        "a longer grid",
        |mode, phase, kinds, spectra, index, w, grid| {
            let right = grid_floats(mode_of(mode).unwrap_or(MODES[0]));
            let len = grid.len();
            let part = &mut grid[..right.min(len)];
            RUST(mode, phase, kinds, spectra, index, w, part)
        },
    );
    is_found_at_boundary::<GridCall>("w of 65", |mode, phase, kinds, spectra, index, w, grid| {
        let w = if w == 65 { 64 } else { w };
        RUST(mode, phase, kinds, spectra, index, w, grid)
    });
    is_found_at_boundary::<GridCall>(
        "an index just outside",
        |mode, phase, kinds, spectra, index, w, grid| {
            let code = RUST(mode, phase, kinds, spectra, index, w, grid);
            let inside = index.saturating_sub(1);
            match code {
                4 => RUST(mode, phase, kinds, spectra, inside, w, grid),
                _ => code,
            }
        },
    );
    is_found_at_boundary::<GridCall>(
        "an index cut to 32 bits",
        |mode, phase, kinds, spectra, index, w, grid| {
            let index = index as u32 as usize;
            RUST(mode, phase, kinds, spectra, index, w, grid)
        },
    );
    is_found_at_boundary::<GridCall>(
        "a window cut to 32 bits",
        |mode, phase, kinds, spectra, index, w, grid| {
            let w = w as u32 as usize;
            RUST(mode, phase, kinds, spectra, index, w, grid)
        },
    );
    is_found_at_boundary::<GridCall>(
        "a refusal that writes",
        |mode, phase, kinds, spectra, index, w, grid| {
            let code = RUST(mode, phase, kinds, spectra, index, w, grid);
            if code == 10 {
                grid.fill(0.0);
            }
            code
        },
    );
}
