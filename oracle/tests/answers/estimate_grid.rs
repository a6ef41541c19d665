//! The grid: windows whose channel is known, and the order of the refusals.

use crate::{count, has_no_difference};
use oracle::codes::{KINDS, MODES, kind_bytes, kinds_of_choice};
use oracle::harness::call::{Call, Floats};
use oracle::harness::rng::Rng;
use oracle::inputs::captures::{Band, Places};
use oracle::isdb::frame::SegmentKind;
use oracle::isdb::ofdm_params::segment_at_position;
use oracle::isdb::params::{Mode, SEGMENTS};
use oracle::ops::estimate_grid::{GridCall, answer, grid_floats};
use std::f64::consts::TAU;

/// What a grid holds before a call: no estimate is that large.
const KEPT: f32 = 1e9;

/// What the oracle leaves in a grid of [`KEPT`]; the port must leave the same.
fn grid_of(call: &GridCall) -> Vec<f32> {
    assert_eq!(call.run(GridCall::LINKED, 1).difference, None);
    call.answer(&vec![KEPT; call.grid]).unwrap()
}

/// Points that are estimated: those of the coherent segments, and the one above each run of them.
fn estimated(mode: Mode, choice: u16) -> Vec<bool> {
    let kinds = kinds_of_choice(choice);
    let points = mode.carriers_per_segment() / 3;
    let mut all = vec![false; grid_floats(mode) / 2];
    for place in 0..SEGMENTS {
        if kinds[segment_at_position(place)] == SegmentKind::Coherent {
            all[place * points..=(place + 1) * points].fill(true);
        }
    }
    all
}

#[test]
fn the_channel_of_a_band_is_found() {
    let mut rng = Rng::new(1);
    for mode in MODES {
        for choice in [0, KINDS - 1, 1, 0b1_0110_0101_1010, KINDS - 2] {
            for w in [0, 1, 2] {
                let mut band = Band::new(&mut rng, mode, choice);
                (band.noise, band.scale, band.whole) = (0.0, 1.0, false);
                (band.drift, band.slope) = (0.0, 0.001);
                let index = 7;
                let call = GridCall {
                    mode: mode.number(),
                    spectra: Floats(band.spectra(&mut rng, Places::Carriers, 15)),
                    index,
                    w,
                    kinds: kind_bytes(choice).to_vec(),
                    phase: ((band.phase + index) % 4) as u8,
                    grid: grid_floats(mode),
                };
                let grid = grid_of(&call);
                let estimated = estimated(mode, choice);
                for (i, point) in grid.chunks(2).enumerate() {
                    let (sin, cos) = (0.001 * 3.0 * i as f64 * TAU).sin_cos();
                    let wanted = match estimated[i] {
                        true => [cos as f32, sin as f32],
                        false => [KEPT, KEPT],
                    };
                    let near = point.iter().zip(wanted).all(|(x, y)| (x - y).abs() < 1e-3);
                    assert!(near, "{mode:?} {choice:#x} w {w} point {i}: {point:?}");
                }
            }
        }
    }
}

/// A call of one spectrum in mode 1, all coherent, carrier k of which is (k, 1).
fn one_spectrum(phase: u8, w: usize) -> GridCall {
    let carriers = 0..Mode::M1.total_carriers();
    GridCall {
        mode: 1,
        spectra: Floats(carriers.flat_map(|k| [k as f32, 1.0]).collect()),
        index: 0,
        w,
        kinds: vec![0; SEGMENTS],
        phase,
        grid: grid_floats(Mode::M1),
    }
}

#[test]
fn a_point_with_no_spectrum_is_raw() {
    // Signs of carriers 0, 3, 6, 9 are 1: the pilots there are -4/3.
    for w in [0, 1, 64] {
        let grid = grid_of(&one_spectrum(2, w));
        assert_eq!(grid[..8], [0.0, 1.0, 3.0, 1.0, -4.5, -0.75, 9.0, 1.0]);
        // The edge closes the band, with sign 1; the last point is left.
        assert_eq!(grid[2 * 468..], [-1053.0, -0.75, KEPT, KEPT]);
    }
}

#[test]
fn a_window_of_0_counts_as_1() {
    let mut rng = Rng::new(1);
    for _ in 0..20 {
        let call = GridCall::random(&mut rng);
        let (zero, one) = (
            GridCall {
                w: 0,
                ..call.clone()
            },
            GridCall { w: 1, ..call },
        );
        let before = vec![KEPT; zero.grid];
        let bits = |floats: Vec<f32>| floats.into_iter().map(f32::to_bits).collect::<Vec<_>>();
        assert_eq!(
            zero.answer(&before).map(bits),
            one.answer(&before).map(bits)
        );
    }
}

#[test]
fn refusals_come_in_their_order() {
    let right = grid_floats(Mode::M1);
    let one = vec![1.0; 2 * 1405];
    let (good, bad) = ([0; SEGMENTS], [2; SEGMENTS]);
    let refusal = |mode, phase, kinds: &[u8], spectra: &[f32], index, w, grid: usize| {
        answer(mode, phase, kinds, spectra, index, w, &vec![KEPT; grid]).err()
    };
    let most = usize::MAX;
    assert_eq!(refusal(0, 4, &bad, &[1.0], most, most, 0), Some(1));
    assert_eq!(refusal(1, 4, &bad, &[1.0], most, most, 0), Some(2));
    assert_eq!(refusal(1, 4, &good, &[1.0], most, most, 0), Some(3));
    assert_eq!(refusal(1, 3, &good, &[1.0], most, most, 0), Some(5));
    assert_eq!(refusal(1, 3, &good, &[], most, most, 0), Some(6));
    assert_eq!(refusal(1, 3, &good, &one, 1, most, 0), Some(4));
    assert_eq!(refusal(1, 3, &good, &one, 0, 65, 0), Some(10));
    assert_eq!(refusal(1, 3, &good, &one, 0, 64, right - 1), Some(7));
    assert_eq!(refusal(1, 3, &good, &one, 0, 64, right), None);
}

#[test]
fn random_windows_meet_what_is_hard() {
    let left = |call: &GridCall| call.answer(&vec![KEPT; call.grid]).unwrap_or_default();
    let spectra = |call: &GridCall| call.spectra.0.len() / 2809;
    let any = |call: &GridCall, is: fn(&f32) -> bool| left(call).iter().any(is);
    let nans = count(|call| any(call, |x| x.is_nan()));
    let infinite = count(|call| any(call, |x| x.is_infinite()));
    let zeros = count(|call| any(call, |x| x.to_bits() == 1 << 31));
    let kept = count(|call| left(call).iter().filter(|&&x| x == KEPT).count() > 4);
    let none = count(|call| {
        let grid = left(call);
        !grid.is_empty() && grid.iter().all(|&x| x == KEPT)
    });
    let single = count(|call| !left(call).is_empty() && spectra(call) == 1);
    let first = count(|call| !left(call).is_empty() && call.index == 0 && spectra(call) > 4);
    let zero = count(|call| !left(call).is_empty() && call.w == 0);
    let wide = count(|call| !left(call).is_empty() && call.w > 3);
    for (what, count, least) in [
        ("NaNs", nans, 40),
        ("infinities", infinite, 10),
        ("-0.0", zeros, 30),
        ("points kept", kept, 300),
        ("no coherent segment", none, 10),
        ("one spectrum", single, 50),
        ("first of many", first, 30),
        ("w = 0", zero, 60),
        ("wide", wide, 40),
    ] {
        assert!(count >= least, "{what}: {count}");
    }
}

#[test]
fn the_port_has_no_difference() {
    has_no_difference::<GridCall>(GridCall::LINKED, 400);
}

#[test]
fn the_rust_has_no_difference_to_itself() {
    has_no_difference::<GridCall>(GridCall::RUST, 400);
}
