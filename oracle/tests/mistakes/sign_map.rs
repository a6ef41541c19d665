//! Mistakes in the sign map.

use crate::{found, is_found, is_found_at_boundary};
use oracle::codes::{BAD_LENGTH, MODES, mode_of};
use oracle::harness::call::{Call, write_answer};
use oracle::harness::run;
use oracle::isdb::frame::{edge_w, segment_w};
use oracle::isdb::params::SEGMENTS;
use oracle::ops::sign_map::{SignCall, answer};

#[test]
fn the_rust_differs_nowhere_from_itself() {
    assert_eq!(found::<SignCall>(SignCall::RUST), None);
    let row = run::boundary::<SignCall>(SignCall::RUST, 1);
    assert_eq!(row.differences(), 0);
}

/// Every call with its answer changed.
fn changed(mode: u8, out: &mut [u8], change: fn(&mut [u8])) -> u8 {
    write_answer(answer(mode, out.len()), |signs| {
        out.copy_from_slice(&signs);
        change(out);
    })
}

#[test]
fn wrong_signs_are_found() {
    is_found::<SignCall>("one sign swapped", |mode, out| {
        changed(mode, out, |signs| signs[700] ^= 1)
    });
    is_found::<SignCall>("the edge's sign swapped", |mode, out| {
        changed(mode, out, |signs| *signs.last_mut().expect("the edge") ^= 1)
    });
    is_found::<SignCall>("every sign swapped", |mode, out| {
        changed(mode, out, |signs| {
            signs.iter_mut().for_each(|sign| *sign ^= 1)
        })
    });
    is_found::<SignCall>("segments by their numbers", |mode, out| {
        let by_number = answer(mode, out.len()).and_then(|_| {
            let mode = mode_of(mode)?;
            let segments = (0..SEGMENTS).flat_map(|segment| segment_w(mode, segment));
            Ok(segments.chain([edge_w(mode)]).collect::<Vec<u8>>())
        });
        write_answer(by_number, |signs| out.copy_from_slice(&signs))
    });
    is_found::<SignCall>("the edge left out", |mode, out| {
        write_answer(answer(mode, out.len()), |signs| {
            let edge = signs.len() - 1;
            out[..edge].copy_from_slice(&signs[..edge]);
        })
    });
}

#[test]
fn a_sign_written_after_a_refusal_is_found() {
    let port: fn(u8, &mut [u8]) -> u8 = |mode, out| {
        let code = (SignCall::RUST)(mode, out);
        if code != 0 && !out.is_empty() {
            out[0] = 0;
        }
        code
    };
    is_found::<SignCall>("a sign after a refusal", port);
    is_found_at_boundary::<SignCall>("a sign after a refusal", port);
}

#[test]
fn wrong_refusals_are_found() {
    is_found_at_boundary::<SignCall>("a longer output", |mode, out| {
        match mode_of(mode).map(|mode| mode.total_carriers()) {
            Ok(total) if out.len() > total => (SignCall::RUST)(mode, &mut out[..total]),
            _ => (SignCall::RUST)(mode, out),
        }
    });
    is_found_at_boundary::<SignCall>("the length before the mode", |mode, out| {
        let right = MODES.map(|mode| mode.total_carriers());
        if right.contains(&out.len()) {
            return (SignCall::RUST)(mode, out);
        }
        BAD_LENGTH
    });
}
