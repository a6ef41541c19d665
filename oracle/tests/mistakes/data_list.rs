//! Mistakes in the data list.

use crate::{found, is_found, is_found_at_boundary};
use oracle::codes::{BAD_LENGTH, MODES, kind_bytes};
use oracle::harness::call::{Call, write_answer};
use oracle::harness::run;
use oracle::ops::data_list::{DataCall, Port, answer, data_count, every_one};
use sillurwy::ffi;

#[test]
fn the_rust_differs_nowhere_from_itself() {
    assert_eq!(found::<DataCall>(DataCall::RUST), None);
    let row = run::boundary::<DataCall>(DataCall::RUST, 1);
    assert_eq!(row.differences(), 0);
}

/// Every call with its answer changed.
fn changed(mode: u8, phase: u8, kinds: &[u8], out: &mut [u32], change: fn(&mut [u32])) -> u8 {
    write_answer(answer(mode, phase, kinds, out.len()), |carriers| {
        out.copy_from_slice(&carriers);
        change(out);
    })
}

#[test]
fn wrong_lists_are_found() {
    is_found::<DataCall>("in place order", |mode, phase, kinds, out| {
        changed(mode, phase, kinds, out, <[u32]>::sort_unstable)
    });
    is_found::<DataCall>("of another phase", |mode, phase, kinds, out| {
        (DataCall::RUST)(mode, if phase < 4 { 3 - phase } else { phase }, kinds, out)
    });
    is_found::<DataCall>("two carriers swapped", |mode, phase, kinds, out| {
        changed(mode, phase, kinds, out, |carriers| carriers.swap(100, 101))
    });
    is_found::<DataCall>("the last carrier left out", |mode, phase, kinds, out| {
        write_answer(answer(mode, phase, kinds, out.len()), |carriers| {
            let last = carriers.len() - 1;
            out[..last].copy_from_slice(&carriers[..last]);
        })
    });
}

#[test]
fn one_wrong_layout_of_all_is_found() {
    let port: Port = |mode, phase, kinds, out| {
        let code = ffi::data_list(mode, phase, kinds, out);
        if (mode, phase, kinds) == (3, 0, &kind_bytes(0b0_0000_1000_0001)[..]) {
            out[4991] += 1;
        }
        code
    };
    let row = every_one(port);
    assert_eq!((row.cases(), row.differences()), (98_304, 1));
    let smallest = row.smallest().expect("a failing call");
    let wanted = "data list: mode 3, phase 0, kinds \"DCCCCCCDCCCCC\" (13 kinds), output of 4992\n";
    assert!(smallest.starts_with(wanted), "{smallest}");
    assert!(smallest.contains("out[4991]: oracle "), "{smallest}");
}

#[test]
fn a_carrier_written_after_a_refusal_is_found() {
    let port: Port = |mode, phase, kinds, out| {
        let code = (DataCall::RUST)(mode, phase, kinds, out);
        if let (true, Some(first)) = (code != 0, out.first_mut()) {
            *first = 648;
        }
        code
    };
    is_found::<DataCall>("a carrier after a refusal", port);
    is_found_at_boundary::<DataCall>("a carrier after a refusal", port);
}

#[test]
fn wrong_refusals_are_found() {
    is_found_at_boundary::<DataCall>("the length before all else", |mode, phase, kinds, out| {
        if MODES.map(data_count).contains(&out.len()) {
            return (DataCall::RUST)(mode, phase, kinds, out);
        }
        BAD_LENGTH
    });
    is_found_at_boundary::<DataCall>("a longer output", |mode, phase, kinds, out| {
        let longer = out.len().saturating_sub(1);
        if answer(mode, phase, kinds, longer).is_ok() {
            return (DataCall::RUST)(mode, phase, kinds, &mut out[..longer]);
        }
        (DataCall::RUST)(mode, phase, kinds, out)
    });
}
