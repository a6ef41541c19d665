//! Mistakes in the role map.

use crate::{found, is_found, is_found_at_boundary};
use oracle::codes::{kind_bytes, phase_of};
use oracle::harness::call::{Call, write_answer};
use oracle::harness::run;
use oracle::isdb::ofdm_params::segment_at_position;
use oracle::isdb::params::SEGMENTS;
use oracle::ops::role_map::{Port, RoleCall, answer, every_one};
use sillurwy::ffi;

#[test]
fn the_rust_differs_nowhere_from_itself() {
    assert_eq!(found::<RoleCall>(RoleCall::RUST), None);
    let row = run::boundary::<RoleCall>(RoleCall::RUST, 1);
    assert_eq!(row.differences(), 0);
}

/// Every call with its answer changed.
fn changed(mode: u8, phase: u8, kinds: &[u8], out: &mut [u8], change: fn(&mut [u8])) -> u8 {
    write_answer(answer(mode, phase, kinds, out.len()), |roles| {
        out.copy_from_slice(&roles);
        change(out);
    })
}

#[test]
fn wrong_roles_are_found() {
    is_found::<RoleCall>("the phase after", |mode, phase, kinds, out| {
        let next = if phase < 4 { (phase + 1) % 4 } else { phase };
        (RoleCall::RUST)(mode, next, kinds, out)
    });
    is_found::<RoleCall>("the phase ignored", |mode, phase, kinds, out| {
        (RoleCall::RUST)(mode, if phase < 4 { 0 } else { phase }, kinds, out)
    });
    is_found::<RoleCall>("kinds by place", |mode, phase, kinds, out| {
        if kinds.len() != SEGMENTS {
            return (RoleCall::RUST)(mode, phase, kinds, out);
        }
        let placed: [u8; SEGMENTS] = std::array::from_fn(|place| kinds[segment_at_position(place)]);
        (RoleCall::RUST)(mode, phase, &placed, out)
    });
    is_found::<RoleCall>("AC2 taken for AC1", |mode, phase, kinds, out| {
        changed(mode, phase, kinds, out, |roles| {
            roles
                .iter_mut()
                .filter(|role| **role == 5)
                .for_each(|role| *role = 4);
        })
    });
    is_found::<RoleCall>("no edge", |mode, phase, kinds, out| {
        changed(mode, phase, kinds, out, |roles| {
            *roles.last_mut().expect("the edge") = 0
        })
    });
    is_found::<RoleCall>("a carrier left out", |mode, phase, kinds, out| {
        let lent = out.get(702).copied();
        let code = (RoleCall::RUST)(mode, phase, kinds, out);
        if let Some(lent) = lent {
            out[702] = lent;
        }
        code
    });
}

#[test]
fn one_wrong_layout_of_all_is_found() {
    let port: Port = |mode, phase, kinds, out| {
        let code = ffi::role_map(mode, phase, kinds, out);
        if (mode, phase, kinds) == (2, 3, &kind_bytes(0b1_0000_0000_1000)[..]) {
            out[2000] ^= 1;
        }
        code
    };
    let row = every_one(port);
    assert_eq!((row.cases(), row.differences()), (98_304, 1));
    let smallest = row.smallest().expect("a failing call");
    let wanted = "role map: mode 2, phase 3, kinds \"CCCDCCCCCCCCD\" (13 kinds), output of 2809\n";
    assert!(smallest.starts_with(wanted), "{smallest}");
    assert!(smallest.contains("out[2000]: oracle "), "{smallest}");
}

#[test]
fn a_byte_written_after_a_refusal_is_found() {
    let port: Port = |mode, phase, kinds, out| {
        let code = (RoleCall::RUST)(mode, phase, kinds, out);
        if let (true, Some(last)) = (code != 0, out.last_mut()) {
            *last = 6;
        }
        code
    };
    is_found::<RoleCall>("a byte after a refusal", port);
    is_found_at_boundary::<RoleCall>("a byte after a refusal", port);
}

#[test]
fn wrong_refusals_are_found() {
    is_found_at_boundary::<RoleCall>("the phase before the kinds", |mode, phase, kinds, out| {
        let good = answer(mode, 0, &[0; SEGMENTS], out.len());
        match (good, phase_of(phase)) {
            (Ok(_), Err(refusal)) => refusal,
            _ => (RoleCall::RUST)(mode, phase, kinds, out),
        }
    });
    is_found_at_boundary::<RoleCall>("the last kind not looked at", |mode, phase, kinds, out| {
        let mut kinds = kinds.to_vec();
        if kinds.len() == SEGMENTS {
            kinds[SEGMENTS - 1] %= 2;
        }
        (RoleCall::RUST)(mode, phase, &kinds, out)
    });
    is_found_at_boundary::<RoleCall>("a kind too many", |mode, phase, kinds, out| {
        (RoleCall::RUST)(mode, phase, &kinds[..kinds.len().min(SEGMENTS)], out)
    });
    is_found_at_boundary::<RoleCall>("a phase taken modulo 4", |mode, phase, kinds, out| {
        (RoleCall::RUST)(mode, phase % 4, kinds, out)
    });
}
