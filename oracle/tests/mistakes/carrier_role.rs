//! Mistakes in the role of one carrier.

use crate::{found, is_found, is_found_at_boundary};
use oracle::codes::{BAD_CARRIER, kind_bytes, kinds_of, mode_of, phase_of};
use oracle::harness::call::{Call, write_answer};
use oracle::harness::run;
use oracle::isdb::frame::{SegmentKind, ac1_positions, ac2_positions, is_sp, tmcc_positions};
use oracle::isdb::ofdm_params::segment_at_position;
use oracle::isdb::params::SEGMENTS;
use oracle::ops::carrier_role::{CarrierRoleCall, Port, accepted, answer, every_carrier};

const RUST: Port = CarrierRoleCall::RUST;

/// A lookup in steps, as a port may have it, any of which a mistake may change. It makes no map, so that
/// every carrier of many layouts can be asked for.
struct Lookup {
    /// Place in the band and carrier of the segment there.
    split: fn(usize, usize) -> (usize, usize),
    /// The segment at a place.
    segment: fn(usize) -> usize,
    /// Which of the kinds is taken, by place and segment.
    kind: fn(usize, usize) -> usize,
    /// If a carrier of a coherent segment is a scattered pilot in a phase.
    is_sp: fn(usize, usize) -> bool,
    /// What is looked at of a row of the TMCC table.
    tmcc: fn(&[u16]) -> &[u16],
}

const RIGHT: Lookup = Lookup {
    split: |k, carriers| (k / carriers, k % carriers),
    segment: segment_at_position,
    kind: |_, segment| segment,
    is_sp,
    tmcc: |row| row,
};

impl Lookup {
    fn answer(&self, mode: u8, phase: u8, kinds: &[u8], k: usize) -> Result<u8, u8> {
        let (mode, phase, kinds) = accepted(mode, phase, kinds, k)?;
        let (place, c) = (self.split)(k, mode.carriers_per_segment());
        if place == SEGMENTS {
            return Ok(6);
        }
        let segment = (self.segment)(place);
        let kind = kinds[(self.kind)(place, segment)];
        let has = |row: &[u16]| row.iter().any(|&at| usize::from(at) == c);
        Ok(match kind {
            _ if has((self.tmcc)(tmcc_positions(mode, segment, kind))) => 3,
            _ if has(ac1_positions(mode, segment, kind)) => 4,
            _ if has(ac2_positions(mode, segment, kind)) => 5,
            SegmentKind::Coherent => u8::from((self.is_sp)(c, phase)),
            SegmentKind::Differential if c == 0 => 2,
            SegmentKind::Differential => 0,
        })
    }

    fn call(&self, mode: u8, phase: u8, kinds: &[u8], k: usize, role: &mut u8) -> u8 {
        write_answer(self.answer(mode, phase, kinds, k), |found| *role = found)
    }
}

/// Every how many-th layout is taken, where a mistake shows in most of them: a prime, so that phases and
/// kinds take turns.
const SPREAD: usize = 1021;

/// The mistake is found among every carrier of some layouts.
fn is_found_at_a_carrier(what: &str, port: Port) {
    let row = every_carrier(port, SPREAD);
    assert!(row.differences() > 0, "not found: {what}");
}

#[test]
fn the_rust_differs_nowhere_from_itself() {
    assert_eq!(found::<CarrierRoleCall>(RUST), None);
    let row = run::boundary::<CarrierRoleCall>(RUST, 1);
    assert_eq!(row.differences(), 0);
    // A layout of each mode: the Rust makes a map for each carrier.
    let row = every_carrier(RUST, 1 << 15);
    assert_eq!((row.cases(), row.differences()), (1405 + 2809 + 5617, 0));
}

#[test]
fn the_lookup_itself_is_right() {
    let right: Port = |mode, phase, kinds, k, role| RIGHT.call(mode, phase, kinds, k, role);
    assert_eq!(found::<CarrierRoleCall>(right), None);
    let row = run::boundary::<CarrierRoleCall>(right, 1);
    assert_eq!(row.differences(), 0);
    assert_eq!(every_carrier(right, SPREAD).differences(), 0);
}

/// Every call with the role of its right answer changed.
fn changed(call: (u8, u8, &[u8], usize), role: &mut u8, change: fn(u8) -> u8) -> u8 {
    let (mode, phase, kinds, k) = call;
    let answer = RIGHT.answer(mode, phase, kinds, k).map(change);
    write_answer(answer, |found| *role = found)
}

#[test]
fn wrong_places_are_found() {
    let place_as_number: Port = |mode, phase, kinds, k, role| {
        let lookup = Lookup {
            segment: |place| place,
            ..RIGHT
        };
        lookup.call(mode, phase, kinds, k, role)
    };
    is_found::<CarrierRoleCall>("the place taken for the segment's number", place_as_number);
    let by_place: Port = |mode, phase, kinds, k, role| {
        let lookup = Lookup {
            kind: |place, _| place,
            ..RIGHT
        };
        lookup.call(mode, phase, kinds, k, role)
    };
    is_found::<CarrierRoleCall>("kinds by place", by_place);
    let next: Port = |mode, phase, kinds, k, role| {
        let has_next = mode_of(mode).is_ok_and(|mode| k < mode.total_carriers() - 1);
        RUST(mode, phase, kinds, if has_next { k + 1 } else { k }, role)
    };
    is_found::<CarrierRoleCall>("the carrier next to it", next);
}

/// Borders are seldom met at random.
#[test]
fn wrong_borders_are_found() {
    let before: Port = |mode, phase, kinds, k, role| {
        let lookup = Lookup {
            split: |k, carriers| {
                let is_first = k % carriers == 0 && (1..SEGMENTS).contains(&(k / carriers));
                (RIGHT.split)(if is_first { k - 1 } else { k }, carriers)
            },
            ..RIGHT
        };
        lookup.call(mode, phase, kinds, k, role)
    };
    let no_edge: Port = |mode, phase, kinds, k, role| {
        changed((mode, phase, kinds, k), role, |role| match role {
            6 => 0,
            right => right,
        })
    };
    for (what, port) in [
        (
            "the first carrier of a segment taken for the last of the one before",
            before,
        ),
        ("the edge as data", no_edge),
    ] {
        is_found_at_boundary::<CarrierRoleCall>(what, port);
        is_found_at_a_carrier(what, port);
    }
}

#[test]
fn wrong_phases_are_found() {
    let not_times_3: Port = |mode, phase, kinds, k, role| {
        let lookup = Lookup {
            is_sp: |c, phase| c % 12 == phase,
            ..RIGHT
        };
        lookup.call(mode, phase, kinds, k, role)
    };
    is_found::<CarrierRoleCall>("the phase not times 3", not_times_3);
    is_found::<CarrierRoleCall>("the phase ignored", |mode, phase, kinds, k, role| {
        RUST(mode, if phase < 4 { 0 } else { phase }, kinds, k, role)
    });
    is_found::<CarrierRoleCall>("the phase after", |mode, phase, kinds, k, role| {
        let next = if phase < 4 { (phase + 1) % 4 } else { phase };
        RUST(mode, next, kinds, k, role)
    });
}

/// Few carriers have these roles.
#[test]
fn wrong_roles_are_found() {
    is_found_at_a_carrier("CP dropped", |mode, phase, kinds, k, role| {
        changed((mode, phase, kinds, k), role, |role| match role {
            2 => 0,
            right => right,
        })
    });
    is_found_at_a_carrier("AC2 taken for AC1", |mode, phase, kinds, k, role| {
        changed((mode, phase, kinds, k), role, |role| match role {
            5 => 4,
            right => right,
        })
    });
    let but_last: Port = |mode, phase, kinds, k, role| {
        let lookup = Lookup {
            tmcc: |row| &row[..row.len() - 1],
            ..RIGHT
        };
        lookup.call(mode, phase, kinds, k, role)
    };
    is_found_at_a_carrier("the last TMCC carrier of a segment not looked at", but_last);
}

#[test]
fn one_wrong_carrier_of_all_is_found() {
    // `compare --quick` takes every 17th layout; this one is among them.
    let port: Port = |mode, phase, kinds, k, role| {
        let code = RIGHT.call(mode, phase, kinds, k, role);
        if (mode, phase, k) == (2, 3, 2000) && kinds == kind_bytes(0b1_0000_0010_0000) {
            *role ^= 1;
        }
        code
    };
    let row = every_carrier(port, 17);
    let cases = 1928 * 1405 + 1928 * 2809 + 1927 * 5617;
    assert_eq!((row.cases(), row.differences()), (cases, 1));
    let smallest = row.smallest().expect("a failing call");
    let wanted =
        "carrier role: mode 2, phase 3, kinds \"CCCCCDCCCCCCD\" (13 kinds), carrier 2000\n";
    assert!(smallest.starts_with(wanted), "{smallest}");
}

#[test]
fn a_role_written_after_a_refusal_is_found() {
    let port: Port = |mode, phase, kinds, k, role| {
        let answer = answer(mode, phase, kinds, k);
        *role = answer.unwrap_or(0);
        answer.err().unwrap_or(0)
    };
    is_found::<CarrierRoleCall>("a role after a refusal", port);
    is_found_at_boundary::<CarrierRoleCall>("a role after a refusal", port);
}

/// The call, but for a carrier beyond the band, which is refused as soon as the mode is good.
fn carrier_first(mode: u8, phase: u8, kinds: &[u8], k: usize, role: &mut u8) -> u8 {
    match mode_of(mode) {
        Ok(mode) if k >= mode.total_carriers() => BAD_CARRIER,
        _ => RUST(mode, phase, kinds, k, role),
    }
}

#[test]
fn wrong_refusals_are_found() {
    is_found_at_boundary::<CarrierRoleCall>(
        "the carrier before the phase",
        |mode, phase, kinds, k, role| match kinds_of(kinds) {
            Ok(_) => carrier_first(mode, phase, kinds, k, role),
            Err(_) => RUST(mode, phase, kinds, k, role),
        },
    );
    is_found_at_boundary::<CarrierRoleCall>(
        "the carrier before the kinds",
        |mode, phase, kinds, k, role| match phase_of(phase) {
            Ok(_) => carrier_first(mode, phase, kinds, k, role),
            Err(_) => RUST(mode, phase, kinds, k, role),
        },
    );
    is_found_at_boundary::<CarrierRoleCall>(
        "one carrier too many",
        |mode, phase, kinds, k, role| {
            let beyond = mode_of(mode).is_ok_and(|mode| k == mode.total_carriers());
            RUST(mode, phase, kinds, if beyond { k - 1 } else { k }, role)
        },
    );
    is_found_at_boundary::<CarrierRoleCall>(
        "a carrier cut to 32 bits",
        |mode, phase, kinds, k, role| RUST(mode, phase, kinds, k & 0xffff_ffff, role),
    );
    is_found_at_boundary::<CarrierRoleCall>(
        "a phase taken modulo 4",
        |mode, phase, kinds, k, role| RUST(mode, phase % 4, kinds, k, role),
    );
}
