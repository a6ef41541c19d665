//! What the tables of the standard owe each other. A slip in their transcription would show here.

use oracle::codes::MODES;
use oracle::isdb::frame::{
    FrameLayout, SegmentKind, ac1_positions, ac2_positions, edge_w, prbs_segment_init, prbs_step,
    tmcc_positions,
};
use oracle::isdb::ofdm_params::{segment_at_position, segment_position};
use oracle::isdb::params::{Mode, SEGMENTS};
use oracle::isdb::tables::{CARRIER_RANDOMIZE_M1, CARRIER_RANDOMIZE_M2, CARRIER_RANDOMIZE_M3};

/// Carriers of a role in a segment.
type Positions = fn(Mode, usize, SegmentKind) -> &'static [u16];

const ROLES: [(&str, Positions); 3] = [
    ("TMCC", tmcc_positions),
    ("AC1", ac1_positions),
    ("AC2", ac2_positions),
];
const KINDS: [SegmentKind; 2] = [SegmentKind::Coherent, SegmentKind::Differential];
/// Carriers of a segment in mode 1.
const C: u16 = 108;

/// Calls `test` for every mode, segment and kind.
fn for_each_segment(test: impl Fn(Mode, usize, SegmentKind)) {
    for mode in MODES {
        for segment in 0..SEGMENTS {
            KINDS.iter().for_each(|&kind| test(mode, segment, kind));
        }
    }
}

#[test]
fn rows_ascend_and_lie_in_the_segment() {
    for_each_segment(|mode, segment, kind| {
        for (name, positions) in ROLES {
            let row = positions(mode, segment, kind);
            assert!(row.is_sorted_by(|a, b| a < b), "{name} {mode:?} {segment}");
            let inside = |&at: &u16| usize::from(at) < mode.carriers_per_segment();
            assert!(row.iter().all(inside), "{name} {mode:?} {segment}");
        }
    });
}

#[test]
fn ac1_is_the_same_in_both_kinds() {
    for_each_segment(|mode, segment, kind| {
        let coherent = ac1_positions(mode, segment, SegmentKind::Coherent);
        assert_eq!(ac1_positions(mode, segment, kind), coherent);
    });
}

#[test]
fn coherent_tmcc_is_part_of_differential_tmcc() {
    for_each_segment(|mode, segment, _| {
        let more = tmcc_positions(mode, segment, SegmentKind::Differential);
        let fewer = tmcc_positions(mode, segment, SegmentKind::Coherent);
        assert!(fewer.iter().all(|at| more.contains(at)));
    });
}

#[test]
fn no_two_roles_meet() {
    // `FrameLayout::new` goes through all phases and panics where two roles meet, or where a segment
    // has not its full count of data carriers.
    for mode in MODES {
        for kind in KINDS {
            FrameLayout::new(mode, [kind; SEGMENTS]);
        }
    }
}

/// The mode-1 rows of the places p·s .. p·s+s−1 (mod 13) laid end to end, where p is the segment's
/// place and s is 2 or 4. Carrier 0 of a part, a CP in mode 1, is an AC2 in all parts but the first.
fn row_from_mode_1(name: &str, positions: Positions, mode: Mode, segment: usize) -> [Vec<u16>; 2] {
    KINDS.map(|kind| {
        let starts_are_ac2 = name == "AC2" && kind == SegmentKind::Differential;
        let mut row = Vec::new();
        for part in 0..mode.scale() {
            let place = (segment_position(segment) * mode.scale() + part) % SEGMENTS;
            let start = C * part as u16;
            if starts_are_ac2 && part > 0 {
                row.push(start);
            }
            let part_row = positions(Mode::M1, segment_at_position(place), kind);
            row.extend(part_row.iter().map(|at| start + at));
        }
        row
    })
}

#[test]
fn rows_of_modes_2_and_3_are_rows_of_mode_1() {
    for mode in MODES {
        for segment in 0..SEGMENTS {
            for (name, positions) in ROLES {
                let rows = KINDS.map(|kind| positions(mode, segment, kind).to_vec());
                let wanted = row_from_mode_1(name, positions, mode, segment);
                assert_eq!(rows, wanted, "{name} {mode:?} {segment}");
            }
        }
    }
}

#[test]
fn one_register_runs_across_the_band() {
    for mode in MODES {
        let mut register = [1; 11];
        for place in 0..SEGMENTS {
            let segment = segment_at_position(place);
            assert_eq!(
                register,
                prbs_segment_init(mode, segment),
                "{mode:?} {place}"
            );
            for _ in 0..mode.carriers_per_segment() {
                prbs_step(&mut register);
            }
        }
        assert_eq!(prbs_step(&mut register), edge_w(mode));
    }
}

#[test]
fn randomising_tables_are_permutations() {
    let tables: [&[u16]; 3] = [
        &CARRIER_RANDOMIZE_M1,
        &CARRIER_RANDOMIZE_M2,
        &CARRIER_RANDOMIZE_M3,
    ];
    for (mode, table) in MODES.into_iter().zip(tables) {
        let mut sorted = table.to_vec();
        sorted.sort_unstable();
        let all: Vec<u16> = (0..mode.data_carriers_per_segment() as u16).collect();
        assert_eq!(sorted, all);
    }
}
