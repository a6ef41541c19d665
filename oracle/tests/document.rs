//! The checked values and the sample output of the requirement, on the oracle itself.

use oracle::codes::{KINDS, MODES, kind_bytes, kinds_of_choice};
use oracle::inputs::questions::every_question;
use oracle::isdb::frame::{FrameLayout, PILOT_AMPLITUDE, pilot_value};
use oracle::isdb::ofdm_params::{segment_at_position, segment_position};
use oracle::isdb::params::{GuardInterval, Mode, SEGMENTS};
use oracle::ops::segments::{answer, lines};
use oracle::ops::{carrier_bin, continual_list, data_list, role_map, sign_map};

/// Kind bytes with only the given segment differential.
fn only_differential(segment: usize) -> [u8; SEGMENTS] {
    kind_bytes(1 << segment)
}

#[test]
fn sizes_of_the_modes() {
    let sizes = MODES.map(|mode| {
        [
            mode.fft_size(),
            mode.carriers_per_segment(),
            mode.data_carriers_per_segment(),
            mode.total_carriers(),
        ]
    });
    let wanted = [
        [2048, 108, 96, 1405],
        [4096, 216, 192, 2809],
        [8192, 432, 384, 5617],
    ];
    assert_eq!(sizes, wanted);
    assert_eq!(GuardInterval::G1_32.samples(Mode::M1), 64);
}

#[test]
fn bins_of_mode_1() {
    assert_eq!(carrier_bin::answer(1, 0), Ok(1346));
    assert_eq!(carrier_bin::answer(1, 702), Ok(0));
    assert_eq!(carrier_bin::answer(1, 1404), Ok(702));
    assert_eq!(carrier_bin::answer(1, 1405), Err(4));
    assert_eq!(carrier_bin::answer(0, 1405), Err(1));
}

#[test]
fn roles_of_mode_1() {
    let roles = role_map::answer(1, 0, &[0; 13], 1405).unwrap();
    assert_eq!([648, 683, 697].map(|k| roles[k]), [1, 4, 3]);
    assert_eq!(roles[1404], 6);
    let roles = role_map::answer(1, 0, &only_differential(0), 1405).unwrap();
    assert_eq!([648, 651].map(|k| roles[k]), [2, 5]);
}

#[test]
fn signs_of_mode_1() {
    let signs = sign_map::answer(1, 1405).unwrap();
    let start = [[1; 11].as_slice(), &[0; 9], &[1; 2]].concat();
    assert_eq!(signs[..22], start);
    assert_eq!(signs[1404], 1);
    assert_eq!(pilot_value(0).re, PILOT_AMPLITUDE);
    assert_eq!(pilot_value(1).re, -PILOT_AMPLITUDE);
}

#[test]
fn signs_are_those_of_the_layout() {
    for mode in MODES {
        let layout = FrameLayout::new(mode, kinds_of_choice(0));
        assert_eq!(sign_map::signs(mode), layout.w);
    }
}

#[test]
fn refusals_come_in_their_order() {
    let bad_kinds = [2; 13];
    assert_eq!(role_map::answer(0, 4, &bad_kinds, 0), Err(1));
    assert_eq!(role_map::answer(1, 4, &bad_kinds, 0), Err(2));
    assert_eq!(role_map::answer(1, 4, &[0; 13], 0), Err(3));
    assert_eq!(role_map::answer(1, 3, &[0; 13], 0), Err(7));
    assert_eq!(data_list::answer(0, 4, &bad_kinds, 0), Err(1));
    assert_eq!(data_list::answer(1, 4, &bad_kinds, 0), Err(2));
    assert_eq!(data_list::answer(1, 4, &[0; 13], 0), Err(3));
    assert_eq!(data_list::answer(1, 3, &[0; 13], 1247), Err(7));
    assert_eq!(continual_list::answer(0, &bad_kinds, 0), Err(1));
    assert_eq!(continual_list::answer(1, &bad_kinds, 0), Err(2));
    assert_eq!(continual_list::answer(1, &[0; 13], 39), Err(7));
    assert!(continual_list::answer(1, &[0; 13], 40).is_ok());
    assert_eq!(sign_map::answer(4, 0), Err(1));
    assert_eq!(sign_map::answer(3, 2809), Err(7));
}

#[test]
fn segments_from_the_lowest_place() {
    let order: Vec<usize> = (0..SEGMENTS).map(segment_at_position).collect();
    assert_eq!(order, [11, 9, 7, 5, 3, 1, 0, 2, 4, 6, 8, 10, 12]);
    for place in 0..SEGMENTS {
        assert_eq!(segment_position(segment_at_position(place)), place);
    }
}

const SAMPLE: &str = "\
0,11,C,0,96,9,0,1,2,0
1,9,C,108,96,9,0,1,2,0
2,7,C,216,96,9,0,1,2,0
3,5,C,324,96,9,0,1,2,0
4,3,C,432,96,9,0,1,2,0
5,1,C,540,96,9,0,1,2,0
6,0,C,648,96,9,0,1,2,0
7,2,C,756,96,9,0,1,2,0
8,4,C,864,96,9,0,1,2,0
9,6,C,972,96,9,0,1,2,0
10,8,C,1080,96,9,0,1,2,0
11,10,C,1188,96,9,0,1,2,0
12,12,C,1296,96,9,0,1,2,0
13,E,E,1404,0,0,0,0,0,0
";

#[test]
fn sample_of_the_segment_list() {
    assert_eq!(answer(b"1,0,CCCCCCCCCCCCC"), SAMPLE);
}

#[test]
fn a_differential_segment_in_the_segment_list() {
    let printed = answer(b"3,2,DCCCCCCCCCCCC");
    assert_eq!(printed.lines().nth(6), Some("6,0,D,2592,384,0,1,20,8,19"));
    assert_eq!(printed.lines().nth(7), Some("7,2,C,3024,384,36,0,4,8,0"));
}

#[test]
fn refused_lines() {
    let refused = |line: &[u8], number| {
        assert_eq!(answer(line), format!("refused,{number}\n"));
    };
    refused(b"", 11);
    refused(b"1,0,CCCCCCCCCCCC", 11);
    refused(b"1,0,CCCCCCCCCCCCCC", 11);
    refused(b"1,0,CCCCCCCCCCCCC\r", 11);
    refused(b"1,0,CCCCCCCCCCCCc", 11);
    refused(b"1;0,CCCCCCCCCCCCC", 11);
    refused(b"9,9,CCCCCCCCCCCCX", 11);
    refused(b"x,0,CCCCCCCCCCCCC", 11);
    refused(b"0,9,CCCCCCCCCCCCC", 1);
    refused(b"4,0,CCCCCCCCCCCCC", 1);
    refused(b"3,4,CCCCCCCCCCCCC", 3);
}

#[test]
fn lines_of_an_input() {
    let none: [&[u8]; 0] = [];
    assert_eq!(lines(b""), none);
    assert_eq!(lines(b"\n"), [b""]);
    assert_eq!(lines(b"a"), [b"a"]);
    assert_eq!(lines(b"a\n"), [b"a"]);
    assert_eq!(lines(b"a\n\nb"), [b"a".as_slice(), b"", b"b"]);
}

#[test]
fn every_question_is_asked_once() {
    let mut questions = every_question();
    assert_eq!(questions.len(), 3 * 4 * usize::from(KINDS));
    assert!(questions.iter().all(|line| line.len() == 17));
    questions.sort_unstable();
    questions.dedup();
    assert_eq!(questions.len(), 98_304);
}
