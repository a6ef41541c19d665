//! Mistakes in the continual list.

use crate::{found, is_found, is_found_at_boundary};
use oracle::codes::{BAD_LENGTH, kind_bytes};
use oracle::harness::call::Call;
use oracle::harness::run;
use oracle::isdb::params::SEGMENTS;
use oracle::ops::continual_list::{ContinualCall, Port, answer, every_one, write};
use sillurwy::ffi;

#[test]
fn the_rust_differs_nowhere_from_itself() {
    assert_eq!(found::<ContinualCall>(ContinualCall::RUST), None);
    let row = run::boundary::<ContinualCall>(ContinualCall::RUST, 1);
    assert_eq!(row.differences(), 0);
}

#[test]
fn wrong_lists_are_found() {
    is_found::<ContinualCall>("in place order", |mode, kinds, out, count| {
        let sorted = answer(mode, kinds, out.len()).map(|mut list| {
            list.sort_unstable();
            list
        });
        write(sorted, out, count)
    });
    is_found::<ContinualCall>("the edge left out", |mode, kinds, out, count| {
        let shorter = answer(mode, kinds, out.len()).map(|mut list| {
            list.pop();
            list
        });
        write(shorter, out, count)
    });
    is_found::<ContinualCall>(
        "the rest of the output cleared",
        |mode, kinds, out, count| {
            let code = (ContinualCall::RUST)(mode, kinds, out, count);
            if code == 0 {
                out[*count..].fill(0);
            }
            code
        },
    );
}

#[test]
fn a_count_invented_is_found() {
    is_found::<ContinualCall>("all of the output counted", |mode, kinds, out, count| {
        let code = (ContinualCall::RUST)(mode, kinds, out, count);
        if code == 0 {
            *count = out.len();
        }
        code
    });
    is_found::<ContinualCall>(
        "what is needed, after a refusal",
        |mode, kinds, out, count| {
            let code = (ContinualCall::RUST)(mode, kinds, out, count);
            if code == BAD_LENGTH {
                *count = answer(mode, kinds, usize::MAX).expect("a good call").len();
            }
            code
        },
    );
    is_found_at_boundary::<ContinualCall>("0 after a refusal", |mode, kinds, out, count| {
        let code = (ContinualCall::RUST)(mode, kinds, out, count);
        if code != 0 {
            *count = 0;
        }
        code
    });
}

#[test]
fn one_wrong_layout_of_all_is_found() {
    let port: Port = |mode, kinds, out, count| {
        let code = ffi::continual_list(mode, kinds, out, count);
        if (mode, kinds) == (1, &kind_bytes(0b0_0000_0000_0100)[..]) {
            out[0] ^= 1;
        }
        code
    };
    let rows = every_one(port);
    let counts = rows.each_ref().map(|row| (row.cases(), row.differences()));
    // Where the output is one short, the refusal must leave it.
    assert_eq!(counts, [(24_576, 1), (24_576, 1)]);
    let shown = "continual list: mode 1, kinds \"CCDCCCCCCCCCC\" (13 kinds), output of ";
    for row in rows {
        let smallest = row.smallest().expect("a failing call");
        assert!(smallest.starts_with(shown), "{smallest}");
    }
}

#[test]
fn wrong_refusals_are_found() {
    is_found_at_boundary::<ContinualCall>("exact room refused", |mode, kinds, out, count| {
        let roomy = out.len().saturating_sub(1);
        write(answer(mode, kinds, roomy), out, count)
    });
    is_found_at_boundary::<ContinualCall>("room for any kinds", |mode, kinds, out, count| {
        let most = answer(mode, &[1; SEGMENTS], out.len());
        write(
            answer(mode, kinds, out.len()).and_then(|list| most.map(|_| list)),
            out,
            count,
        )
    });
    is_found_at_boundary::<ContinualCall>("kinds before the mode", |mode, kinds, out, count| {
        let kinds_alone = answer(1, kinds, usize::MAX);
        let answer = kinds_alone.and_then(|_| answer(mode, kinds, out.len()));
        write(answer, out, count)
    });
}
