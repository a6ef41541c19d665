//! The operations, a file each: how it is called, what the oracle answers with the refusals in front,
//! the calls that are compared, its rows of the benchmark, its stored answers. The programs `compare`,
//! `bench` and `store` go through [`OPERATIONS`] and know no operation by its name.

pub mod angle;
pub mod bin_ratio;
pub mod carrier_bin;
pub mod carrier_role;
pub mod cfo_frac;
pub mod continual_list;
pub mod data_list;
pub mod detect_kinds;
pub mod detect_mode;
pub mod detect_sp_phase;
pub mod estimate_grid;
pub mod frame_start;
pub mod integer_cfo;
pub mod narrow;
pub mod norm32;
pub mod norm64;
pub mod role_map;
pub mod root;
pub mod samples_needed;
pub mod segments;
pub mod sign_map;
pub mod tmcc_soft;

use crate::harness::args::Args;
use crate::harness::rng::Rng;
use crate::harness::run::Plan;
use crate::harness::stored::Record;
use crate::harness::tally;
use crate::harness::timing::{self, Effort};

/// What the programs do with an operation.
#[derive(Debug, Clone, Copy)]
pub struct Operation {
    /// The C function's name without its prefix, or the program's.
    pub name: &'static str,
    /// The C function's number in the stored answers, from 1 on without a gap; none of a program, whose
    /// answers are stored beside it.
    pub number: Option<u8>,
    /// The part of the requirement that it belongs to; `--only` takes either name.
    pub part: &'static str,
    /// The streams of the random numbers with which it is compared. No two operations share one.
    pub streams: &'static [u64],
    /// Compares the linked operation with the Rust.
    pub compare: fn(&Plan) -> Vec<tally::Row>,
    /// Times it beside the Rust.
    pub bench: fn(&Effort) -> Vec<timing::Row>,
    /// Its stored answers, from random numbers of its own.
    pub stored: fn(&mut Rng) -> Vec<Record>,
}

/// Every operation, part by part.
pub const OPERATIONS: [Operation; 22] = [
    carrier_bin::OPERATION,
    role_map::OPERATION,
    carrier_role::OPERATION,
    sign_map::OPERATION,
    data_list::OPERATION,
    continual_list::OPERATION,
    samples_needed::OPERATION,
    detect_mode::OPERATION,
    bin_ratio::OPERATION,
    integer_cfo::OPERATION,
    detect_kinds::OPERATION,
    tmcc_soft::OPERATION,
    detect_sp_phase::OPERATION,
    frame_start::OPERATION,
    estimate_grid::OPERATION,
    root::OPERATION,
    narrow::OPERATION,
    norm32::OPERATION,
    norm64::OPERATION,
    angle::OPERATION,
    cfo_frac::OPERATION,
    segments::OPERATION,
];

/// The operations that the word after `--only` names: those of a part, or one. Another word ends
/// the program.
pub fn only(args: &mut Args) -> Vec<Operation> {
    let word = args.value("--only");
    let is_named = |operation: &Operation| word == operation.part || word == operation.name;
    let named: Vec<Operation> = OPERATIONS.into_iter().filter(is_named).collect();
    if named.is_empty() {
        let mut parts = OPERATIONS.map(|operation| operation.part).to_vec();
        parts.dedup();
        let names = OPERATIONS.map(|operation| operation.name).join(", ");
        let parts = parts.join(", ");
        args.fail(format!(
            "--only needs a part ({parts}) or an operation ({names}), not {word}"
        ));
    }
    named
}

/// The C functions and their numbers, in the order of the numbers.
fn numbered() -> Vec<(u8, Operation)> {
    let with_number = |operation: Operation| Some((operation.number?, operation));
    let mut numbered: Vec<_> = OPERATIONS.into_iter().filter_map(with_number).collect();
    numbered.sort_unstable_by_key(|&(number, _)| number);
    numbered
}

/// The stored answers of all operations.
pub fn stored(seed: u64) -> Vec<u8> {
    let mut out = Vec::new();
    for (number, operation) in numbered() {
        let mut rng = Rng::for_case(seed, u64::from(number), 0);
        for record in (operation.stored)(&mut rng) {
            out.extend(record.stored(number));
        }
    }
    out
}

#[cfg(test)]
mod tests {
    use super::*;
    use std::time::Duration;

    /// The items, each once.
    fn distinct<T: Ord>(items: impl IntoIterator<Item = T>) -> Vec<T> {
        let mut items: Vec<T> = items.into_iter().collect();
        items.sort_unstable();
        items.dedup();
        items
    }

    #[test]
    fn names_are_distinct() {
        let names = OPERATIONS.map(|operation| operation.name);
        assert_eq!(distinct(names).len(), names.len());
        // `--only` takes a part's name too. An operation may have it if it is all of the part.
        for name in names {
            let of_part = OPERATIONS.iter().filter(|row| row.part == name);
            assert!(of_part.clone().all(|row| row.name == name), "{name}");
        }
    }

    #[test]
    fn numbers_have_no_gap() {
        let numbered = numbered().into_iter();
        let numbers: Vec<usize> = numbered.map(|(number, _)| number.into()).collect();
        assert_eq!(numbers, (1..=numbers.len()).collect::<Vec<_>>());
    }

    #[test]
    fn streams_are_distinct() {
        let streams = OPERATIONS.map(|operation| operation.streams).concat();
        assert_eq!(distinct(streams.iter().copied()).len(), streams.len());
        // Boundaries have stream 0, stored answers those of the operations' numbers.
        let numbers = 0..=OPERATIONS.len() as u64;
        assert!(streams.iter().all(|stream| !numbers.contains(stream)));
        let none = OPERATIONS.iter().find(|row| row.streams.is_empty());
        assert!(none.is_none(), "{none:?}");
    }

    #[test]
    fn every_c_function_has_a_row() {
        let header = include_str!("../../../include/sillurwy.h");
        let declared = |line: &'static str| {
            let (before, _) = line.split_once('(')?;
            let (kind, name) = before.split_once(" sillurwy_")?;
            ["uint8_t", "int32_t", "float", "double"]
                .contains(&kind)
                .then_some(name)
        };
        let functions = distinct(header.lines().filter_map(declared));
        assert!(functions.len() >= 21, "{functions:?}");
        let rows = distinct(numbered().into_iter().map(|(_, row)| row.name));
        assert_eq!(functions, rows);
    }

    /// The rows of each operation of a part, with the least effort: what the benchmark asserts of the
    /// answers holds.
    fn timed(part: &str) -> Vec<(&'static str, Vec<String>)> {
        let least = Effort {
            rounds: 1,
            round: Duration::ZERO,
            calls: 1,
        };
        let rows = |row: &Operation| {
            let rows = (row.bench)(&least).into_iter();
            (row.name, rows.map(|row| row.operation).collect())
        };
        let of_part = OPERATIONS.iter().filter(|row| row.part == part);
        of_part.map(rows).collect()
    }

    #[test]
    fn layouts_are_timed_in_each_mode() {
        let layouts = timed("layout");
        assert!(layouts.len() >= 6);
        for (name, rows) in layouts {
            let of_mode = |number: u8| {
                let mode = format!(", mode {number}");
                rows.iter().filter(|row| row.ends_with(&mode)).count()
            };
            let [first, second, third] = [1, 2, 3].map(of_mode);
            assert!(
                !rows.is_empty() && first == second && first == third,
                "{name}: it has no rows, or more in one mode than in another: {rows:?}"
            );
        }
    }

    #[test]
    fn functions_of_floats_are_timed() {
        let functions = timed("floats");
        assert!(functions.len() >= 6);
        for (name, rows) in functions {
            let named = |row: &String| row.starts_with(&format!("{name}, "));
            assert!(
                !rows.is_empty() && rows.iter().all(named),
                "{name}: it has no rows, or one that does not begin with its name: {rows:?}"
            );
        }
    }

    #[test]
    fn parts_lie_together() {
        let parts = OPERATIONS.map(|operation| operation.part);
        let mut stretches = parts.to_vec();
        stretches.dedup();
        assert_eq!(stretches.len(), distinct(parts).len());
    }
}
