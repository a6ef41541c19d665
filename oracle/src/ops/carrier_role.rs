//! The carrier role: the role of one carrier, without a map.

use super::Operation;
use super::role_map::roles;
use crate::codes::{
    BAD_CARRIER, Kinds, MODES, kind_bytes, kinds_of, kinds_of_choice, mode_of, phase_of, role_byte,
};
use crate::harness::call::{Call, Unfilled, accept, write_answer};
use crate::harness::lent::{Lent, Shown};
use crate::harness::outcome::{Compared, Outcome};
use crate::harness::rng::Rng;
use crate::harness::run::{self, Plan};
use crate::harness::stored::Record;
use crate::harness::tally::{Row, Tally};
use crate::harness::timed_values::{agree, value_row};
use crate::harness::timing::{self, Effort};
use crate::inputs::arguments::{
    MODE_NUMBERS, boundary_carriers, random_carrier, random_kinds, random_mode, random_phase,
    readable, size,
};
use crate::inputs::layouts::{self, boundary_layouts, stored_layouts};
use crate::inputs::timed_layouts::{Input, inputs, of_modes};
use crate::isdb::frame::FrameLayout;
use crate::isdb::params::{Mode, SEGMENTS};
use sillurwy::ffi;
use std::collections::BTreeSet;
use std::fmt;
use std::hint::black_box;

pub const OPERATION: Operation = Operation {
    name: "carrier_role",
    number: Some(19),
    part: "layout",
    streams: &[CarrierRoleCall::STREAM],
    compare,
    bench,
    stored,
};

// ---- The operation

/// Mode, phase, kinds, carrier; role.
pub type Port = fn(u8, u8, &[u8], usize, &mut u8) -> u8;

/// A call. In the order of calls, low numbers and coherent segments come first.
#[derive(Debug, Clone, PartialEq, Eq, PartialOrd, Ord)]
pub struct CarrierRoleCall {
    /// Mode.
    pub mode: u8,
    /// Phase.
    pub phase: u8,
    /// Kinds.
    pub kinds: Vec<u8>,
    /// Carrier.
    pub k: usize,
}

/// Mode, phase and kinds of a call that is accepted.
pub fn accepted(mode: u8, phase: u8, kinds: &[u8], k: usize) -> Result<(Mode, usize, Kinds), u8> {
    let mode = mode_of(mode)?;
    let kinds = kinds_of(kinds)?;
    let phase = phase_of(phase)?;
    accept(k < mode.total_carriers(), BAD_CARRIER)?;
    Ok((mode, phase, kinds))
}

/// The role byte: the Rust has it in a whole map alone.
pub fn answer(mode: u8, phase: u8, kinds: &[u8], k: usize) -> Result<u8, u8> {
    let (mode, phase, kinds) = accepted(mode, phase, kinds, k)?;
    Ok(roles(&FrameLayout::new(mode, kinds), phase)[k])
}

fn rust(mode: u8, phase: u8, kinds: &[u8], k: usize, role: &mut u8) -> u8 {
    write_answer(answer(mode, phase, kinds, k), |found| *role = found)
}

impl fmt::Display for CarrierRoleCall {
    fn fmt(&self, f: &mut fmt::Formatter<'_>) -> fmt::Result {
        let Self {
            mode,
            phase,
            kinds,
            k,
        } = self;
        let kinds = readable(kinds);
        write!(
            f,
            "carrier role: mode {mode}, phase {phase}, kinds {kinds}, carrier {k}"
        )
    }
}

// ---- The calls that are compared

/// The carriers around the last one and far off, and in a good mode both sides of each border between
/// two segments.
fn carriers_at_borders(mode: u8) -> Vec<usize> {
    let mut carriers = boundary_carriers(mode);
    if let Ok(mode) = mode_of(mode) {
        let first = |place| place * mode.carriers_per_segment();
        carriers.extend((1..SEGMENTS).flat_map(|place| [first(place) - 1, first(place)]));
        // The last carrier of the last segment, which has the edge after it.
        carriers.push(first(SEGMENTS) - 1);
    }
    carriers
}

impl Call for CarrierRoleCall {
    const TITLE: &'static str = "carrier role";
    const STREAM: u64 = 105;
    type Port = Port;
    const LINKED: Port = ffi::carrier_role;
    const RUST: Port = rust;

    fn run(&self, port: Port, salt: u64) -> Outcome {
        let answer = answer(self.mode, self.phase, &self.kinds, self.k);
        let mut role = Lent::one(salt);
        let kinds = Shown::new(&self.kinds);
        let given = port(self.mode, self.phase, kinds.slice(), self.k, role.entry());
        let compared = Compared::of_code(given, &answer)
            .lent(&role, "role", &answer, |&found| vec![found])
            .shown(&kinds, "kinds");
        Outcome::of(&answer, compared)
    }

    fn boundary() -> Vec<Unfilled<Self>> {
        let calls = |mode| {
            boundary_layouts(&carriers_at_borders(mode), |phase, kinds, k| Self {
                mode,
                phase,
                kinds,
                k,
            })
        };
        MODE_NUMBERS.into_iter().flat_map(calls).collect()
    }

    fn random(rng: &mut Rng) -> Self {
        let mode = random_mode(rng);
        Self {
            mode,
            phase: random_phase(rng),
            kinds: random_kinds(rng),
            k: random_carrier(rng, size(mode, Mode::total_carriers)),
        }
    }
}

/// A byte to lend, the one in the middle, and one on each side that must stay. None of them is a role.
const LENT: [u8; 3] = [0xa5, 0xc3, 0x96];

/// The difference between what a call of the port gave and left, and the role that is wanted.
fn difference(wanted: u8, code: u8, lent: [u8; 3]) -> Option<String> {
    let [before, _, after] = LENT;
    let (oracle, port) = ((0, [before, wanted, after]), (code, lent));
    (port != oracle).then(|| {
        format!("code, and role between two bytes to be left: oracle {oracle:?}, port {port:?}")
    })
}

/// Every carrier of one layout, beside the Rust's role map, which is made once for all of them. There are
/// hundreds of millions of these calls, so that nothing else is made unless there is a difference.
fn carriers_of(port: Port, index: usize, tally: &mut Tally<CarrierRoleCall>) {
    let (layout, choice, phase) = layouts::with_phase(index);
    let (mode, kinds) = (layout.mode.number(), kind_bytes(choice));
    let map = roles(&layout, usize::from(phase));
    for (k, &wanted) in map.iter().enumerate() {
        let mut lent = LENT;
        let code = port(mode, phase, &kinds, k, &mut lent[1]);
        let difference = difference(wanted, code, black_box(lent));
        tally.count(false, difference, || CarrierRoleCall {
            mode,
            phase,
            kinds: kinds.to_vec(),
            k,
        });
    }
}

/// Every carrier of every `spread`-th layout.
pub fn every_carrier(port: Port, spread: usize) -> Row {
    let count = layouts::WITH_PHASES.div_ceil(spread);
    let tally = run::count_cases(count, |index, tally| {
        carriers_of(port, index * spread, tally)
    });
    tally.row("carrier role, every carrier")
}

/// Random calls for each one of the plan: at least 20,000 are asked for of this operation, and a plan has
/// 4096 unless it is told otherwise.
const TIMES: usize = 5;

fn compare(plan: &Plan) -> Vec<Row> {
    vec![
        every_carrier(CarrierRoleCall::LINKED, plan.spread),
        run::boundary::<CarrierRoleCall>(CarrierRoleCall::LINKED, plan.seed),
        run::random::<CarrierRoleCall>(CarrierRoleCall::LINKED, plan.seed, TIMES * plan.calls),
    ]
}

// ---- The benchmark

/// A carrier, and the phase and kinds with which it is asked for.
type Asked<'a> = (usize, &'a Input);

/// Every `step`-th carrier of the band, with phases and kinds in turn.
fn asked(mode: Mode, step: usize, inputs: &[Input]) -> Vec<Asked<'_>> {
    let carriers = (0..mode.total_carriers()).step_by(step);
    carriers.zip(inputs.iter().cycle()).collect()
}

/// The port's lookup beside another way to the role, timed for each carrier. Each answer is first seen to
/// be accepted and to agree.
fn row_beside(
    part: &'static str,
    mode: Mode,
    asked: &[Asked<'_>],
    effort: &Effort,
    mut other: impl FnMut(Asked<'_>) -> u8,
) -> timing::Row {
    let number = mode.number();
    let port = |(k, input): Asked<'_>| {
        let mut role = 0;
        let code = ffi::carrier_role(black_box(number), input.phase, &input.bytes, k, &mut role);
        assert_eq!(code, 0, "the carrier role is accepted");
        u64::from(role)
    };
    let mut other = |asked: Asked<'_>| u64::from(other(asked));
    agree(asked, port, &mut other);
    // The other ways take so long that once through the carriers is enough for a round.
    let effort = Effort {
        calls: 1,
        ..*effort
    };
    let operation = format!("carrier role, mode {number}");
    value_row(operation, part, asked, &effort, port, other)
}

/// The Rust makes a layout for each carrier, so that few are asked for beside it, which lie so far apart:
/// 131 in mode 3. Neither twelve nor the carriers of a segment have a factor in common with it, so that
/// carriers of all sorts are among them.
const FAR_APART: usize = 43;

/// Beside the Rust's only way, and beside a byte of the port's own role map.
fn mode_rows(mode: Mode, effort: &Effort) -> Vec<timing::Row> {
    let inputs = inputs();
    let mut map = vec![0; mode.total_carriers()];
    vec![
        row_beside(
            "`FrameLayout::new` and `.roles(phase)[k]`",
            mode,
            &asked(mode, FAR_APART, &inputs),
            effort,
            |(k, input)| {
                let layout = FrameLayout::new(black_box(mode), input.kinds);
                role_byte(layout.roles(usize::from(input.phase))[k])
            },
        ),
        row_beside(
            "the port's own role map, byte k",
            mode,
            &asked(mode, 1, &inputs),
            effort,
            |(k, input)| {
                let number = black_box(mode.number());
                let code = ffi::role_map(number, input.phase, &input.bytes, &mut map);
                assert_eq!(code, 0, "the role map is accepted");
                map[k]
            },
        ),
    ]
}

fn bench(effort: &Effort) -> Vec<timing::Row> {
    of_modes(|mode| mode_rows(mode, effort))
}

// ---- Stored answers

fn record(mode: u8, phase: u8, kinds: &[u8], k: usize) -> Record {
    let answer = answer(mode, phase, kinds, k);
    Record::of(&answer)
        .number(mode)
        .number(phase)
        .number(k)
        .bytes(kinds)
        .written(&answer, |&found| vec![found])
}

/// Carriers that are stored of each layout.
const STORED: usize = 30;

/// The first carrier of the band and its last two, both sides of some borders between segments, one of
/// every role that the layout has, and random ones.
fn stored_carriers(rng: &mut Rng, mode: Mode, map: &[u8]) -> BTreeSet<usize> {
    let mut carriers = BTreeSet::from([0, map.len() - 2, map.len() - 1]);
    for _ in 0..4 {
        let first = (1 + rng.below(SEGMENTS - 1)) * mode.carriers_per_segment();
        carriers.extend([first - 1, first]);
    }
    for role in 0..=6 {
        let of_role: Vec<usize> = (0..map.len()).filter(|&k| map[k] == role).collect();
        if !of_role.is_empty() {
            carriers.insert(*rng.pick(&of_role));
        }
    }
    while carriers.len() < STORED {
        carriers.insert(rng.below(map.len()));
    }
    carriers
}

/// Carriers of every mode and phase twice; and refused by each number, with what is tested later bad too
/// in some calls, and good in others.
fn stored(rng: &mut Rng) -> Vec<Record> {
    let mut records = Vec::new();
    for (mode, phase, choice) in stored_layouts(rng) {
        let layout = FrameLayout::new(mode, kinds_of_choice(choice));
        let map = roles(&layout, usize::from(phase));
        let carriers = stored_carriers(rng, mode, &map).into_iter();
        let kinds = kind_bytes(choice);
        records.extend(carriers.map(|k| record(mode.number(), phase, &kinds, k)));
    }
    let good = kind_bytes(rng.choice());
    let bad = [2; SEGMENTS];
    records.extend([
        record(0, 4, &bad, 65_535),
        record(4, 4, &good, 5617),
        record(255, 0, &good, 0),
        record(1, 4, &bad, 65_535),
        record(2, 0, &good[..12], 2809),
        record(3, 3, &[0; SEGMENTS + 1], 5616),
        record(1, 4, &good, 65_535),
        record(2, 255, &good, 2809),
        record(3, 4, &good, 5616),
    ]);
    for mode in MODES {
        let total = mode.total_carriers();
        let beyond = [total, total + 1, 65_535];
        records.extend(beyond.map(|k| record(mode.number(), 3, &good, k)));
    }
    records
}

#[cfg(test)]
mod tests {
    use super::*;

    /// How many calls are accepted: those of 24 layouts.
    const ACCEPTED: usize = 24 * STORED;

    #[test]
    fn every_refusal_is_stored() {
        let records = stored(&mut Rng::new(1));
        let codes: Vec<u8> = records.iter().map(Record::code).collect();
        assert_eq!(codes[..ACCEPTED], [0; ACCEPTED]);
        let refused = [1, 1, 1, 2, 2, 2, 3, 3, 3, 4, 4, 4, 4, 4, 4, 4, 4, 4];
        assert_eq!(codes[ACCEPTED..], refused);
    }

    /// The roles that a layout of these kinds has.
    fn roles_of(kinds: &[u8]) -> BTreeSet<u8> {
        let everywhere = [0, 3, 4, 6];
        let of_kind = |&kind: &u8| match kind {
            0 => &[1][..],
            _ => &[2, 5],
        };
        let of_kinds = kinds.iter().flat_map(of_kind).copied();
        everywhere.into_iter().chain(of_kinds).collect()
    }

    #[test]
    fn every_role_of_each_layout_is_stored() {
        for seed in 1..20 {
            let records = stored(&mut Rng::new(seed));
            for of_layout in records[..ACCEPTED].chunks(STORED) {
                let roles = of_layout.iter().map(|record| record.answer()[3]);
                let kinds = &of_layout[0].stored(19)[22..22 + SEGMENTS];
                assert_eq!(roles.collect::<BTreeSet<u8>>(), roles_of(kinds));
            }
        }
    }

    #[test]
    fn stored_answers_are_small_and_begin_with_the_first_carrier() {
        let records = stored(&mut Rng::new(1));
        let bytes: usize = records.iter().map(|record| record.stored(19).len()).sum();
        assert!(bytes < 60_000, "{bytes}");
        let head = [
            19, 0, 1, 0, 0, 0, 0, 0, 0, 0, 0, 0, 0, 0, 13, 0, 0, 0, 0, 0, 1, 0,
        ];
        // Thirteen coherent segments: in phase 0 the first carrier is a scattered pilot.
        let wanted = [&head[..], &[0; SEGMENTS], &[1, 0, 0, 1]].concat();
        assert_eq!(records[0].stored(19), wanted);
    }

    #[test]
    fn what_is_lent_and_the_bytes_beside_it_are_compared() {
        let [before, held, after] = LENT;
        assert_eq!(difference(3, 0, [before, 3, after]), None);
        let others = [
            (1, [before, 3, after]),
            (0, [before, 4, after]),
            (0, [before, held, after]),
            (0, [3, 3, after]),
            (0, [before, 3, 3]),
        ];
        for (code, lent) in others {
            assert!(difference(3, code, lent).is_some(), "{code} {lent:?}");
        }
    }
}
