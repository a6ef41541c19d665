//! Every wrapper, compared with the stored answers of the oracle (oracle/README.md has their form).

use sillurwy::frame::CarrierRole;
use sillurwy::params::{kinds_from_codes, GuardInterval, Mode, Phase, SegmentKind};
use sillurwy::pilot_phase::PilotPhase;
use sillurwy::{
    angle, carrier_lists, carrier_role, cfo_frac, chanest, complex, frame, frame_start, guess,
    ieee, ofdm, pilot_phase, prbs, ratio, segment_kinds, shift, tmcc, Refusal,
};
use std::array::from_fn;
use std::fs;
use std::path::Path;

/// The operations, by their numbers, which count from 1; how many things each is lent to be written.
const OPERATIONS: [(&str, usize); 21] = [
    ("carrier_bin", 1),
    ("role_map", 1),
    ("sign_map", 1),
    ("data_list", 1),
    ("continual_list", 2),
    ("samples_needed", 1),
    ("detect_mode", 8),
    ("integer_cfo", 3),
    ("detect_kinds", 3),
    ("tmcc_soft", 1),
    ("detect_sp_phase", 5),
    ("estimate_grid", 1),
    ("root", 1),
    ("narrow", 1),
    ("norm32", 1),
    ("norm64", 1),
    ("frame_start", 3),
    ("bin_ratio", 1),
    ("carrier_role", 1),
    ("angle", 1),
    ("cfo_frac", 1),
];

/// What is not read yet of the stored answers.
struct Stored<'a>(&'a [u8]);

impl<'a> Stored<'a> {
    fn take(&mut self, len: usize) -> &'a [u8] {
        let split = self.0.split_at_checked(len);
        let (taken, rest) = split.expect("the file ends where a record does");
        self.0 = rest;
        taken
    }

    /// A number of some bytes, the low one first.
    fn number(&mut self, len: usize) -> u64 {
        let bytes = self.take(len).iter().rev();
        bytes.fold(0, |value, &byte| value << 8 | u64::from(byte))
    }

    fn sizes<const N: usize>(&mut self) -> [usize; N] {
        from_fn(|_| self.number(2) as usize)
    }
}

/// A stored call; its answer follows it.
struct Record {
    operation: usize,
    code: u8,
    numbers: [usize; 4],
    lent: [usize; 2],
    lists: [Vec<u8>; 2],
    floats: Vec<f32>,
    wide: Vec<u64>,
}

impl Record {
    fn read(stored: &mut Stored) -> Record {
        let (operation, code) = (stored.number(1) as usize, stored.number(1) as u8);
        let (numbers, lent, lists) = (stored.sizes(), stored.sizes(), stored.sizes::<2>());
        let [floats] = stored.sizes();
        let (width, wide) = (stored.number(1) as usize, stored.number(1));
        Record {
            operation,
            code,
            numbers,
            lent,
            lists: lists.map(|len| stored.take(len).to_vec()),
            floats: (0..floats)
                .map(|_| match width {
                    1 => stored.number(1) as f32 - 128.0,
                    4 => f32::from_bits(stored.number(4) as u32),
                    width => panic!("a float has 1 or 4 bytes, and not {width}"),
                })
                .collect(),
            wide: (0..wide).map(|_| stored.number(8)).collect(),
        }
    }

    fn byte(&self, argument: usize) -> u8 {
        u8::try_from(self.numbers[argument]).expect("it is a byte")
    }

    /// What a call is lent to be written, of a length that is stored.
    fn buffer<T: Entry>(&self, lent: usize) -> Vec<T> {
        vec![T::HELD; self.lent[lent]]
    }
}

/// An entry of what is written: its stored bytes, and what it is before a call.
trait Entry: Copy {
    const BYTES: usize;
    const HELD: Self;
    fn bits(self) -> u64;
}

macro_rules! entry {
    ($of:ty, $bytes:literal, $held:literal, $value:ident => $bits:expr) => {
        impl Entry for $of {
            const BYTES: usize = $bytes;
            const HELD: Self = $held;
            fn bits(self) -> u64 {
                let $value = self;
                $bits
            }
        }
    };
}

entry!(u8, 1, 77, x => x.into());
entry!(u32, 4, 77, x => x.into());
entry!(usize, 4, 77, x => x as u64);
entry!(i64, 8, 77, x => x as u64);
// All NaNs are alike: this one is stored for them.
entry!(f32, 4, 77.0, x => if x.is_nan() { 0x7fc0_0000 } else { x.to_bits().into() });
entry!(f64, 8, 77.0, x => if x.is_nan() { 0x7ff8_0000_0000_0000 } else { x.to_bits() });

/// Something that was lent to be written, after the call.
struct Lent {
    bytes: usize,
    held: u64,
    entries: Vec<u64>,
}

fn list<T: Entry>(entries: &[T]) -> Lent {
    Lent {
        bytes: T::BYTES,
        held: T::HELD.bits(),
        entries: entries.iter().map(|entry| entry.bits()).collect(),
    }
}

/// A number, where the call gives one.
fn one<T: Entry>(number: Option<T>) -> Lent {
    list(number.as_slice())
}

impl Lent {
    /// The first entry that is not the stored one; beyond the stored ones nothing must be written.
    fn difference(&self, stored: &mut Stored) -> Option<usize> {
        let ([written], alike) = (stored.sizes(), stored.number(1) == 1);
        let mut wanted: Vec<u64> = Vec::new();
        while wanted.len() < written {
            match wanted.last() {
                Some(&first) if alike => wanted.push(first),
                _ => wanted.push(stored.number(self.bytes)),
            }
        }
        wanted.resize(written.max(self.entries.len()), self.held);
        (0..wanted.len()).find(|&entry| self.entries.get(entry) != Some(&wanted[entry]))
    }
}

/// What a call returns and what it leaves of all that is lent.
type Answer = (u8, Vec<Lent>);

fn answer<A, const N: usize>(given: Result<A, Refusal>, lent: [Lent; N]) -> Answer {
    let code = given.err().map_or(0, Refusal::number);
    (code, lent.into())
}

/// Makes a stored call. The error is for a call that the types rule out, with their refusal.
fn call(name: &str, record: &Record) -> Result<Answer, Refusal> {
    let floats = &record.floats[..];
    let mode = || Mode::from_number(record.byte(0));
    let phase = || Phase::from_number(record.byte(1));
    let kinds = || kinds_from_codes(&record.lists[0]);
    let modes = || -> Result<Vec<Mode>, Refusal> {
        let codes = record.lists[0].iter();
        codes.map(|&code| Mode::from_number(code)).collect()
    };
    let guards = || -> Result<Vec<GuardInterval>, Refusal> {
        let codes = record.lists[1].iter();
        codes
            .map(|&code| GuardInterval::from_denominator(code))
            .collect()
    };
    let wide = |at: usize| f64::from_bits(record.wide[at]);
    Ok(match name {
        "carrier_bin" => {
            let bin = ofdm::carrier_bin(mode()?, ofdm::BandCarrier(record.numbers[1]));
            answer(bin, [one(bin.ok().map(|bin| bin.0))])
        }
        "role_map" => {
            let (mode, kinds, phase, mut out) = (mode()?, kinds()?, phase()?, record.buffer(0));
            let given = frame::role_map_lent(mode, phase, &kinds, &mut out);
            if given.is_ok() {
                let roles = frame::role_map(mode, phase, &kinds)?;
                assert!(roles.into_iter().map(CarrierRole::byte).eq(out.clone()));
            }
            answer(given, [list(&out)])
        }
        "sign_map" => {
            let (mode, mut out) = (mode()?, record.buffer(0));
            let given = prbs::sign_map_lent(mode, &mut out);
            assert!(given.is_err() || prbs::sign_map(mode)? == out);
            answer(given, [list(&out)])
        }
        "data_list" => {
            let (mode, kinds, phase, mut out) = (mode()?, kinds()?, phase()?, record.buffer(0));
            let given = carrier_lists::data_list_lent(mode, phase, &kinds, &mut out);
            assert!(given.is_err() || carrier_lists::data_list(mode, phase, &kinds)? == out);
            answer(given, [list(&out)])
        }
        "continual_list" => {
            let (mode, kinds, mut out) = (mode()?, kinds()?, record.buffer(0));
            let count = carrier_lists::continual_list_lent(mode, &kinds, &mut out);
            if let Ok(count) = count {
                assert!(carrier_lists::continual_list(mode, &kinds)? == out[..count]);
            }
            answer(count, [list(&out), one(count.ok())])
        }
        "samples_needed" => {
            let samples = guess::samples_needed(&modes()?, &guards()?, record.numbers[0]);
            answer(samples, [one(samples.ok())])
        }
        "detect_mode" => {
            let mut scratch = record.buffer(0);
            let given = guess::detect_mode_lent(floats, &modes()?, &guards()?, &mut scratch);
            let (found, guess) = (given.ok(), given.ok().flatten());
            let lent = [
                list(&scratch),
                one(found.map(|guess| u8::from(guess.is_some()))),
                one(guess.map(|guess| guess.mode.number())),
                one(guess.map(|guess| guess.guard.denominator())),
                one(guess.map(|guess| guess.offset)),
                one(guess.map(|guess| guess.metric)),
                one(guess.map(|guess| guess.re)),
                one(guess.map(|guess| guess.im)),
            ];
            answer(given, lent)
        }
        "integer_cfo" => {
            let (mode, mut ratios) = (mode()?, record.buffer(0));
            let given = shift::integer_cfo_lent(mode, floats, record.numbers[1], &mut ratios);
            let (shift, score) = (given.map(|g| g.shift).ok(), given.map(|g| g.score).ok());
            answer(given, [list(&ratios), one(shift), one(score)])
        }
        "detect_kinds" => {
            let (mode, mut ratios) = (mode()?, record.buffer(0));
            let given = segment_kinds::detect_kinds_lent(mode, floats, &mut ratios);
            let codes = given.map(|found| found.kinds.map(SegmentKind::code));
            let kinds = list(codes.as_ref().map_or(&[], |codes| &codes[..]));
            let scores = list(given.as_ref().map_or(&[], |found| &found.scores[..]));
            answer(given, [list(&ratios), kinds, scores])
        }
        "tmcc_soft" => {
            let (mode, kinds) = (mode()?, kinds()?);
            let filter = match record.byte(1) {
                2 => None,
                code @ 0..=1 => Some(SegmentKind::from_code(code)?),
                // The floats are refused before a filter that is none; its number is the phase's.
                _ => {
                    tmcc::tmcc_soft(mode, &kinds, floats, None)?;
                    return Err(Refusal::BadPhase);
                }
            };
            let value = tmcc::tmcc_soft(mode, &kinds, floats, filter);
            answer(value, [one(value.ok())])
        }
        "detect_sp_phase" => {
            let given = pilot_phase::detect_sp_phase(mode()?, &kinds()?, floats);
            let phase = match given.map(|given| given.phase) {
                Ok(PilotPhase::Phase(phase, share)) => Some((phase.number(), share)),
                _ => None,
            };
            let lent = [
                one(given.ok().map(|_| u8::from(phase.is_some()))),
                one(phase.map(|(number, _)| number)),
                one(phase.map(|(_, share)| share)),
                list(given.as_ref().map_or(&[], |given| &given.counts[..])),
                one(given.ok().map(|given| given.lead)),
            ];
            answer(given, lent)
        }
        "estimate_grid" => {
            let (mode, kinds, phase, mut grid) = (mode()?, kinds()?, phase()?, record.buffer(0));
            let [_, _, index, w] = record.numbers;
            let given =
                chanest::estimate_grid_lent(mode, phase, &kinds, floats, index, w, &mut grid);
            answer(given, [list(&grid)])
        }
        "root" => (0, vec![one(Some(ieee::root(wide(0))))]),
        "narrow" => (0, vec![one(Some(ieee::narrow(wide(0))))]),
        "norm32" => (0, vec![one(Some(complex::norm32(floats[0], floats[1])))]),
        "norm64" => (0, vec![one(Some(complex::norm64(wide(0), wide(1))))]),
        "frame_start" => {
            let given = frame_start::frame_start(floats);
            let (found, start) = (given.ok(), given.ok().flatten());
            let lent = [
                one(found.map(|start| u8::from(start.is_some()))),
                one(start.map(|start| start.start)),
                one(start.map(|start| start.word.code())),
            ];
            answer(given, lent)
        }
        "bin_ratio" => {
            let ratio = ratio::bin_ratio(floats);
            answer(ratio, [one(ratio.ok())])
        }
        "carrier_role" => {
            let (mode, kinds, phase) = (mode()?, kinds()?, phase()?);
            let k = ofdm::BandCarrier(record.numbers[2]);
            let role = carrier_role::carrier_role(mode, phase, &kinds, k);
            answer(role, [one(role.ok().map(CarrierRole::byte))])
        }
        "angle" => {
            let angle = angle::angle(wide(0), wide(1));
            (0, vec![one(Some(i64::from(angle.0)))])
        }
        "cfo_frac" => (0, vec![one(Some(cfo_frac::cfo_frac(wide(0), wide(1))))]),
        name => panic!("{name} has no case"),
    })
}

#[test]
fn the_stored_answers() {
    let path = Path::new(env!("CARGO_MANIFEST_DIR")).join("../crates/replay_operations/stdin");
    let bytes = fs::read(path).expect("the stored answers can be read");
    let mut stored = Stored(&bytes);
    // Of each operation, calls that were made and calls that the types rule out.
    let mut calls = [[0; 2]; OPERATIONS.len()];
    while !stored.0.is_empty() {
        let at = bytes.len() - stored.0.len();
        let record = Record::read(&mut stored);
        let (name, things) = OPERATIONS[record.operation - 1];
        let answer = call(name, &record);
        let ruled_out = answer.is_err();
        let (code, lent) = answer.unwrap_or_else(|refusal| {
            // Nothing is stored for any of what the call was lent.
            let lent = (0..things).map(|_| list::<u8>(&[])).collect();
            (refusal.number(), lent)
        });
        assert_eq!(code, record.code, "{name}, the record at byte {at}");
        assert_eq!(lent.len(), things, "{name}");
        for (number, lent) in lent.iter().enumerate() {
            let difference = lent.difference(&mut stored);
            let place = format!("{name}, the record at byte {at}, what is lent {number}");
            assert_eq!(difference, None, "{place}");
        }
        calls[record.operation - 1][usize::from(ruled_out)] += 1;
    }
    for ((name, _), [made, ruled_out]) in OPERATIONS.into_iter().zip(calls) {
        println!("{name}: {made} calls, {ruled_out} that the types rule out");
        assert!(made > 0, "{name} has no stored call");
    }
}
