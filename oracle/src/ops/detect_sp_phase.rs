//! The pilot phase: which of the four places of scattered pilots the first spectrum has, by votes.
//!
//! A symbol, which is a spectrum, is heard if at least one of its four pilot sets has energy above zero;
//! else it is silent. Silent symbols vote as heard ones do; the lead alone is without them. It is worked
//! out from the ballots, of each symbol the phase that it chooses and the energies of the four sets.

use super::Operation;
use crate::acquire::{Acquire, DetectedPhase, Oracle, Untouched};
use crate::codes::{KINDS, kind_bytes, kinds_of, kinds_of_choice, mode_of};
use crate::harness::call::{Call, Floats, Unfilled, write_answer};
use crate::harness::changed::{self, Claim, Verdict, accepted, both, differ, floats_differ};
use crate::harness::lent::{Lent, Shown};
use crate::harness::outcome::{Compared, Outcome};
use crate::harness::rng::Rng;
use crate::harness::run::{self, Plan};
use crate::harness::stored::Record;
use crate::harness::tally::Row;
use crate::harness::timing::{self, Effort};
use crate::inputs::arguments::{
    MODE_NUMBERS, boundary_floats, boundary_kinds, many_floats, mostly_good_kinds,
    mostly_good_mode, mostly_whole, random_count, readable, size, whole_spectra,
};
use crate::inputs::captures::{self, Places, few, mostly_mode_1};
use crate::inputs::changes::{Change, Changed, spectra_to_change};
use crate::inputs::partly_silent::{self, Parts, one_set_alone};
use crate::inputs::timed::{self, COHERENT, Capture, captures, of_spectra, row};
use crate::inputs::whole::{Band, any_bytes};
use crate::isdb::frame::FrameLayout;
use crate::isdb::params::{Mode, SEGMENTS};
use crate::isdb::rx::acquire::{self, Ballot};
use sillurwy::ffi;
use std::fmt;
use std::hint::black_box;

pub const OPERATION: Operation = Operation {
    name: "detect_sp_phase",
    number: Some(11),
    part: "acquisition",
    streams: &[
        PhaseCall::STREAM,
        PARTLY_SILENT,
        EVERY_KINDS,
        PhaseArguments::STREAM,
        PartlySilent::STREAM,
    ],
    compare,
    bench,
    stored,
};

// ---- The operation

/// Mode, kinds, spectra; the phase.
pub type Port = fn(u8, &[u8], &[f32], PhaseOut<'_>) -> u8;

/// The lent numbers.
#[derive(Debug)]
pub struct PhaseOut<'a> {
    /// 1 if there are scattered pilots; else phase and share are left as they were.
    pub found: &'a mut u8,
    /// Phase.
    pub phase: &'a mut u8,
    /// Share.
    pub share: &'a mut f32,
    /// Votes of all symbols.
    pub counts: &'a mut [u32; 4],
    /// Lead, of the heard symbols alone.
    pub lead: &'a mut u32,
}

/// A call.
#[derive(Debug, Clone, PartialEq, Eq, PartialOrd, Ord)]
pub struct PhaseCall {
    /// Mode.
    pub mode: u8,
    /// Spectra.
    pub spectra: Floats,
    /// Kinds.
    pub kinds: Vec<u8>,
}

/// What it gives.
#[derive(Debug, Clone, PartialEq)]
pub struct Phase {
    /// The phase and its share, if there are scattered pilots.
    pub found: Option<(u8, f32)>,
    /// The votes for each phase, of all symbols.
    pub counts: [u32; 4],
    /// Of the votes of the heard symbols, each of which keeps its number: the largest count less the
    /// largest of the other three. 0 where nothing is heard, and where there are no scattered pilots.
    pub lead: u32,
}

impl Phase {
    fn phase(&self) -> Option<u8> {
        self.found.map(|(phase, _)| phase)
    }

    fn share(&self) -> Option<f32> {
        self.found.map(|(_, share)| share)
    }
}

/// The largest count less the largest of the other three.
pub fn lead(counts: [u32; 4]) -> u32 {
    let mut sorted = counts;
    sorted.sort_unstable();
    sorted[3] - sorted[2]
}

/// A symbol is heard if at least one of its four pilot sets has energy above zero, which a NaN is not.
pub fn is_heard((_, energies): &Ballot) -> bool {
    energies.iter().any(|&energy| energy > 0.0)
}

/// The vote of a symbol, given with its number: the phase that it chooses, turned back by the number.
pub fn vote((symbol, &(choice, _)): (usize, &Ballot)) -> usize {
    (choice + 4 - symbol % 4) % 4
}

/// How many votes each phase has.
pub fn counts(votes: impl IntoIterator<Item = usize>) -> [u32; 4] {
    let mut counts = [0; 4];
    for vote in votes {
        counts[vote] += 1;
    }
    counts
}

/// The votes for each phase of the heard symbols. All symbols are numbered before the silent ones are
/// left out, so each keeps its number.
pub fn heard_counts(ballots: &[Ballot]) -> [u32; 4] {
    let numbered = ballots.iter().enumerate();
    let heard = numbered.filter(|(_, ballot)| is_heard(ballot));
    counts(heard.map(vote))
}

/// What the Rust gives by a norm, with the refusals in front.
fn detected<R: Acquire>(mode: u8, kinds: &[u8], spectra: &[f32]) -> Result<DetectedPhase, u8> {
    let mode = mode_of(mode)?;
    let kinds = kinds_of(kinds)?;
    let len = mode.total_carriers();
    whole_spectra(spectra, len)?;
    let layout = FrameLayout::new(mode, kinds);
    Ok(R::detect_sp_phase(&layout, &R::spectra(spectra, len)))
}

/// The ballots of the symbols, the first one's first: none where the call is refused, and where there
/// are no scattered pilots.
pub fn ballots(mode: u8, kinds: &[u8], spectra: &[f32]) -> Vec<Ballot> {
    match detected::<Oracle>(mode, kinds, spectra) {
        Ok(Some((_, _, _, ballots))) => ballots,
        _ => Vec::new(),
    }
}

/// The answer by a norm.
pub fn answer<R: Acquire>(mode: u8, kinds: &[u8], spectra: &[f32]) -> Result<Phase, u8> {
    let Some((phase, share, votes, ballots)) = detected::<R>(mode, kinds, spectra)? else {
        return Ok(Phase {
            found: None,
            counts: [0; 4],
            lead: 0,
        });
    };
    let count = |count| u32::try_from(count).expect("at most 1,024 spectra vote");
    Ok(Phase {
        found: Some((phase as u8, share)),
        counts: votes.map(count),
        lead: lead(heard_counts(&ballots)),
    })
}

impl PhaseOut<'_> {
    /// Writes a phase as the port does.
    pub fn write(self, answer: &Phase) {
        *self.found = u8::from(answer.found.is_some());
        if let Some((phase, share)) = answer.found {
            (*self.phase, *self.share) = (phase, share);
        }
        *self.counts = answer.counts;
        *self.lead = answer.lead;
    }
}

/// Writes an answer as the port does.
pub fn write(answer: Result<Phase, u8>, out: PhaseOut<'_>) -> u8 {
    write_answer(answer, |phase| out.write(&phase))
}

fn linked(mode: u8, kinds: &[u8], spectra: &[f32], out: PhaseOut<'_>) -> u8 {
    let PhaseOut {
        found,
        phase,
        share,
        counts,
        lead,
    } = out;
    ffi::detect_sp_phase(mode, kinds, spectra, found, phase, share, counts, lead)
}

fn rust(mode: u8, kinds: &[u8], spectra: &[f32], out: PhaseOut<'_>) -> u8 {
    write(answer::<Oracle>(mode, kinds, spectra), out)
}

impl PhaseCall {
    /// The answer to this call by a norm.
    pub fn answer<R: Acquire>(&self) -> Result<Phase, u8> {
        answer::<R>(self.mode, &self.kinds, &self.spectra.0)
    }

    /// The ballots of its symbols.
    pub fn ballots(&self) -> Vec<Ballot> {
        ballots(self.mode, &self.kinds, &self.spectra.0)
    }
}

impl fmt::Display for PhaseCall {
    fn fmt(&self, f: &mut fmt::Formatter<'_>) -> fmt::Result {
        write!(
            f,
            "pilot phase: mode {}, kinds {}, spectra of {}",
            self.mode,
            readable(&self.kinds),
            self.spectra
        )
    }
}

// ---- The calls that are compared

impl Call for PhaseCall {
    const TITLE: &'static str = "pilot phase";
    const STREAM: u64 = 502;
    type Port = Port;
    const LINKED: Port = linked;
    const RUST: Port = rust;

    fn run(&self, port: Port, salt: u64) -> Outcome {
        let (kinds, spectra) = (Shown::new(&self.kinds), Shown::new(&self.spectra.0));
        let (mut found, mut phase) = (Lent::one(salt), Lent::one(salt));
        let (mut share, mut lead) = (Lent::one(salt), Lent::one(salt));
        let mut counts = Lent::new(4, salt);
        let out = PhaseOut {
            found: found.entry(),
            phase: phase.entry(),
            share: share.entry(),
            counts: counts.array(),
            lead: lead.entry(),
        };
        let given = port(self.mode, kinds.slice(), spectra.slice(), out);
        let is_found = |a: &Phase| vec![u8::from(a.found.is_some())];
        let compared = |answer: &_| {
            Compared::of_code(given, answer)
                .lent(&found, "found", answer, is_found)
                .lent(&counts, "counts", answer, |a| a.counts.to_vec())
                .lent(&lead, "lead", answer, |a| vec![a.lead])
                .lent(&phase, "phase", answer, |a| Vec::from_iter(a.phase()))
                .lent(&share, "share", answer, |a| Vec::from_iter(a.share()))
                .shown(&kinds, "kinds")
                .shown(&spectra, "spectra")
        };
        Outcome::of_both(
            &self.answer::<Oracle>(),
            &self.answer::<Untouched>(),
            compared,
        )
    }

    fn floats(&mut self) -> Option<&mut Floats> {
        Some(&mut self.spectra)
    }

    fn boundary() -> Vec<Unfilled<Self>> {
        let mut calls = Vec::new();
        for mode in MODE_NUMBERS {
            let len = size(mode, Mode::total_carriers);
            let other = size(mode, Mode::fft_size);
            let call = |kinds: &[u8]| Self {
                mode,
                spectra: Floats::default(),
                kinds: kinds.to_vec(),
            };
            for kinds in boundary_kinds() {
                let floats = boundary_floats(len, other);
                calls.extend(floats.map(|floats| (call(&kinds), floats)));
            }
            for floats in many_floats(mode, len) {
                let kinds: [&[u8]; 3] = [&[0; SEGMENTS], &[1; SEGMENTS], &[]];
                calls.extend(kinds.map(|kinds| (call(kinds), floats)));
            }
        }
        calls
    }

    fn random(rng: &mut Rng) -> Self {
        let mode = mostly_mode_1(rng);
        let (kinds, choice) = mostly_good_kinds(rng);
        let count = random_count(rng, mode);
        let spectra = captures::spectra(rng, mode, choice, Places::Carriers, count);
        Self {
            mode: mostly_good_mode(rng, mode),
            spectra: mostly_whole(rng, spectra),
            kinds,
        }
    }
}

/// The streams of the partly silent captures.
const PARTLY_SILENT: u64 = 508;
const EVERY_KINDS: u64 = 509;

/// A choice of kinds; once in eight times all are of one kind.
fn mostly_mixed(rng: &mut Rng) -> u16 {
    match rng.below(16) {
        0 => 0,
        1 => KINDS - 1,
        _ => rng.choice(),
    }
}

/// A call of a partly silent capture, of some spectra.
fn partly_silent_call(rng: &mut Rng, mode: Mode, choice: u16) -> PhaseCall {
    let count = partly_silent::count(rng);
    PhaseCall {
        mode: mode.number(),
        spectra: Floats(partly_silent::spectra(rng, mode, choice, count, Parts::Any)),
        kinds: kind_bytes(choice).to_vec(),
    }
}

/// One of the random calls of partly silent captures.
pub fn random_partly_silent(seed: u64, index: u64) -> PhaseCall {
    let rng = &mut Rng::for_case(seed, PARTLY_SILENT, index);
    let (mode, choice) = (mostly_mode_1(rng), mostly_mixed(rng));
    partly_silent_call(rng, mode, choice)
}

/// Random calls of partly silent captures.
pub fn partly_silent_row(port: Port, seed: u64, cases: usize) -> Row {
    let call = |index| random_partly_silent(seed, index as u64);
    run::calls(port, cases, call).row("pilot phase, partly silent")
}

/// A partly silent capture of every choice of kinds, in mode 1: every choice has pilot sets of its own.
pub fn every_kinds_row(port: Port, seed: u64) -> Row {
    let call = |index| {
        let rng = &mut Rng::for_case(seed, EVERY_KINDS, index as u64);
        partly_silent_call(rng, Mode::M1, index as u16)
    };
    run::calls(port, KINDS.into(), call).row("pilot phase, every kinds")
}

fn compare(plan: &Plan) -> Vec<Row> {
    let port = PhaseCall::LINKED;
    vec![
        run::boundary::<PhaseCall>(port, plan.seed),
        run::random::<PhaseCall>(port, plan.seed, plan.captures),
        partly_silent_row(port, plan.seed, plan.captures),
        every_kinds_row(port, plan.seed),
        changed::claim::<PhaseArguments>(port, plan.seed, plan.captures),
        changed::claim::<PartlySilent>(port, plan.seed, plan.captures),
    ]
}

// ---- Changed captures

/// The other arguments.
#[derive(Debug, Clone, PartialEq, Eq, PartialOrd, Ord)]
pub struct PhaseArguments {
    /// Mode.
    pub mode: Mode,
    /// Kinds.
    pub kinds: [u8; SEGMENTS],
}

impl PhaseArguments {
    fn ask(&self, port: Port, spectra: &[f32]) -> Result<Phase, u8> {
        let (mut found, mut phase, mut share) = (0, 0, 0.0);
        let (mut counts, mut lead) = ([0; 4], 0);
        let out = PhaseOut {
            found: &mut found,
            phase: &mut phase,
            share: &mut share,
            counts: &mut counts,
            lead: &mut lead,
        };
        let code = port(self.mode.number(), &self.kinds, spectra, out);
        accepted(code, || Phase {
            found: (found == 1).then_some((phase, share)),
            counts,
            lead,
        })
    }

    /// Makes both calls: of the spectra as they are, and changed.
    fn verdict_on(&self, port: Port, spectra: &[f32], change: &Change) -> Verdict {
        let len = self.mode.total_carriers();
        let before = self.ask(port, spectra);
        let after = self.ask(port, &change.of(len, spectra));
        both(&before, &after, |before, after| {
            let share = |answer: &Phase| [answer.share().unwrap_or(0.0)];
            differ("phase", before.phase(), after.phase())
                .or_else(|| differ("counts", before.counts, after.counts))
                .or_else(|| differ("lead", before.lead, after.lead))
                .or_else(|| floats_differ("share", &share(before), &share(after)))
        })
    }
}

impl Claim for PhaseArguments {
    const TITLE: &'static str = "pilot phase, changed";
    const STREAM: u64 = 602;
    type Port = Port;

    fn random(rng: &mut Rng) -> Changed<Self> {
        let mode = mostly_mode_1(rng);
        let count = if rng.once_in(64) { 0 } else { few(rng) };
        let change = Change::random(rng, count);
        let whole = change.doublings > 0;
        let choice = mostly_mixed(rng);
        Changed {
            floats: Floats(spectra_to_change(rng, mode, Places::Carriers, count, whole)),
            arguments: Self {
                mode,
                kinds: kind_bytes(choice),
            },
            change,
        }
    }

    fn verdict(port: Port, case: &Changed<Self>) -> Verdict {
        case.arguments
            .verdict_on(port, &case.floats.0, &case.change)
    }
}

/// The other arguments, of a partly silent capture.
#[derive(Debug, Clone, PartialEq, Eq, PartialOrd, Ord)]
pub struct PartlySilent(pub PhaseArguments);

impl Claim for PartlySilent {
    const TITLE: &'static str = "pilot phase, partly silent, changed";
    const STREAM: u64 = 606;
    type Port = Port;

    fn random(rng: &mut Rng) -> Changed<Self> {
        let (mode, choice) = (mostly_mode_1(rng), mostly_mixed(rng));
        let count = partly_silent::count(rng);
        let change = Change::random(rng, count);
        let parts = if change.doublings > 0 {
            Parts::Whole
        } else {
            Parts::Any
        };
        Changed {
            floats: Floats(partly_silent::spectra(rng, mode, choice, count, parts)),
            arguments: Self(PhaseArguments {
                mode,
                kinds: kind_bytes(choice),
            }),
            change,
        }
    }

    fn verdict(port: Port, case: &Changed<Self>) -> Verdict {
        let Self(asked) = &case.arguments;
        asked.verdict_on(port, &case.floats.0, &case.change)
    }
}

// ---- The benchmark

fn port_phase(mode: Mode, kinds: &[u8; SEGMENTS], floats: &[f32]) -> Phase {
    let asked = PhaseArguments {
        mode: black_box(mode),
        kinds: *kinds,
    };
    let phase = asked.ask(linked, floats).expect("the phase is accepted");
    assert!(phase.found.is_some(), "the phase is found");
    phase
}

/// The pilot phase of `count` spectra. The Rust's layout is made before the time is taken.
fn phase_row(mode: Mode, count: usize, effort: &Effort) -> timing::Row {
    let captures = captures(mode, COHERENT, Places::Carriers, count);
    let layout = FrameLayout::new(mode, kinds_of_choice(COHERENT));
    let kinds = kind_bytes(COHERENT);
    for Capture { band, floats, .. } in &captures {
        let phase = port_phase(mode, &kinds, floats);
        assert_eq!(phase.phase().map(usize::from), Some(band.phase));
        let right = answer::<Oracle>(mode.number(), &kinds, floats);
        assert_eq!(right, Ok(phase));
    }
    let at = |i: usize| &captures[i % captures.len()];
    row(
        of_spectra("pilot phase", mode, count),
        "`detect_sp_phase`, of a layout already made",
        effort,
        |i| port_phase(mode, &kinds, &at(i).floats),
        |i| acquire::detect_sp_phase(&layout, &at(i).spectra),
    )
}

fn bench(effort: &Effort) -> Vec<timing::Row> {
    timed::rows(effort, timed::FEW_AND_MANY, phase_row)
}

// ---- Stored answers

/// A record of a call, whose floats are given in one of their two forms.
fn record_of(
    mode: u8,
    kinds: &[u8],
    spectra: &[f32],
    given: impl FnOnce(Record) -> Record,
) -> Record {
    let answer = answer::<Oracle>(mode, kinds, spectra);
    given(Record::of(&answer).number(mode).bytes(kinds))
        .written(&answer, |a| vec![u8::from(a.found.is_some())])
        .written(&answer, |a| Vec::from_iter(a.phase()))
        .written(&answer, |a| Vec::from_iter(a.share()))
        .written(&answer, |a| a.counts.to_vec())
        .written(&answer, |a| vec![a.lead])
}

/// Of whole numbers.
fn record(mode: u8, kinds: &[u8], spectra: Vec<f32>) -> Record {
    let spectra = Floats(spectra);
    record_of(mode, kinds, &spectra.0, |record| record.floats(&spectra))
}

/// A band of so many symbols, of which some are silent.
fn silent_at(rng: &mut Rng, band: Band, count: usize, silent: &[usize]) -> Record {
    let mut floats = band.spectra(rng, Places::Carriers, count);
    let one = 2 * Mode::M1.total_carriers();
    for symbol in silent {
        floats[symbol * one..(symbol + 1) * one].fill(0.0);
    }
    record(1, &kind_bytes(band.choice), floats)
}

/// Partly silent captures. Of each, the lead is another one over all symbols, or with another reading of
/// which are heard.
fn stored_partly_silent(rng: &mut Rng) -> Vec<Record> {
    const CHOICE: u16 = 0b1_0010_1100_0110;
    let kinds = kind_bytes(CHOICE);
    let layout = FrameLayout::new(Mode::M1, kinds_of_choice(CHOICE));
    let band = |phase| Band {
        choice: CHOICE,
        phase,
        shift: 0,
        noise: 10.0,
    };
    // Each pilot of phase 2 against the one before: its metric is below zero, and phase 0 is chosen.
    let opposed = one_set_alone(&layout, 2, |at| match at % 2 {
        0 => [60.0, 80.0],
        _ => [-60.0, -80.0],
    });
    // In the first symbol the energy of phase 1 is NaN, in the second that of phase 3 is infinite.
    let with = |part: f32| move |at| if at == 5 { [part, 1.0] } else { [1.0, -1.0] };
    let unusual = [
        one_set_alone(&layout, 1, with(f32::NAN)),
        one_set_alone(&layout, 3, with(f32::INFINITY)),
    ]
    .concat();
    vec![
        silent_at(rng, band(2), 5, &[0, 1]),
        silent_at(rng, band(0), 4, &[1, 3]),
        record(1, &kinds, opposed),
        record_of(1, &kinds, &unusual, |record| record.exact_floats(&unusual)),
    ]
}

/// Of bands and of any numbers, of no spectrum, of silence, without scattered pilots; refused by each
/// number; and of partly silent captures.
fn stored(rng: &mut Rng) -> Vec<Record> {
    let one = 2 * Mode::M1.total_carriers();
    let mut band = |choice: u16, first, noise, count| {
        let band = Band {
            choice,
            phase: first,
            shift: 0,
            noise,
        };
        let floats = band.spectra(rng, Places::Carriers, count);
        record(1, &kind_bytes(choice), floats)
    };
    let mut records = vec![
        band(0b0_1010_0101_1000, 2, 10.0, 4),
        band(0, 1, 200.0, 3),
        band(KINDS - 1, 0, 10.0, 1),
    ];
    // Some segment is coherent.
    let some = kind_bytes(rng.choice() & (KINDS - 2));
    records.extend([
        record(1, &some, any_bytes(rng, 2 * one)),
        record(1, &some, Vec::new()),
        record(1, &some, vec![0.0; one]),
        record(9, &[7; 14], any_bytes(rng, 11)),
        record(1, &[0; 14], any_bytes(rng, 11)),
        record(1, &[7; 13], any_bytes(rng, 11)),
        record(1, &some, any_bytes(rng, 11)),
    ]);
    records.extend(stored_partly_silent(rng));
    records
}

#[cfg(test)]
mod tests {
    use super::*;

    #[test]
    fn every_refusal_is_stored_and_the_phases_of_bands_are_found() {
        let records = stored(&mut Rng::new(1));
        let codes: Vec<u8> = records.iter().map(Record::code).collect();
        assert_eq!(codes, [0, 0, 0, 0, 0, 0, 1, 2, 2, 5, 0, 0, 0, 0]);
        for (record, phase) in records.iter().zip([2, 1]) {
            // Each behind how many are written, and that not all are alike.
            assert_eq!(record.answer()[..8], [1, 0, 0, 1, 1, 0, 0, phase]);
        }
        // Without scattered pilots neither phase nor share is written; counts and lead are 0.
        let (counts, lead) = ([4, 0, 1, 0, 0, 0, 0], [1, 0, 0, 0, 0, 0, 0]);
        let none = [&[1, 0, 0, 0][..], &[0; 3], &[0; 3], &counts, &lead].concat();
        assert_eq!(records[2].answer(), none);
    }

    /// The counts, which are not all alike, and the lead of a stored answer, read from its end on. Each
    /// is behind how many are written, and if all are alike.
    fn counts_and_lead(record: &Record) -> ([u32; 4], u32) {
        let number = |from_end: usize| {
            let bytes = &record.answer()[record.answer().len() - from_end..];
            u32::from_le_bytes(bytes[..4].try_into().expect("four bytes"))
        };
        ([23, 19, 15, 11].map(number), number(4))
    }

    #[test]
    fn stored_leads_are_those_of_the_heard_symbols() {
        for seed in 1..20 {
            let records = stored(&mut Rng::new(seed));
            let silence = counts_and_lead(&records[5]);
            assert_eq!(silence, ([1, 0, 0, 0], 0));
            let found = records[10..].iter().map(counts_and_lead);
            let wanted = [
                // The two silent symbols vote for 0 and 3.
                ([1, 0, 3, 1], 3),
                // They vote for 3 and 1. Numbered anew, the heard ones would vote for 0 and 1.
                ([2, 1, 0, 1], 2),
                ([1, 0, 0, 0], 1),
                // The silent symbol votes for 0, the heard one for 3.
                ([1, 0, 0, 1], 1),
            ];
            assert_eq!(found.collect::<Vec<_>>(), wanted);
        }
    }

    #[test]
    fn a_symbol_is_heard_by_any_energy_above_zero() {
        let least = f32::from_bits(1);
        let silent = [0.0, -0.0, f32::NAN, -f32::NAN];
        assert!(!is_heard(&(0, silent)));
        for energy in [least, 1.0, f32::MAX, f32::INFINITY] {
            for set in 0..4 {
                let mut energies = silent;
                energies[set] = energy;
                assert!(is_heard(&(3, energies)), "{energies:?}");
            }
        }
    }

    #[test]
    fn heard_symbols_keep_their_numbers() {
        let (silent, heard) = ([0.0; 4], [0.0, 0.0, 0.0, 1.0]);
        let ballots = [(0, silent), (1, heard), (0, silent), (3, heard), (2, heard)];
        assert_eq!(heard_counts(&ballots), [2, 0, 1, 0]);
        assert_eq!(counts(ballots.iter().enumerate().map(vote)), [3, 0, 2, 0]);
    }

    #[test]
    fn lead_is_over_the_largest_of_the_others() {
        assert_eq!(lead([5, 1, 9, 2]), 4);
        assert_eq!(lead([9, 1, 9, 2]), 0);
        assert_eq!(lead([0; 4]), 0);
    }
}
