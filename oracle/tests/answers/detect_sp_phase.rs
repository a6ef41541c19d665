//! The pilot phase.

use crate::{count, has_no_difference, keeps_the_claim, quiet_band};
use oracle::acquire::Oracle;
use oracle::codes::{kind_bytes, kinds_of_choice, mode_of};
use oracle::harness::call::{Call, Floats};
use oracle::harness::rng::Rng;
use oracle::inputs::captures::Places;
use oracle::inputs::partly_silent::one_set_alone;
use oracle::isdb::frame::FrameLayout;
use oracle::isdb::params::{Mode, SEGMENTS};
use oracle::isdb::rx::acquire::Ballot;
use oracle::ops::detect_sp_phase::{
    PartlySilent, Phase, PhaseArguments, PhaseCall, Port, answer, counts, every_kinds_row,
    is_heard, lead, partly_silent_row, random_partly_silent, vote,
};

#[test]
fn the_pilot_phase_of_a_band_is_found() {
    let mut rng = Rng::new(1);
    for phase in 0..4 {
        let mut band = quiet_band(&mut rng, Mode::M1, 0b11);
        band.phase = phase;
        let spectra = band.spectra(&mut rng, Places::Carriers, 7);
        let found = answer::<Oracle>(1, &kind_bytes(0b11), &spectra).unwrap();
        assert_eq!(found.found, Some((phase as u8, 1.0)));
        assert_eq!((found.counts[phase], found.lead), (7, 7));
    }
}

#[test]
fn no_spectra_and_no_pilots() {
    let none = answer::<Oracle>(1, &[0; SEGMENTS], &[]).unwrap();
    let phase = |found| Phase {
        found,
        counts: [0; 4],
        lead: 0,
    };
    assert_eq!(none, phase(Some((3, 0.0))));
    let none = answer::<Oracle>(1, &[1; SEGMENTS], &[]).unwrap();
    assert_eq!(none, phase(None));
}

/// Floats of a spectrum in mode 1.
const ONE: usize = 2 * 1405;

/// The answer to spectra in mode 1, all segments coherent. The port gives it too.
fn all_coherent(spectra: &[f32]) -> Phase {
    let call = PhaseCall {
        mode: 1,
        spectra: Floats(spectra.to_vec()),
        kinds: vec![0; SEGMENTS],
    };
    assert_eq!(call.run(PhaseCall::LINKED, 0).difference, None);
    call.answer::<Oracle>().unwrap()
}

#[test]
fn silence_alone_votes_and_has_no_lead() {
    for zero in [0.0, -0.0] {
        for (count, found, counts) in [
            (1, (0, 1.0), [1, 0, 0, 0]),
            (2, (3, 0.5), [1, 0, 0, 1]),
            (5, (0, 0.4), [2, 1, 1, 1]),
        ] {
            let silence = Phase {
                found: Some(found),
                counts,
                lead: 0,
            };
            assert_eq!(all_coherent(&vec![zero; count * ONE]), silence);
        }
    }
}

#[test]
fn over_all_symbols_silence_led_by_1_at_most() {
    for count in (0..=9).chain([203, 205]) {
        let found = all_coherent(&vec![0.0; count * ONE]);
        // Four in a row vote for all four phases, and one that is left over leads.
        let over_all = u32::from(count % 4 == 1);
        assert_eq!((lead(found.counts), found.lead), (over_all, 0), "{count}");
    }
}

#[test]
fn a_band_that_begins_silent_leads_by_its_heard_symbols() {
    let mut rng = Rng::new(1);
    for silent in 0..=6 {
        let band = quiet_band(&mut rng, Mode::M1, 0);
        let mut spectra = vec![0.0; silent * ONE];
        spectra.extend(band.spectra(&mut rng, Places::Carriers, 5));
        let found = all_coherent(&spectra);
        // The first heard symbol has its number, and the first of all the phase so many before.
        let phase = (band.phase + 8 - silent) % 4;
        assert_eq!(found.found.unwrap().0, phase as u8);
        assert_eq!(found.counts.iter().sum::<u32>(), 5 + silent as u32);
        assert_eq!(found.lead, 5);
    }
}

#[test]
fn heard_symbols_keep_their_numbers() {
    let mut rng = Rng::new(1);
    let mut band = quiet_band(&mut rng, Mode::M1, 0);
    band.phase = 0;
    let mut spectra = band.spectra(&mut rng, Places::Carriers, 4);
    spectra[ONE..2 * ONE].fill(0.0);
    spectra[3 * ONE..].fill(0.0);
    let found = all_coherent(&spectra);
    assert_eq!(found.found, Some((0, 0.5)));
    assert_eq!((found.counts, found.lead), ([2, 1, 0, 1], 2));
}

/// A spectrum of the pilots of one phase alone, the first of which has another real part.
fn with_first(phase: usize, first: f32) -> Vec<f32> {
    let layout = FrameLayout::new(Mode::M1, kinds_of_choice(0));
    one_set_alone(&layout, phase, |at| match at {
        0 => [first, 0.0],
        _ => [1.0, 0.0],
    })
}

#[test]
fn a_nan_energy_is_not_heard_and_an_infinite_one_is() {
    for (first, counts, lead) in [
        (1.0, [0, 0, 1, 0], 1),
        (f32::NAN, [1, 0, 0, 0], 0),
        (f32::INFINITY, [1, 0, 0, 0], 1),
    ] {
        let found = all_coherent(&with_first(2, first));
        assert_eq!((found.counts, found.lead), (counts, lead), "{first}");
    }
    // Beside a NaN, a set with energy makes the symbol heard.
    let (nan, one) = (with_first(2, f32::NAN), with_first(1, 1.0));
    let both: Vec<f32> = nan.iter().zip(&one).map(|(nan, one)| nan + one).collect();
    let found = all_coherent(&both);
    assert_eq!((found.counts, found.lead), ([0, 1, 0, 0], 1));
}

#[test]
fn a_set_that_is_not_chosen_makes_the_symbol_heard() {
    let layout = FrameLayout::new(Mode::M1, kinds_of_choice(0));
    let opposed = one_set_alone(&layout, 2, |at| match at % 2 {
        0 => [1.0, 0.0],
        _ => [-1.0, 0.0],
    });
    let found = all_coherent(&opposed);
    assert_eq!((found.counts, found.lead), ([1, 0, 0, 0], 1));
}

/// The smallest inputs of docs/DIFFERENCES.md, under "The lead": floats that are not zero, how many
/// spectra, the phase and its share, the counts, the lead over all symbols and the lead.
#[test]
fn the_smallest_inputs_that_are_documented() {
    type NotZero = &'static [(usize, f32)];
    type Found = (u8, f32);
    let two_thirds = f32::from_bits(0x3f2a_aaab);
    let documented: [(NotZero, usize, Found, [u32; 4], u32, u32); 6] = [
        (&[], 1, (0, 1.0), [1, 0, 0, 0], 1, 0),
        (&[(0, f32::NAN)], 1, (0, 1.0), [1, 0, 0, 0], 1, 0),
        (&[(0, 1.0)], 1, (0, 1.0), [1, 0, 0, 0], 1, 0),
        (&[(0, 1e-30), (24, 1e-30)], 1, (0, 1.0), [1, 0, 0, 0], 1, 0),
        (&[(0, 1.0), (24, 1.0)], 1, (1, 1.0), [0, 1, 0, 0], 1, 1),
        (
            &[(6, 1.0), (30, -1.0), (5638, 1.0), (5662, 1.0)],
            3,
            (1, two_thirds),
            [0, 2, 0, 1],
            1,
            2,
        ),
    ];
    let bits = |(phase, share): Found| (phase, share.to_bits());
    for (floats, count, wanted, counts, before, now) in documented {
        let mut spectra = vec![0.0; count * ONE];
        for &(at, float) in floats {
            spectra[at] = float;
        }
        let found = all_coherent(&spectra);
        assert_eq!(found.found.map(bits), Some(bits(wanted)));
        assert_eq!((found.counts, found.lead), (counts, now), "{floats:?}");
        assert_eq!(lead(found.counts), before);
    }
}

#[test]
fn random_calls_meet_ties_and_no_pilots() {
    let found = |call: &PhaseCall| call.answer::<Oracle>().ok();
    let ties = count(|call| found(call).is_some_and(|found| found.lead == 0));
    let none = count(|call| found(call).is_some_and(|found| found.found.is_none()));
    let empty = count(|call| found(call).is_some() && call.spectra.0.is_empty());
    for (what, count, least) in [("ties", ties, 50), ("none", none, 10), ("empty", empty, 1)] {
        assert!(count >= least, "{what}: {count}");
    }
}

/// A random call of a partly silent capture, and the ballots of its symbols.
struct Met {
    call: PhaseCall,
    ballots: Vec<Ballot>,
}

impl Met {
    fn new(index: u64) -> Self {
        let call = random_partly_silent(1, index);
        let ballots = call.ballots();
        Self { call, ballots }
    }

    /// Some symbol is heard, or is silent, and has energies with a property.
    fn has(&self, heard: bool, property: impl Fn(&[f32; 4]) -> bool) -> bool {
        let mut ballots = self.ballots.iter();
        ballots.any(|ballot| is_heard(ballot) == heard && property(&ballot.1))
    }

    /// The symbols from the first that is heard to the last.
    fn heard_stretch(&self) -> &[Ballot] {
        let first = self.ballots.iter().position(is_heard);
        let last = self.ballots.iter().rposition(is_heard);
        first
            .zip(last)
            .map_or(&[], |(first, last)| &self.ballots[first..=last])
    }

    /// Silent symbols before the first that is heard, between, and behind the last.
    fn begins_silent(&self) -> bool {
        !self.heard_stretch().is_empty() && !is_heard(&self.ballots[0])
    }

    fn silent_between(&self) -> bool {
        !self.heard_stretch().iter().all(is_heard)
    }

    fn ends_silent(&self) -> bool {
        !self.heard_stretch().is_empty() && !self.ballots.last().is_some_and(is_heard)
    }

    fn nothing_heard(&self) -> bool {
        !self.ballots.is_empty() && self.heard_stretch().is_empty()
    }

    /// A symbol is silent and is not all zeros.
    fn silent_but_not_zero(&self) -> bool {
        let len = mode_of(self.call.mode).unwrap().total_carriers();
        let spectra = self.call.spectra.0.chunks_exact(2 * len);
        let is_so = |(ballot, spectrum): (&Ballot, &[f32])| {
            !is_heard(ballot) && spectrum.iter().any(|&float| float != 0.0)
        };
        self.ballots.iter().zip(spectra).any(is_so)
    }

    /// A symbol chooses a phase whose set has no energy, and is heard.
    fn heard_by_another_set(&self) -> bool {
        let mut ballots = self.ballots.iter();
        ballots.any(|ballot| is_heard(ballot) && ballot.1[ballot.0] == 0.0)
    }
}

#[test]
fn the_ballots_give_the_counts() {
    for met in (0..600).map(Met::new) {
        let votes = met.ballots.iter().enumerate().map(vote);
        let answer = met.call.answer::<Oracle>().unwrap();
        assert_eq!(counts(votes), answer.counts);
    }
}

/// How many of the four energies have a property.
fn sets(energies: &[f32; 4], property: impl Fn(f32) -> bool) -> usize {
    energies.iter().filter(|&&energy| property(energy)).count()
}

/// One energy alone is not zero, and has a property.
fn alone(energies: &[f32; 4], property: impl Fn(f32) -> bool) -> bool {
    sets(energies, |energy| energy == 0.0) == 3 && sets(energies, property) == 1
}

#[test]
fn partly_silent_calls_meet_every_sort() {
    let met: Vec<Met> = (0..600).map(Met::new).collect();
    let count = |property: fn(&Met) -> bool| met.iter().filter(|&met| property(met)).count();
    let symbol = |heard: bool, property: fn(&[f32; 4]) -> bool| {
        met.iter().filter(|met| met.has(heard, property)).count()
    };
    let lone_nan = symbol(false, |four| alone(four, f32::is_nan));
    let four_nans = symbol(false, |four| sets(four, f32::is_nan) == 4);
    let nan_and_energy = symbol(true, |four| sets(four, f32::is_nan) > 0);
    let one_set = symbol(true, |four| alone(four, |energy| energy > 0.0));
    let infinite = symbol(true, |four| sets(four, f32::is_infinite) == 1);
    let four_infinite = symbol(true, |four| sets(four, f32::is_infinite) == 4);
    let subnormal = symbol(true, |four| sets(four, f32::is_subnormal) > 0);
    for (what, count, least) in [
        ("no spectra", count(|met| met.call.spectra.0.is_empty()), 3),
        ("begins silent", count(Met::begins_silent), 80),
        ("silent between", count(Met::silent_between), 100),
        ("ends silent", count(Met::ends_silent), 60),
        ("nothing heard", count(Met::nothing_heard), 80),
        ("silent, not zero", count(Met::silent_but_not_zero), 200),
        ("heard, not chosen", count(Met::heard_by_another_set), 80),
        ("a NaN alone", lone_nan, 80),
        ("four NaNs", four_nans, 120),
        ("a NaN and energy", nan_and_energy, 120),
        ("one set alone", one_set, 90),
        ("one infinite", infinite, 60),
        ("four infinite", four_infinite, 30),
        ("subnormal", subnormal, 60),
    ] {
        assert!(count >= least, "{what}: {count}");
    }
}

fn has_none(port: Port) {
    has_no_difference::<PhaseCall>(port, 100);
    keeps_the_claim::<PhaseArguments>(port, 100);
    keeps_the_claim::<PartlySilent>(port, 100);
    for row in [partly_silent_row(port, 2, 200), every_kinds_row(port, 2)] {
        assert!(row.cases() >= 200);
        assert_eq!(row.smallest(), None, "{}", row.name());
    }
}

#[test]
fn the_port_has_no_difference() {
    has_none(PhaseCall::LINKED);
}

#[test]
fn the_rust_has_no_difference_to_itself() {
    has_none(PhaseCall::RUST);
}
