//! Mistakes in the pilot phase.

use crate::{CASES, is_broken, is_found, is_found_at_boundary, quiet};
use oracle::acquire::Oracle;
use oracle::codes::{kind_bytes, mode_of};
use oracle::harness::call::{Call, write_answer};
use oracle::isdb::rx::acquire::Ballot;
use oracle::ops::detect_sp_phase::{
    PartlySilent, Phase, PhaseArguments, PhaseCall, PhaseOut, Port, answer, ballots, counts,
    every_kinds_row, heard_counts, is_heard, lead, partly_silent_row, vote, write,
};

/// The answer, changed where there are scattered pilots.
fn write_changed(
    answer: Result<Phase, u8>,
    out: PhaseOut<'_>,
    change: impl FnOnce(&mut Phase),
) -> u8 {
    let changed = answer.map(|mut answer| {
        if answer.found.is_some() {
            change(&mut answer);
        }
        answer
    });
    write(changed, out)
}

#[test]
fn mistakes_in_the_phase_are_found() {
    is_found::<PhaseCall>("the smaller phase on a tie", |mode, kinds, spectra, out| {
        let answer = answer::<Oracle>(mode, kinds, spectra);
        write_changed(answer, out, |answer| {
            let most = answer.counts.iter().max();
            let first = answer.counts.iter().position(|count| Some(count) == most);
            answer.found = answer.found.map(|found| (first.unwrap() as u8, found.1));
        })
    });
    is_found::<PhaseCall>("invented counts", |mode, kinds, spectra, out| {
        let answer = answer::<Oracle>(mode, kinds, spectra);
        write_changed(answer, out, |answer| {
            let (phase, _) = answer.found.unwrap();
            let total = answer.counts.iter().sum();
            answer.counts = [0; 4];
            answer.counts[usize::from(phase)] = total;
        })
    });
    is_found::<PhaseCall>("a share of nothing", |mode, kinds, spectra, out| {
        let answer = answer::<Oracle>(mode, kinds, spectra);
        write_changed(answer, out, |answer| {
            if spectra.is_empty() {
                answer.found = Some((3, f32::NAN));
            }
        })
    });
    is_found::<PhaseCall>("counts left unwritten", |mode, kinds, spectra, out| {
        let answer = answer::<Oracle>(mode, kinds, spectra);
        write_answer(answer, |answer| match answer.found {
            Some(_) => out.write(&answer),
            None => *out.found = 0,
        })
    });
    is_found::<PhaseCall>(
        "silent spectra that do not vote",
        |mode, kinds, spectra, out| {
            let answer = answer::<Oracle>(mode, kinds, spectra);
            let silent = spectra.iter().all(|&float| float == 0.0);
            write_changed(answer, out, |answer| {
                if silent {
                    answer.counts = [0; 4];
                }
            })
        },
    );
}

/// The mistake is found in partly silent captures, at least so many times, and the smallest that fails
/// is shown.
fn is_found_in_silence(what: &str, least: u64, port: Port) {
    let row = partly_silent_row(port, 1, CASES);
    assert!(
        row.differences() >= least,
        "{what}: {} found",
        row.differences()
    );
    let smallest = row.smallest().expect("there are differences");
    assert!(smallest.starts_with(PhaseCall::TITLE), "{what}: {smallest}");
}

/// A call, and what it is lent.
struct Asked<'a> {
    mode: u8,
    kinds: &'a [u8],
    spectra: &'a [f32],
    out: PhaseOut<'a>,
}

impl<'a> Asked<'a> {
    fn new(mode: u8, kinds: &'a [u8], spectra: &'a [f32], out: PhaseOut<'a>) -> Self {
        Self {
            mode,
            kinds,
            spectra,
            out,
        }
    }

    /// The right answer, changed by the ballots where there are scattered pilots.
    fn changed(self, change: impl FnOnce(&mut Phase, &[Ballot])) -> u8 {
        let ballots = ballots(self.mode, self.kinds, self.spectra);
        let answer = answer::<Oracle>(self.mode, self.kinds, self.spectra);
        write_changed(answer, self.out, |answer| change(answer, &ballots))
    }

    /// The lead over the symbols that are heard by another reading. It is given each one's number too.
    fn heard_by(self, heard: impl Fn(usize, &Ballot) -> bool) -> u8 {
        self.changed(|answer, ballots| {
            let numbered = ballots.iter().enumerate();
            let heard = numbered.filter(|&(symbol, ballot)| heard(symbol, ballot));
            answer.lead = lead(counts(heard.map(vote)));
        })
    }

    /// The lead over the symbols that are heard by another reading of their energies.
    fn heard_where(self, heard: impl Fn(&[f32; 4]) -> bool) -> u8 {
        self.heard_by(|_, (_, energies)| heard(energies))
    }
}

/// The votes for each phase of the heard symbols, which are numbered after the silent ones are left out.
fn numbered_anew(ballots: &[Ballot]) -> [u32; 4] {
    let heard = ballots.iter().filter(|ballot| is_heard(ballot));
    counts(heard.enumerate().map(vote))
}

#[test]
fn the_reading_itself_is_right() {
    let right: Port = |mode, kinds, spectra, out| {
        Asked::new(mode, kinds, spectra, out).heard_by(|_, ballot| is_heard(ballot))
    };
    // Numbered from the first heard symbol on, all votes are turned alike, and the lead stays.
    let from_first: Port = |mode, kinds, spectra, out| {
        Asked::new(mode, kinds, spectra, out).changed(|answer, ballots| {
            let first = ballots.iter().position(is_heard).unwrap_or(0);
            answer.lead = lead(heard_counts(&ballots[first..]));
        })
    };
    for port in [right, from_first] {
        assert_eq!(partly_silent_row(port, 1, CASES).smallest(), None);
    }
}

#[test]
fn symbols_that_are_wrongly_counted_in_the_lead_are_found() {
    is_found_in_silence("all symbols", 100, |mode, kinds, spectra, out| {
        Asked::new(mode, kinds, spectra, out).changed(|answer, _| answer.lead = lead(answer.counts))
    });
    is_found_in_silence("numbered anew", 60, |mode, kinds, spectra, out| {
        Asked::new(mode, kinds, spectra, out)
            .changed(|answer, ballots| answer.lead = lead(numbered_anew(ballots)))
    });
    is_found_in_silence(
        "from the first heard on",
        40,
        |mode, kinds, spectra, out| {
            Asked::new(mode, kinds, spectra, out).changed(|answer, ballots| {
                let first = ballots.iter().position(is_heard).unwrap_or(ballots.len());
                let numbered = ballots.iter().enumerate();
                answer.lead = lead(counts(numbered.skip(first).map(vote)));
            })
        },
    );
    is_found_in_silence("the lead of the phase", 20, |mode, kinds, spectra, out| {
        Asked::new(mode, kinds, spectra, out).changed(|answer, ballots| {
            let (phase, _) = answer.found.unwrap();
            let mut others = heard_counts(ballots);
            let own = std::mem::take(&mut others[usize::from(phase)]);
            answer.lead = own.saturating_sub(others.into_iter().max().unwrap());
        })
    });
}

#[test]
fn sets_that_are_not_looked_at_are_found() {
    is_found_in_silence("all four needed", 60, |mode, kinds, spectra, out| {
        Asked::new(mode, kinds, spectra, out)
            .heard_where(|energies| energies.iter().all(|&energy| energy > 0.0))
    });
    is_found_in_silence("the chosen one alone", 60, |mode, kinds, spectra, out| {
        Asked::new(mode, kinds, spectra, out)
            .heard_by(|_, &(choice, energies)| energies[choice] > 0.0)
    });
    is_found_in_silence("the first alone", 60, |mode, kinds, spectra, out| {
        Asked::new(mode, kinds, spectra, out).heard_where(|energies| energies[0] > 0.0)
    });
    is_found_in_silence("all but the last", 20, |mode, kinds, spectra, out| {
        Asked::new(mode, kinds, spectra, out)
            .heard_where(|energies| energies[..3].iter().any(|&energy| energy > 0.0))
    });
    is_found_in_silence("their sum", 60, |mode, kinds, spectra, out| {
        Asked::new(mode, kinds, spectra, out)
            .heard_where(|energies| energies.iter().sum::<f32>() > 0.0)
    });
}

#[test]
fn energies_that_are_wrongly_read_are_found() {
    is_found_in_silence("a NaN is heard", 60, |mode, kinds, spectra, out| {
        Asked::new(mode, kinds, spectra, out).heard_where(|energies| {
            energies
                .iter()
                .any(|&energy| energy > 0.0 || energy.is_nan())
        })
    });
    is_found_in_silence("a NaN silences", 60, |mode, kinds, spectra, out| {
        Asked::new(mode, kinds, spectra, out).heard_where(|energies| {
            let above = energies.iter().any(|&energy| energy > 0.0);
            above && !energies.iter().any(|energy| energy.is_nan())
        })
    });
    is_found_in_silence("infinity is silent", 30, |mode, kinds, spectra, out| {
        Asked::new(mode, kinds, spectra, out).heard_where(|energies| {
            energies
                .iter()
                .any(|&energy| energy > 0.0 && energy.is_finite())
        })
    });
    is_found_in_silence("subnormals are silent", 15, |mode, kinds, spectra, out| {
        Asked::new(mode, kinds, spectra, out)
            .heard_where(|energies| energies.iter().any(|&energy| energy >= f32::MIN_POSITIVE))
    });
    is_found_in_silence("zero is heard", 100, |mode, kinds, spectra, out| {
        Asked::new(mode, kinds, spectra, out)
            .heard_where(|energies| energies.iter().any(|&energy| energy >= 0.0))
    });
    is_found_in_silence("any float is heard", 60, |mode, kinds, spectra, out| {
        let one = mode_of(mode).map_or(1, |mode| 2 * mode.total_carriers());
        Asked::new(mode, kinds, spectra, out).heard_by(|symbol, _| {
            let spectrum = &spectra[symbol * one..(symbol + 1) * one];
            spectrum.iter().any(|&float| float != 0.0)
        })
    });
}

#[test]
fn what_leaves_out_silent_symbols_beside_the_lead_is_found() {
    is_found_in_silence("the phase", 40, |mode, kinds, spectra, out| {
        Asked::new(mode, kinds, spectra, out).changed(|answer, ballots| {
            let heard = heard_counts(ballots).into_iter().enumerate();
            let most = heard.max_by_key(|&(_, count)| count);
            answer.found = answer
                .found
                .zip(most)
                .map(|((_, share), (phase, _))| (phase as u8, share));
        })
    });
    is_found_in_silence("the share", 100, |mode, kinds, spectra, out| {
        Asked::new(mode, kinds, spectra, out).changed(|answer, ballots| {
            let heard = heard_counts(ballots);
            let (phase, _) = answer.found.unwrap();
            let all = heard.iter().sum::<u32>().max(1);
            let share = heard[usize::from(phase)] as f32 / all as f32;
            answer.found = Some((phase, share));
        })
    });
    is_found_in_silence("the counts", 100, |mode, kinds, spectra, out| {
        Asked::new(mode, kinds, spectra, out)
            .changed(|answer, ballots| answer.counts = heard_counts(ballots))
    });
}

#[test]
fn one_wrong_choice_of_kinds_is_found() {
    let row = every_kinds_row(
        |mode, kinds, spectra, out| {
            let wrong = kinds == kind_bytes(0b0_1101_0110_0011);
            Asked::new(mode, kinds, spectra, out)
                .changed(|answer, _| answer.lead += u32::from(wrong))
        },
        1,
    );
    assert_eq!((row.cases(), row.differences()), (8192, 1));
}

#[test]
fn a_refusal_that_quiets_nans_is_found() {
    is_found_at_boundary::<PhaseCall>("share", |mode, kinds, spectra, out| {
        let answer = answer::<Oracle>(mode, kinds, spectra);
        if answer.is_err() {
            quiet(out.share);
        }
        write(answer, out)
    });
}

#[test]
fn an_answer_that_quiets_what_it_leaves_is_found() {
    is_found_at_boundary::<PhaseCall>("share", |mode, kinds, spectra, out| {
        let answer = answer::<Oracle>(mode, kinds, spectra);
        if answer.as_ref().is_ok_and(|phase| phase.found.is_none()) {
            quiet(out.share);
        }
        write(answer, out)
    });
}

#[test]
fn a_refusal_that_reads_as_a_verdict_is_found() {
    is_found_at_boundary::<PhaseCall>("no scattered pilots", |mode, kinds, spectra, out| {
        let answer = answer::<Oracle>(mode, kinds, spectra);
        if answer.is_err() {
            *out.found = 0;
        }
        write(answer, out)
    });
}

#[test]
fn an_answer_that_depends_on_the_gain_breaks_the_claim() {
    is_broken::<PhaseArguments>("lead", |mode, kinds, spectra, out| {
        let answer = answer::<Oracle>(mode, kinds, spectra);
        let strong = spectra.iter().any(|&float| float > 40_000.0);
        write_changed(answer, out, |answer| answer.lead += u32::from(strong))
    });
}

#[test]
fn a_threshold_that_the_gain_passes_breaks_the_claim() {
    is_broken::<PartlySilent>("lead", |mode, kinds, spectra, out| {
        Asked::new(mode, kinds, spectra, out)
            .heard_where(|energies| energies.iter().any(|&energy| energy > 100.0))
    });
}

#[test]
fn a_reading_that_depends_on_a_sign_breaks_the_claim() {
    is_broken::<PartlySilent>("lead", |mode, kinds, spectra, out| {
        let one = mode_of(mode).map_or(1, |mode| 2 * mode.total_carriers());
        Asked::new(mode, kinds, spectra, out).heard_by(|symbol, ballot| {
            let spectrum = &spectra[symbol * one..(symbol + 1) * one];
            is_heard(ballot) && spectrum.iter().step_by(2).any(|&re| re > 0.0)
        })
    });
}
