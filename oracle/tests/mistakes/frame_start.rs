//! Mistakes in the frame start.

use crate::{found, is_found};
use oracle::harness::call::Call;
use oracle::harness::run;
use oracle::ops::frame_start::{
    Port, StartCall, WORD, WORDS, answer, every_place, starts, word_at, write,
};

const RUST: Port = StartCall::RUST;

/// The smallest failing call of a port of those with a word at every place.
fn found_at_a_place(port: Port) -> Option<String> {
    let row = run::list(port, &every_place()).row(StartCall::TITLE);
    row.smallest().map(str::to_string)
}

/// The mistake is found on random calls, and at some place.
fn is_found_twice(what: &str, port: Port) {
    is_found::<StartCall>(what, port);
    assert!(found_at_a_place(port).is_some(), "not found: {what}");
}

/// The values, those with a property put to −1.0, which reads as 1.
fn as_ones(soft: &[f32], property: fn(f32) -> bool) -> Vec<f32> {
    let value = |&value: &f32| if property(value) { -1.0 } else { value };
    soft.iter().map(value).collect()
}

/// The start that a register finds which takes the values in one by one and is compared with either
/// word from the first value on. It is given the bits that it holds before.
fn by_register(soft: &[f32], mut register: u16) -> Option<(usize, u8)> {
    let number = |word: [u8; WORD]| word.iter().fold(0, |all, &bit| all << 1 | u16::from(bit));
    for (at, &value) in soft.iter().enumerate() {
        register = register << 1 | u16::from(value < 0.0);
        if let Some(code) = WORDS.iter().position(|&word| number(word) == register) {
            return Some((at.saturating_sub(WORD - 1), code as u8));
        }
    }
    None
}

#[test]
fn places_that_are_not_tried_are_found() {
    is_found_twice("the last place", |soft, found, start, word| {
        let but_last = soft.len().saturating_sub(1);
        RUST(&soft[..but_last], found, start, word)
    });
    is_found_twice("the first place", |soft, found, start, word| {
        let first = starts(soft).find(|&(f, _)| f > 0);
        write(first, found, start, word)
    });
    is_found_twice("every other place", |soft, found, start, word| {
        let even = starts(soft).find(|&(f, _)| f % 2 == 0);
        write(even, found, start, word)
    });
    is_found_twice("all places", |_, found, start, word| {
        write(None, found, start, word)
    });
}

#[test]
fn words_that_are_not_tried_or_swapped_are_found() {
    is_found_twice("the complement", |soft, found, start, word| {
        let plain = starts(soft).find(|&(_, code)| code == 0);
        write(plain, found, start, word)
    });
    is_found_twice("the codes", |soft, found, start, word| {
        let swapped = answer(soft).map(|(f, code)| (f, 1 - code));
        write(swapped, found, start, word)
    });
}

#[test]
fn values_that_are_read_wrongly_are_found() {
    is_found_twice("NaN read as 1", |soft, found, start, word| {
        RUST(&as_ones(soft, f32::is_nan), found, start, word)
    });
    is_found_twice("-0.0 read as 1", |soft, found, start, word| {
        let is_zero = |value: f32| value.to_bits() == 1 << 31;
        RUST(&as_ones(soft, is_zero), found, start, word)
    });
    is_found_twice("+0.0 read as 1", |soft, found, start, word| {
        let is_zero = |value: f32| value.to_bits() == 0;
        RUST(&as_ones(soft, is_zero), found, start, word)
    });
    is_found_twice("subnormals taken for zeros", |soft, found, start, word| {
        let flushed = |&value: &f32| if value.is_subnormal() { 0.0 } else { value };
        let flushed: Vec<f32> = soft.iter().map(flushed).collect();
        RUST(&flushed, found, start, word)
    });
}

#[test]
fn a_register_that_does_not_wait_is_found() {
    is_found_twice("zeros at first", |soft, found, start, word| {
        write(by_register(soft, 0), found, start, word)
    });
    is_found_twice("ones at first", |soft, found, start, word| {
        write(by_register(soft, u16::MAX), found, start, word)
    });
}

#[test]
fn a_word_of_too_few_bits_is_found() {
    // The first fifteen are compared.
    is_found_twice("fifteen bits", |soft, found, start, word| {
        let turned = |f: usize| {
            let mut window = soft[f..f + WORD].to_vec();
            let last = &mut window[WORD - 1];
            *last = if *last < 0.0 { 1.0 } else { -1.0 };
            word_at(&window, 0)
        };
        let mut places = 0..(soft.len() + 1).saturating_sub(WORD);
        let start_at = |f| Some((f, word_at(soft, f).or_else(|| turned(f))?));
        write(places.find_map(start_at), found, start, word)
    });
}

#[test]
fn what_is_written_wrongly_is_found() {
    is_found_twice("the place of the last value", |soft, found, start, word| {
        let last = answer(soft).map(|(f, code)| (f + WORD - 1, code));
        write(last, found, start, word)
    });
    is_found_twice("a start where there is none", |soft, found, start, word| {
        *start = 0;
        RUST(soft, found, start, word)
    });
    is_found_twice("a word where there is none", |soft, found, start, word| {
        *word = 0;
        RUST(soft, found, start, word)
    });
    is_found_twice("a start that is left", |soft, found, _, word| {
        RUST(soft, found, &mut 0, word)
    });
    is_found_twice(
        "found left where there is none",
        |soft, found, start, word| match answer(soft) {
            None => 0,
            some => write(some, found, start, word),
        },
    );
    is_found_twice(
        "a list that is too short refused",
        |soft, found, start, word| {
            if soft.len() < WORD {
                return 5;
            }
            RUST(soft, found, start, word)
        },
    );
}

/// A right port has no difference.
fn is_right(what: &str, port: Port) {
    assert_eq!(found::<StartCall>(port), None, "{what}");
    assert_eq!(found_at_a_place(port), None, "{what}");
}

#[test]
fn any_start_is_right() {
    is_right("the first", RUST);
    is_right("the last", |soft, found, start, word| {
        write(starts(soft).next_back(), found, start, word)
    });
    is_right("the complement first", |soft, found, start, word| {
        let complement = starts(soft).find(|&(_, code)| code == 1);
        let any = complement.or_else(|| answer(soft));
        write(any, found, start, word)
    });
}
