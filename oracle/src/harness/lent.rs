//! A buffer to lend to the port: a known pattern fills it and a margin on both sides, so that every
//! entry that was written, or was left, can be told afterwards.
//!
//! Half of the floats are lent as NaNs. What is written is compared as a value, all NaNs alike; what
//! must be left as it was is compared by its bytes, NaNs too.

use super::outcome::Answer;
use super::value::Value;
use std::fmt::Display;
use std::hint::black_box;

/// Entries on each side of the lent part.
const MARGIN: usize = 16;

/// A value with patterns that no operation writes.
pub trait Pattern: Copy + PartialEq + Display {
    /// The value that stands at place `i` before a call. Of eight floats side by side four are NaNs,
    /// quiet and signalling, of both signs, with digits of their own; which four depends on the salt.
    fn pattern(i: usize, salt: u64) -> Self;

    /// What stands around values that are lent to be read. It shows in the answer if it is read: of
    /// floats it is a NaN.
    fn around() -> Self;

    /// The same value. All NaNs are alike.
    fn alike(self, other: Self) -> bool {
        self == other
    }

    /// The same bits.
    fn same(self, other: Self) -> bool {
        self == other
    }

    /// True for a NaN.
    fn is_nan(self) -> bool {
        false
    }

    /// The value in a message, with its bits if it is a float.
    fn shown(self) -> String {
        self.to_string()
    }
}

/// The parts of a pattern that vary.
fn mix(i: usize, salt: u64) -> u64 {
    (i as u64).wrapping_mul(37).wrapping_add(salt)
}

/// Of a pattern that is a NaN: if it is below zero, and if it is quiet.
fn nan_sort(mix: u64) -> Option<(bool, bool)> {
    (mix & 4 != 0).then_some((mix & 2 != 0, mix & 1 != 0))
}

impl Pattern for u8 {
    /// Above every role byte and sign.
    fn pattern(i: usize, salt: u64) -> u8 {
        0x80 | mix(i, salt) as u8
    }

    fn around() -> u8 {
        u8::MAX
    }
}

impl Pattern for u32 {
    /// Above every carrier number.
    fn pattern(i: usize, salt: u64) -> u32 {
        0xa500_0000 | mix(i, salt) as u32
    }

    fn around() -> u32 {
        u32::MAX
    }
}

impl Pattern for usize {
    /// Above every bin and count.
    fn pattern(i: usize, salt: u64) -> usize {
        (1 << 63) | mix(i, salt) as usize
    }

    fn around() -> usize {
        usize::MAX
    }
}

impl Pattern for i64 {
    /// Far from every shift.
    fn pattern(i: usize, salt: u64) -> i64 {
        (1 << 62) | mix(i, salt) as i64
    }

    fn around() -> i64 {
        i64::MAX
    }
}

impl Pattern for f32 {
    /// A NaN, or a number about as large as 2^101; a case meets either by accident at most.
    fn pattern(i: usize, salt: u64) -> f32 {
        let mix = mix(i, salt);
        let digits = mix as u32;
        f32::from_bits(match nan_sort(mix) {
            None => 0x7200_0000 | digits & 0xff_ffff,
            Some((below, quiet)) => {
                let sort = u32::from(below) << 31 | u32::from(quiet) << 22;
                sort | 0x7fa0_0000 | digits & 0x1f_ffff
            }
        })
    }

    fn around() -> f32 {
        f32::NAN
    }

    fn alike(self, other: f32) -> bool {
        self.compared_bits() == other.compared_bits()
    }

    fn same(self, other: f32) -> bool {
        self.to_bits() == other.to_bits()
    }

    fn is_nan(self) -> bool {
        f32::is_nan(self)
    }

    fn shown(self) -> String {
        format!("{self:e} (bits {:#010x})", self.to_bits())
    }
}

impl Pattern for f64 {
    /// A NaN, or a number about as large as 2^800; a case meets either by accident at most.
    fn pattern(i: usize, salt: u64) -> f64 {
        let mix = mix(i, salt);
        let digits = mix & 0xff_ffff_ffff;
        f64::from_bits(match nan_sort(mix) {
            None => 0x7200_0000_0000_0000 | digits,
            Some((below, quiet)) => {
                let sort = u64::from(below) << 63 | u64::from(quiet) << 51;
                sort | 0x7ff4_0000_0000_0000 | digits
            }
        })
    }

    fn around() -> f64 {
        f64::NAN
    }

    fn alike(self, other: f64) -> bool {
        self.compared_bits() == other.compared_bits()
    }

    fn same(self, other: f64) -> bool {
        self.to_bits() == other.to_bits()
    }

    fn is_nan(self) -> bool {
        f64::is_nan(self)
    }

    fn shown(self) -> String {
        format!("{self:e} (bits {:#018x})", self.to_bits())
    }
}

/// Values that are lent to be read, with a margin on both sides.
#[derive(Debug)]
pub struct Shown<'a, T> {
    all: Vec<T>,
    values: &'a [T],
}

impl<'a, T: Pattern> Shown<'a, T> {
    /// A copy of the values to lend.
    pub fn new(values: &'a [T]) -> Self {
        let margin = [T::around(); MARGIN];
        let all = [&margin, values, &margin].concat();
        Self { all, values }
    }

    /// The part that is lent.
    pub fn slice(&self) -> &[T] {
        &self.all[MARGIN..self.all.len() - MARGIN]
    }

    /// The first value, or what lies around them, that was written.
    pub fn written(&self, name: &str) -> Option<String> {
        let held = black_box(&self.all);
        let wanted = |i: usize| match i.checked_sub(MARGIN).and_then(|at| self.values.get(at)) {
            Some(&value) => value,
            None => T::around(),
        };
        let at = (0..held.len()).find(|&i| !held[i].same(wanted(i)))?;
        let (place, now) = (at as i64 - MARGIN as i64, held[at].shown());
        Some(format!(
            "{name}[{place}], lent to be read, was written: {now}"
        ))
    }
}

/// An entry as it was lent, and as an answer wants it.
struct Expected<T> {
    lent: T,
    wanted: T,
}

impl<T: Pattern> Expected<T> {
    /// The answer leaves the entry as it was. An answer may name an entry that it leaves, as that of
    /// the grid does.
    fn is_left(&self) -> bool {
        self.wanted.same(self.lent)
    }

    /// What is left has its bytes. What is written has its value, and no longer the bytes that were
    /// lent, even where both are NaNs.
    fn is_met_by(&self, held: T) -> bool {
        let kept = held.same(self.lent);
        kept == self.is_left() && (kept || held.alike(self.wanted))
    }

    fn is_nan_left(&self) -> bool {
        self.lent.is_nan() && self.is_left()
    }
}

/// A lent buffer with its margins.
#[derive(Debug)]
pub struct Lent<T> {
    all: Vec<T>,
    salt: u64,
}

impl<T: Pattern> Lent<T> {
    /// A buffer of `len` entries that hold the pattern.
    pub fn new(len: usize, salt: u64) -> Self {
        let all = (0..len + 2 * MARGIN).map(|i| T::pattern(i, salt)).collect();
        Self { all, salt }
    }

    /// A single entry that holds the pattern.
    pub fn one(salt: u64) -> Self {
        Self::new(1, salt)
    }

    /// The entry of a buffer of one.
    pub fn entry(&mut self) -> &mut T {
        &mut self.all[MARGIN]
    }

    /// The part that is lent, of a length that is known.
    pub fn array<const N: usize>(&mut self) -> &mut [T; N] {
        self.slice().try_into().expect("a buffer of N entries")
    }

    /// The part that is lent.
    pub fn slice(&mut self) -> &mut [T] {
        let end = self.all.len() - MARGIN;
        &mut self.all[MARGIN..end]
    }

    /// Entry `i` of the buffer and its margins, by what an answer writes.
    fn expected(&self, i: usize, written: &[T]) -> Expected<T> {
        let lent = T::pattern(i, self.salt);
        let value = i.checked_sub(MARGIN).and_then(|at| written.get(at));
        Expected {
            lent,
            wanted: value.copied().unwrap_or(lent),
        }
    }

    /// The first difference between what the buffer holds and what the answer leaves in it.
    pub fn difference(&self, name: &str, answer: &Answer<T>) -> Option<String> {
        let written: &[T] = answer.as_deref().unwrap_or(&[]);
        let held = black_box(&self.all);
        let differs = |&i: &usize| !self.expected(i, written).is_met_by(held[i]);
        let at = (0..held.len()).find(differs)?;
        let differing = (at..held.len()).filter(differs).count();
        let expected = self.expected(at, written);
        Some(format!(
            "{}: oracle {}, port {} ({differing} differ)",
            self.place(name, at, expected.is_left()),
            expected.wanted.shown(),
            held[at].shown(),
        ))
    }

    /// How many NaNs were lent that the answer leaves: their bytes must be as they were.
    pub fn nans_left(&self, answer: &Answer<T>) -> u64 {
        let written: &[T] = answer.as_deref().unwrap_or(&[]);
        let lent = MARGIN..self.all.len() - MARGIN;
        let expected = lent.map(|i| self.expected(i, written));
        expected.filter(Expected::is_nan_left).count() as u64
    }

    /// Where entry `i` of the buffer and its margins lies.
    fn place(&self, name: &str, i: usize, left: bool) -> String {
        if i < MARGIN {
            return format!("memory {} before {name}", MARGIN - i);
        }
        let at = i - MARGIN;
        let len = self.all.len() - 2 * MARGIN;
        if at >= len {
            format!("memory {} after {name}", at - len + 1)
        } else if left {
            format!("{name}[{at}], to be left as it was")
        } else {
            format!("{name}[{at}]")
        }
    }
}

#[cfg(test)]
mod tests {
    use super::*;

    #[test]
    fn untouched_is_no_difference_to_a_refusal() {
        assert_eq!(Lent::<u8>::new(3, 1).difference("out", &Err(7)), None);
        assert_eq!(Lent::<u8>::new(0, 1).difference("out", &Err(7)), None);
    }

    #[test]
    fn written_part_and_rest_are_told_apart() {
        let mut lent = Lent::<u32>::new(3, 9);
        lent.slice()[0] = 5;
        assert_eq!(lent.difference("out", &Ok(vec![5])), None);
        assert!(lent.difference("out", &Err(7)).is_some());
        assert!(lent.difference("out", &Ok(vec![6])).is_some());
        lent.slice()[2] = 5;
        let found = lent.difference("out", &Ok(vec![5])).unwrap();
        assert!(found.starts_with("out[2], to be left"), "{found}");
    }

    #[test]
    fn floats_are_compared_by_their_bits() {
        let mut lent = Lent::<f32>::new(2, 9);
        lent.slice()
            .copy_from_slice(&[0.0, f32::from_bits(0x7fc0_1234)]);
        assert_eq!(lent.difference("out", &Ok(vec![0.0, f32::NAN])), None);
        assert!(lent.difference("out", &Ok(vec![-0.0, f32::NAN])).is_some());
        assert!(lent.difference("out", &Ok(vec![0.0])).is_some());
    }

    /// The floats that are lent, of a buffer of eight.
    fn lent_nans(salt: u64) -> Vec<u32> {
        let mut lent = Lent::<f32>::new(8, salt);
        let bits = lent.slice().iter().map(|float| float.to_bits());
        bits.filter(|&bits| f32::from_bits(bits).is_nan()).collect()
    }

    #[test]
    fn half_of_the_floats_are_nans_of_every_sort() {
        for salt in 0..64 {
            let mut sorts: Vec<u32> = lent_nans(salt).iter().map(|bits| bits >> 22).collect();
            sorts.sort_unstable();
            // Signalling and quiet, then both below zero.
            assert_eq!(sorts, [0x1fe, 0x1ff, 0x3fe, 0x3ff]);
        }
        assert_ne!(lent_nans(0), lent_nans(8));
        let mut wide = Lent::<f64>::new(8, 0);
        let nans = wide.slice().iter().filter(|float| float.is_nan());
        let mut sorts: Vec<u64> = nans.map(|float| float.to_bits() >> 51).collect();
        sorts.sort_unstable();
        assert_eq!(sorts, [0xffe, 0xfff, 0x1ffe, 0x1fff]);
    }

    /// The first entry of the lent part that is a NaN, and a signalling one.
    fn signalling(lent: &mut Lent<f32>) -> usize {
        let is_signalling = |float: &f32| float.is_nan() && float.to_bits() & 1 << 22 == 0;
        lent.slice()
            .iter()
            .position(is_signalling)
            .expect("one of each eight")
    }

    #[test]
    fn a_nan_that_is_left_keeps_its_bytes() {
        let quieted = || {
            let mut lent = Lent::<f32>::new(8, 5);
            let (before, at) = (lent.slice().to_vec(), signalling(&mut lent));
            let float = &mut lent.slice()[at];
            *float = f32::from_bits(float.to_bits() | 1 << 22);
            (lent, before)
        };
        let (lent, before) = quieted();
        assert_eq!(lent.nans_left(&Err(7)), 4);
        let found = lent.difference("grid", &Err(7)).unwrap();
        assert!(found.contains("to be left as it was"), "{found}");
        // Also where the answer names it among the others.
        assert_eq!(lent.nans_left(&Ok(before.clone())), 4);
        assert!(lent.difference("grid", &Ok(before)).is_some());
        // Where a NaN is to be written, any other one is as good, but not the one that was lent.
        let (lent, mut written) = quieted();
        written[signalling(&mut Lent::new(8, 5))] = f32::NAN;
        assert_eq!(lent.nans_left(&Ok(written.clone())), 3);
        assert_eq!(lent.difference("grid", &Ok(written.clone())), None);
        let untouched = Lent::<f32>::new(8, 5);
        assert!(untouched.difference("grid", &Ok(written)).is_some());
    }

    #[test]
    fn what_is_lent_to_be_read_is_watched() {
        let values = [1.0, f32::from_bits(0x7fc0_1234)];
        let mut shown = Shown::new(&values);
        assert_eq!(shown.slice().len(), 2);
        assert_eq!(shown.written("in"), None);
        shown.all[MARGIN + 1] = f32::NAN;
        let found = shown.written("in").unwrap();
        assert!(found.starts_with("in[1], lent to be read"), "{found}");
        let mut shown = Shown::new(&values);
        shown.all[MARGIN + 2] = 1.0;
        let found = shown.written("in").unwrap();
        assert!(found.starts_with("in[2], lent to be read"), "{found}");
    }

    #[test]
    fn margins_are_watched() {
        let mut lent = Lent::<u8>::new(2, 0);
        lent.all[MARGIN + 2] = 0;
        let found = lent.difference("out", &Err(7)).unwrap();
        assert!(found.starts_with("memory 1 after out"), "{found}");
    }
}
