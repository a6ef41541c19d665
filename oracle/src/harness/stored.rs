//! The stored form of a call and its answer, which the replayers read (oracle/README.md, "The stored
//! answers").
//!
//! Before the call every entry of what is lent to be written is [`HELD`].

use super::call::Floats;
use super::value::Value;

/// What every entry that is lent holds before a call.
pub const HELD: u8 = 77;

/// An entry of what is lent to be written.
pub trait Entry: PartialEq {
    /// Its bytes, the lowest first.
    fn bytes(&self) -> Vec<u8>;
}

impl Entry for u8 {
    fn bytes(&self) -> Vec<u8> {
        vec![*self]
    }
}

impl Entry for u32 {
    fn bytes(&self) -> Vec<u8> {
        self.to_le_bytes().to_vec()
    }
}

impl Entry for usize {
    /// A bin, a count or an offset: four bytes are enough.
    fn bytes(&self) -> Vec<u8> {
        let narrow = u32::try_from(*self).expect("it is below 2^32");
        narrow.bytes()
    }
}

impl Entry for i64 {
    fn bytes(&self) -> Vec<u8> {
        self.to_le_bytes().to_vec()
    }
}

impl Entry for i32 {
    /// As the shift, the one signed number besides: eight bytes.
    fn bytes(&self) -> Vec<u8> {
        i64::from(*self).bytes()
    }
}

impl Entry for f32 {
    fn bytes(&self) -> Vec<u8> {
        self.compared_bits().to_le_bytes()[..4].to_vec()
    }
}

impl Entry for f64 {
    fn bytes(&self) -> Vec<u8> {
        self.compared_bits().to_le_bytes().to_vec()
    }
}

/// How the floats of a call are stored.
#[derive(Debug, Clone, Copy, Default, PartialEq, Eq)]
pub enum Width {
    /// A byte each: whole numbers from −128 to 127, none of them −0.0, 128 more.
    #[default]
    Byte,
    /// Their bits, four bytes each.
    Bits,
}

/// A call and its answer. An operation leaves alone what it has no use for.
#[derive(Debug, Clone, Default)]
pub struct Record {
    code: u8,
    numbers: Vec<usize>,
    lent: Vec<usize>,
    bytes: Vec<Vec<u8>>,
    floats: Vec<f32>,
    width: Width,
    wide: Vec<u64>,
    answer: Vec<u8>,
}

/// The most numbers, lists that are lent to be written, and lists of bytes that a call has.
const NUMBERS: usize = 4;
const LENT: usize = 2;
const LISTS: usize = 2;

impl Record {
    /// A call that has this answer. What it hands over is added next, then what it writes.
    pub fn of<A>(answer: &Result<A, u8>) -> Self {
        Self {
            code: answer.as_ref().err().copied().unwrap_or(0),
            ..Self::default()
        }
    }

    /// An argument that is a number below 65,536. As all arguments, they are added in the order of the
    /// C function.
    pub fn number(mut self, number: impl Into<usize>) -> Self {
        self.numbers.push(number.into());
        self
    }

    /// Entries of a list that is lent to be written.
    pub fn lends(mut self, entries: usize) -> Self {
        self.lent.push(entries);
        self
    }

    /// A list of bytes.
    pub fn bytes(mut self, list: &[u8]) -> Self {
        self.bytes.push(list.to_vec());
        self
    }

    /// The list of floats, each of a byte.
    pub fn floats(mut self, floats: &Floats) -> Self {
        self.floats.clone_from(&floats.0);
        self
    }

    /// The list of floats by their bits.
    pub fn exact_floats(self, floats: &[f32]) -> Self {
        Self {
            floats: floats.to_vec(),
            width: Width::Bits,
            ..self
        }
    }

    /// Numbers of 64 bits, or the bits of `f64`.
    pub fn wide(mut self, numbers: &[u64]) -> Self {
        self.wide.extend(numbers);
        self
    }

    /// Something that is lent, in the order of the C function, and what the accepted call writes from
    /// its start.
    pub fn written<A, T: Entry>(
        mut self,
        answer: &Result<A, u8>,
        written: impl FnOnce(&A) -> Vec<T>,
    ) -> Self {
        let entries = answer.as_ref().map_or(Vec::new(), written);
        let alike = entries.len() > 1 && entries.iter().all(|entry| *entry == entries[0]);
        let stored = if alike { &entries[..1] } else { &entries };
        self.answer.extend(two_bytes(entries.len()));
        self.answer.push(u8::from(alike));
        self.answer.extend(stored.iter().flat_map(Entry::bytes));
        self
    }

    /// What the function returns.
    pub fn code(&self) -> u8 {
        self.code
    }

    /// The stored answer: for each thing that is lent, how many entries are written, if they are alike,
    /// and the entries.
    pub fn answer(&self) -> &[u8] {
        &self.answer
    }

    /// The bytes of the record of an operation's number.
    pub fn stored(&self, operation: u8) -> Vec<u8> {
        let mut out = vec![operation, self.code];
        out.extend(padded::<NUMBERS>(&self.numbers));
        out.extend(padded::<LENT>(&self.lent));
        let lists: Vec<usize> = self.bytes.iter().map(Vec::len).collect();
        out.extend(padded::<LISTS>(&lists));
        out.extend(two_bytes(self.floats.len()));
        out.push(match self.width {
            Width::Byte => 1,
            Width::Bits => 4,
        });
        out.push(u8::try_from(self.wide.len()).expect("few numbers are wide"));
        out.extend(self.bytes.iter().flatten());
        for float in &self.floats {
            match self.width {
                Width::Byte => out.push(float_byte(*float)),
                Width::Bits => out.extend(float.to_bits().to_le_bytes()),
            }
        }
        out.extend(self.wide.iter().flat_map(|number| number.to_le_bytes()));
        out.extend(&self.answer);
        out
    }
}

/// N numbers of two bytes; zeros where there are fewer.
fn padded<const N: usize>(numbers: &[usize]) -> Vec<u8> {
    assert!(numbers.len() <= N, "the form has no room for so many");
    let zeros = std::iter::repeat(&0);
    let padded = numbers.iter().chain(zeros).take(N);
    padded.flat_map(|&number| two_bytes(number)).collect()
}

/// A number as two bytes, the low one first.
fn two_bytes(number: usize) -> [u8; 2] {
    u16::try_from(number)
        .expect("it is below 65,536")
        .to_le_bytes()
}

/// The byte of a whole number from −128 to 127, which is not −0.0: 128 more.
fn float_byte(float: f32) -> u8 {
    let byte = (float + 128.0) as u8;
    assert!(
        (f32::from(byte) - 128.0).to_bits() == float.to_bits(),
        "{float} is no such number"
    );
    byte
}

#[cfg(test)]
mod tests {
    use super::*;

    #[test]
    fn a_record_has_every_part() {
        let answer: Result<u32, u8> = Ok(9);
        let record = Record::of(&answer)
            .number(1_u8)
            .number(300_usize)
            .lends(2)
            .bytes(&[5, 6])
            .floats(&Floats(vec![-128.0, 1.0]))
            .wide(&[1])
            .written(&answer, |&a| vec![a, 3])
            .written(&answer, |_| vec![0.0_f64; 2])
            .written(&answer, |_| Vec::<u8>::new());
        let head = [
            2, 0, 1, 0, 44, 1, 0, 0, 0, 0, 2, 0, 0, 0, 2, 0, 0, 0, 2, 0, 1, 1,
        ];
        let handed = [5, 6, 0, 129, 1, 0, 0, 0, 0, 0, 0, 0];
        let words = [2, 0, 0, 9, 0, 0, 0, 3, 0, 0, 0];
        let zeros = [2, 0, 1, 0, 0, 0, 0, 0, 0, 0, 0];
        let wanted = [&head[..], &handed, &words, &zeros, &[0, 0, 0]].concat();
        assert_eq!(record.stored(2), wanted);
    }

    #[test]
    fn a_signed_number_has_eight_bytes() {
        assert_eq!((-2_i32).bytes(), (-2_i64).bytes());
        assert_eq!((-2_i32).bytes(), [254, 255, 255, 255, 255, 255, 255, 255]);
    }

    #[test]
    fn a_refusal_writes_nothing() {
        let refusal: Result<u8, u8> = Err(7);
        let record = Record::of(&refusal).written(&refusal, |&a| vec![a]);
        assert_eq!((record.code(), record.answer()), (7, &[0, 0, 0][..]));
        assert_eq!(record.stored(1)[..2], [1, 7]);
    }
}
