//! The frame start, by its synchronising word.

use crate::ffi;
use crate::refusal::{accepted, Refusal};

/// The synchronising words of a frame (ARIB STD-B31), bit B1 first.
///
/// ```
/// use sillurwy::frame_start::SyncWord;
///
/// assert_eq!(SyncWord::from_code(1), Some(SyncWord::W1));
/// assert_eq!(SyncWord::W0.code(), 0);
/// ```
#[derive(Debug, Clone, Copy, PartialEq, Eq, Hash)]
#[repr(u8)]
pub enum SyncWord {
    /// 0011010111101110.
    W0 = 0,
    /// Its complement, 1100101000010001.
    W1 = 1,
}

impl SyncWord {
    /// 0 for w0, 1 for w1.
    pub fn code(self) -> u8 {
        self as u8
    }

    /// The word of a code.
    pub fn from_code(code: u8) -> Option<SyncWord> {
        match code {
            0 => Some(SyncWord::W0),
            1 => Some(SyncWord::W1),
            _ => None,
        }
    }
}

/// A place at which soft TMCC values spell a synchronising word.
#[derive(Debug, Clone, Copy, PartialEq, Eq, Hash)]
pub struct FrameStart {
    /// The index of the word's first value, from 0: values `start` to `start + 15` spell it.
    pub start: usize,
    /// The word.
    pub word: SyncWord,
}

/// A start at which sixteen soft TMCC values spell one of the two synchronising words; `None` only
/// if there is no such start, as in a list of fewer than sixteen values.
///
/// A value below zero reads as bit 1, every other as 0: NaN, `-0.0` and `0.0` too. Where there are
/// several starts, any of them may be given. Random bits spell a word too, at one place in 32,768.
///
/// Refused: never, since any list will do.
///
/// ```
/// use sillurwy::frame_start::{frame_start, FrameStart, SyncWord};
///
/// // Four bits, then w0.
/// let bits = ["0000", "0011010111101110"].concat();
/// let soft: Vec<f32> = bits.chars().map(|bit| if bit == '1' { -1.0 } else { 1.0 }).collect();
/// let word = SyncWord::W0;
/// assert_eq!(frame_start(&soft)?, Some(FrameStart { start: 4, word }));
/// // Negated, these values spell the other word.
/// let negated: Vec<f32> = soft.iter().map(|value| -value).collect();
/// let word = SyncWord::W1;
/// assert_eq!(frame_start(&negated)?, Some(FrameStart { start: 4, word }));
/// // Fifteen values spell none.
/// assert_eq!(frame_start(&soft[5..])?, None);
/// # Ok::<(), sillurwy::Refusal>(())
/// ```
///
/// Where value j is [`tmcc_soft`](crate::tmcc::tmcc_soft) of spectra j and j + 1, the frame begins at
/// spectrum [`start`](FrameStart::start): its TMCC carriers are the reference of the word's first bit.
///
/// ```
/// use sillurwy::frame_start::frame_start;
/// use sillurwy::params::{Mode, SegmentKind};
/// use sillurwy::tmcc::tmcc_soft;
///
/// // Spectra whose carriers change their sign where a bit is 1. The frame begins at spectrum 3.
/// let mut sign = 1.0;
/// let mut spectra = vec![[sign, 0.0].repeat(1405)];
/// for bit in ["101", "0011010111101110"].concat().chars() {
///     sign = if bit == '1' { -sign } else { sign };
///     spectra.push([sign, 0.0].repeat(1405));
/// }
/// let kinds = [SegmentKind::Coherent; 13];
/// let soft_of = |two: &[Vec<f32>]| tmcc_soft(Mode::M1, &kinds, &two.concat(), None);
/// let soft: Vec<f32> = spectra.windows(2).map(soft_of).collect::<Result<_, _>>()?;
/// assert_eq!(frame_start(&soft)?.map(|found| found.start), Some(3));
/// # Ok::<(), sillurwy::Refusal>(())
/// ```
pub fn frame_start(soft: &[f32]) -> Result<Option<FrameStart>, Refusal> {
    let (mut found, mut start, mut code) = (0, 0, 0);
    accepted(ffi::frame_start(soft, &mut found, &mut start, &mut code))?;
    if found == 0 {
        return Ok(None);
    }
    let word = SyncWord::from_code(code).expect("a frame start has the code of a word");
    Ok(Some(FrameStart { start, word }))
}
