//! Of what kind an input is, told from its floats.

use std::fmt;

/// A kind of input.
#[derive(Debug, Clone, Copy, PartialEq, Eq, PartialOrd, Ord)]
pub enum InputKind {
    /// Every part is −1, 0 or 1.
    Units,
    /// Every part is a whole number from −32,768 to 32,768, as a recorder has them.
    Whole,
    /// The largest part is from 2^−31 to 2^27 in size, as that of a received band.
    Ordinary,
    /// Some part is infinite or NaN, or the largest is smaller or larger than that.
    Extreme,
}

/// The kinds.
pub const KINDS: [InputKind; 4] = [
    InputKind::Units,
    InputKind::Whole,
    InputKind::Ordinary,
    InputKind::Extreme,
];

/// The largest whole number of a recorder.
const RECORDED: f32 = 32_768.0;
/// 2^−31.
const LOW: f32 = 1.0 / (1_u64 << 31) as f32;
/// 2^27.
const HIGH: f32 = (1_u64 << 27) as f32;

impl InputKind {
    /// The kind of an input of these floats. No floats are whole numbers of size 0.
    pub fn of(floats: &[f32]) -> Self {
        if !floats.iter().all(|float| float.is_finite()) {
            return Self::Extreme;
        }
        let largest = floats.iter().fold(0.0, |most: f32, x| most.max(x.abs()));
        let whole = floats.iter().all(|float| float.fract() == 0.0);
        match largest {
            _ if whole && largest <= 1.0 => Self::Units,
            _ if whole && largest <= RECORDED => Self::Whole,
            LOW..=HIGH => Self::Ordinary,
            _ => Self::Extreme,
        }
    }
}

impl fmt::Display for InputKind {
    fn fmt(&self, f: &mut fmt::Formatter<'_>) -> fmt::Result {
        f.write_str(match self {
            Self::Units => "units and silence",
            Self::Whole => "whole numbers",
            Self::Ordinary => "ordinary",
            Self::Extreme => "extreme",
        })
    }
}

#[cfg(test)]
mod tests {
    use super::*;

    #[test]
    fn kinds_of_plain_inputs() {
        assert_eq!(InputKind::of(&[]), InputKind::Units);
        assert_eq!(InputKind::of(&[1.0, -0.0, -1.0]), InputKind::Units);
        assert_eq!(InputKind::of(&[1.0, -32_768.0]), InputKind::Whole);
        assert_eq!(InputKind::of(&[1.0, 32_769.0]), InputKind::Ordinary);
        assert_eq!(InputKind::of(&[3e-9, 1e-40]), InputKind::Ordinary);
        assert_eq!(InputKind::of(&[1e-10, 1e-40]), InputKind::Extreme);
        assert_eq!(InputKind::of(&[1.0, 1e9]), InputKind::Extreme);
        assert_eq!(InputKind::of(&[1.0, f32::NAN]), InputKind::Extreme);
    }
}
