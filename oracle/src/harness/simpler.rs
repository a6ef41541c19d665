//! A failing input made simpler.

use super::call::Floats;

/// The most runs that making an input simpler takes.
const TRIALS: usize = 500;

/// An input that still differs, with as many of its floats put to zero as can be.
pub fn simpler<K: Clone>(
    mut input: K,
    mut found: String,
    floats: impl Fn(&mut K) -> Option<&mut Floats>,
    differs: impl Fn(&K) -> Option<String>,
) -> (K, String) {
    let count = floats(&mut input).map_or(0, |floats| floats.0.len());
    let (mut stretch, mut trials) = (count, 0);
    while stretch > 0 {
        for start in (0..count).step_by(stretch) {
            let mut zeroed = input.clone();
            let end = count.min(start + stretch);
            if trials == TRIALS || !put_to_zero(floats(&mut zeroed), start, end) {
                continue;
            }
            trials += 1;
            if let Some(difference) = differs(&zeroed) {
                (input, found) = (zeroed, difference);
            }
        }
        stretch /= 4;
    }
    (input, found)
}

/// Puts the floats from `start` to `end` to zero. False if they are zero.
fn put_to_zero(floats: Option<&mut Floats>, start: usize, end: usize) -> bool {
    let Some(floats) = floats else { return false };
    let part = &mut floats.0[start..end];
    let some = part.iter().any(|float| float.to_bits() != 0);
    part.fill(0.0);
    some
}
