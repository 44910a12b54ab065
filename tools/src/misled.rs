//! Answers that mislead about a unit, to be given to the call that writes it.

use crate::units::Told;

/// Added to a number it leaves the low 32 bits as they are.
const HIGH: u64 = 1 << 32;

const MOST: u64 = u64::MAX;

/// The same unit with other values: length, blocks done and last mark.
fn with(told: Told, [length, done, last]: [u64; 3]) -> Told {
    Told {
        length,
        done,
        last,
        ..told
    }
}

/// What is told of a unit with one value wrong: length or blocks done one more or, where it can be,
/// one less; or the last mark turned over, or 2.
pub fn near(told: Told) -> Vec<Told> {
    let [length, done, last] = [told.length, told.done, told.last];
    let mut values = vec![
        [length + 1, done, last],
        [length - 1, done, last],
        [length, done + 1, last],
        [length, done, 1 - last],
        [length, done, 2],
    ];
    let fewer = done.checked_sub(1);
    values.extend(fewer.map(|fewer| [length, fewer, last]));
    values
        .into_iter()
        .map(|values| with(told, values))
        .collect()
}

/// Likewise with one value right by its low 32 bits alone, with one that is the largest, and with
/// several that are wrong.
pub fn far(told: Told) -> [Told; 13] {
    let [length, done, last] = [told.length, told.done, told.last];
    let values = [
        [length + HIGH, done, last],
        [length, done + HIGH, last],
        [length, done, last + HIGH],
        [MOST, done, last],
        [length, MOST, last],
        [length, done, MOST],
        // Their sum is right.
        [length - 1, done + 1, last],
        [length + 1, done, 1 - last],
        [length, done + 1, 1 - last],
        [length + 1, done + 1, 1 - last],
        // Length and blocks in each other's place.
        [done, length, last],
        [0, 0, 0],
        [MOST, MOST, MOST],
    ];
    values.map(|values| with(told, values))
}
