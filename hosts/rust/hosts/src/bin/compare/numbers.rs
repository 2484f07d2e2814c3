//! Numbers for points: ordinary ones, and those that are hard to add or to halve.

use hosts::meshes::Dice;

const INFINITY: u64 = 0x7FF << 52;
const NEGATIVE: u64 = 1 << 63;
const TWO_TO_THE_52: u64 = 0x433 << 52;
const TWO_TO_THE_53: u64 = 0x434 << 52;
const TWO_TO_THE_1023: u64 = 0x7FE << 52;
const LEAST_NORMAL: u64 = 1 << 52;

/// Both zeros, the least and the greatest of each kind, numbers about 2^52 and 2^53, infinities, and what is no number.
const SPECIAL: [u64; 24] = [
    0,
    1,
    2,
    3,
    5,
    LEAST_NORMAL - 1,
    LEAST_NORMAL,
    LEAST_NORMAL + 1,
    2 * LEAST_NORMAL - 1,
    2 * LEAST_NORMAL + 1,
    // 0.1, 1 and 3
    0x3FB9_9999_9999_999A,
    0x3FF << 52,
    0x4008 << 48,
    TWO_TO_THE_52 - 2,
    TWO_TO_THE_52,
    TWO_TO_THE_52 + 1,
    TWO_TO_THE_53,
    TWO_TO_THE_53 + 1,
    TWO_TO_THE_1023 - 2,
    TWO_TO_THE_1023 - 1,
    INFINITY - 1,
    INFINITY,
    // no number, and one that signals, with bits of its own
    INFINITY + (1 << 51),
    INFINITY + 0xDEAD_BEEF,
];

/// Each of these and its negative.
pub fn special_numbers() -> impl Iterator<Item = f64> {
    SPECIAL.into_iter().flat_map(|bits| [bits, bits | NEGATIVE]).map(f64::from_bits)
}

/// Special, whole, of any bits, or such that sums are rounded.
pub fn any_number(dice: &mut Dice) -> f64 {
    let bits = u64::from(dice.number()) << 32 | u64::from(dice.number());
    match dice.below(8) {
        0 => f64::from_bits(SPECIAL[dice.below(SPECIAL.len() as u32) as usize] | bits & NEGATIVE),
        1 => f64::from(dice.below(2_000)) - 1_000.0,
        2 => f64::from_bits(bits),
        _ => f64::from_bits(bits & (NEGATIVE | 0x00FF << 48 | (LEAST_NORMAL - 1)) | 0x3F8 << 52),
    }
}

/// Three for each of n vertices.
pub fn any_points(dice: &mut Dice, n: usize) -> Vec<f64> {
    (0..3 * n).map(|_| any_number(dice)).collect()
}
