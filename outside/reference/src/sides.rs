//! Side depths. "A is the depth of the side holding (0,0), B that of the other. Halves round down."

use crate::block::{mark, size_allowed, Pattern};
use crate::{LENGTH, SIZE, WORD};

/// Whether the pattern has only the n² bits of its block: "n = 4 and a word used has a bit from 16 up" is refused, and for n = 8
/// and 16 every bit is a mark.
pub fn pattern_allowed(n: usize, pattern: &Pattern) -> bool {
    n != 4 || pattern[0] < 1 << 16
}

/// A and B from a border of 4n bytes: "left samples L0 to L(2n−1), downward, then top samples T0 to
/// T(2n−1), rightward".
pub fn depths(n: usize, pattern: &Pattern, border: &[u8]) -> (u8, u8) {
    let (left, top) = border.split_at(2 * n);
    let half = |a: u8, b: u8| ((a as u32 + b as u32) / 2) as u8;
    let first = mark(n, pattern, 0, 0);
    let v = first != mark(n, pattern, n - 1, 0);
    let h = first != mark(n, pattern, 0, n - 1);
    let last = 2 * n - 1;
    match (v, h) {
        (true, true) => (half(left[0], top[0]), half(left[n - 1], top[n - 1])),
        (false, false) => {
            let left_is_steeper = left[0].abs_diff(left[last]) > top[0].abs_diff(top[last]);
            (half(left[0], top[0]), if left_is_steeper { left[last] } else { top[last] })
        }
        (false, true) => (top[(n - 1) / 2], left[n - 1]),
        (true, false) => (left[(n - 1) / 2], top[n - 1]),
    }
}

/// The side depths A and B (lt and br). Refusals: 1, 2, 5.
pub fn side_depths(n: usize, pattern: &Pattern, border: &[u8]) -> Result<(u8, u8), u32> {
    if !size_allowed(n) {
        return Err(SIZE);
    }
    if border.len() != 4 * n {
        return Err(LENGTH);
    }
    if !pattern_allowed(n, pattern) {
        return Err(WORD);
    }
    Ok(depths(n, pattern, border))
}

#[cfg(test)]
mod tests {
    use super::*;

    /// L = 10, 20 .. 80 and T = 100, 110 .. 170.
    fn stated_border() -> Vec<u8> {
        (1..=8).map(|k| 10 * k).chain((0..8).map(|k| 100 + 10 * k)).collect()
    }

    /// The side depths for a pattern of one word.
    fn of_word(n: usize, word: u64, border: &[u8]) -> Result<(u8, u8), u32> {
        side_depths(n, &[word, 0, 0, 0], border)
    }

    #[test]
    fn stated_depths() {
        let mut border = stated_border();
        assert_eq!(of_word(4, 0xFFF0, &border), Ok((110, 40)));
        assert_eq!(of_word(4, 0xEEEE, &border), Ok((20, 130)));
        assert_eq!(of_word(4, 0xFFFE, &border), Ok((55, 85)));
        assert_eq!(of_word(4, 0x8000, &border), Ok((55, 170)));
        border[7] = 81;
        assert_eq!(of_word(4, 0x8000, &border), Ok((55, 81)));
    }

    #[test]
    fn the_four_cases_of_16() {
        let mut border: Vec<u8> = (0..32).map(|k| 4 * k).chain((0..32).map(|k| 100 + 5 * k % 150)).collect();
        let (top_right, bottom_left) = (1 << 15, 1 << 48);
        assert_eq!(side_depths(16, &[top_right, 0, 0, bottom_left], &border), Ok((50, (60 + 175) / 2)));
        assert_eq!(side_depths(16, &[0, 0, 0, bottom_left], &border), Ok((135, 60)));
        assert_eq!(side_depths(16, &[top_right, 0, 0, 0], &border), Ok((28, 175)));
        assert_eq!(side_depths(16, &[0, 1 << 15, 1, 0], &border), Ok((50, 124)));
        border[31] = 5;
        assert_eq!(side_depths(16, &[0, 1 << 15, 1, 0], &border), Ok((50, 105)));
        border[31] = 0;
        border[63] = 100;
        assert_eq!(side_depths(16, &[0, 1 << 15, 1, 0], &border), Ok((50, 100)));
    }

    #[test]
    fn below_16_only_word_0_counts() {
        let border = stated_border();
        for word in [0xFFF0, 0xEEEE, 0xFFFE, 0x8000, 0] {
            assert_eq!(side_depths(4, &[word, u64::MAX, 1, 1 << 48], &border), of_word(4, word, &border));
        }
        let border: Vec<u8> = (0..32).collect();
        assert_eq!(side_depths(8, &[0, u64::MAX, 1 << 15, 1 << 48], &border), of_word(8, 0, &border));
    }

    #[test]
    fn the_complement_has_the_same_depths() {
        let border = stated_border();
        for word in [0xFFF0, 0xEEEE, 0xFFFE, 0x8000, 0] {
            assert_eq!(of_word(4, word ^ 0xFFFF, &border), of_word(4, word, &border));
        }
    }

    #[test]
    fn halves_round_down_also_above_255() {
        let mut border = vec![255; 32];
        border[16] = 254;
        assert_eq!(of_word(8, 0, &border), Ok((254, 255)));
    }

    #[test]
    fn refusals_in_order() {
        assert_eq!(of_word(5, 0x10000, &[0; 3]), Err(1));
        assert_eq!(of_word(12, 0, &[0; 48]), Err(1));
        assert_eq!(of_word(32, 0, &[0; 128]), Err(1));
        assert_eq!(of_word(4, 0x10000, &[0; 15]), Err(2));
        assert_eq!(of_word(4, 0x10000, &[0; 16]), Err(5));
        assert_eq!(of_word(8, 0x10000, &[0; 31]), Err(2));
        assert_eq!(of_word(8, 0x10000, &[0; 32]), Ok((0, 0)));
        assert_eq!(side_depths(16, &[u64::MAX; 4], &[0; 63]), Err(2));
        assert_eq!(side_depths(16, &[u64::MAX; 4], &[0; 64]), Ok((0, 0)));
    }
}
