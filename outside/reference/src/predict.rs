//! Predicted block.

use crate::block::{mark, marks, size_allowed, Pattern};
use crate::sides::{depths, pattern_allowed};
use crate::table::{nearest_index, sound};
use crate::{LENGTH, OFFSET, OFFSET_UNUSABLE, SIZE, TABLE, WORD};

/// Offsets "are −255 to 255".
pub fn offset_allowed(offset: i32) -> bool {
    (-255..=255).contains(&offset)
}

/// Whether the table can use the offset: "an offset whose absolute value is not below the table count is to be refused" (document 02,
/// Ask 4).
pub fn offset_usable(table: &[u8], offset: i32) -> bool {
    (offset.unsigned_abs() as usize) < table.len()
}

/// The checks of a record's or a prediction's offsets: both by 4, then both by 24.
pub fn check_offsets(table: &[u8], offsets: [i32; 2]) -> Result<(), u32> {
    if offsets.iter().any(|&offset| !offset_allowed(offset)) {
        return Err(OFFSET);
    }
    if offsets.iter().any(|&offset| !offset_usable(table, offset)) {
        return Err(OFFSET_UNUSABLE);
    }
    Ok(())
}

/// The table value at an index, "held to 0 .. table count − 1".
pub fn value_at(table: &[u8], index: i32) -> u8 {
    table[index.clamp(0, table.len() as i32 - 1) as usize]
}

/// "The table value at: index of its side's depth, plus its offset, held to 0 .. table count − 1."
pub fn side_value(table: &[u8], depth: u8, offset: i32) -> u8 {
    value_at(table, nearest_index(table, depth) as i32 + offset)
}

/// The depths of the unmarked and of the marked side: A is that of the side holding (0,0).
pub fn depths_by_mark(n: usize, pattern: &Pattern, border: &[u8]) -> (u8, u8) {
    let (a, b) = depths(n, pattern, border);
    if mark(n, pattern, 0, 0) {
        (b, a)
    } else {
        (a, b)
    }
}

/// The n² predicted samples; off0 is for unmarked samples, off1 for marked ones. Offsets are not judged.
pub fn predicted(n: usize, pattern: &Pattern, border: &[u8], table: &[u8], off0: i32, off1: i32) -> Vec<u8> {
    let (unmarked, marked) = depths_by_mark(n, pattern, border);
    let values = [side_value(table, unmarked, off0), side_value(table, marked, off1)];
    let mut block = Vec::new();
    for y in 0..n {
        for x in 0..n {
            block.push(values[mark(n, pattern, x, y) as usize]);
        }
    }
    block
}

/// Writes the predicted block into the lent bytes and answers the number of marks, "counted on the word
/// itself". Refusals: 1, 2, 3, 5, 4, 24.
pub fn predict(
    n: usize,
    pattern: &Pattern,
    border: &[u8],
    table: &[u8],
    off0: i32,
    off1: i32,
    block: &mut [u8],
) -> Result<u32, u32> {
    if !size_allowed(n) {
        return Err(SIZE);
    }
    if border.len() != 4 * n || block.len() != n * n {
        return Err(LENGTH);
    }
    if !sound(table) {
        return Err(TABLE);
    }
    if !pattern_allowed(n, pattern) {
        return Err(WORD);
    }
    check_offsets(table, [off0, off1])?;
    block.copy_from_slice(&predicted(n, pattern, border, table, off0, off1));
    Ok(marks(n, pattern))
}

#[cfg(test)]
mod tests {
    use super::*;
    use crate::table::spread_table;

    const TABLE_3: [u8; 3] = [100, 128, 140];

    /// The pattern of one word.
    fn of(word: u64) -> Pattern {
        [word, 0, 0, 0]
    }

    #[test]
    fn the_index_is_held_after_the_offset_is_added() {
        assert_eq!(side_value(&TABLE_3, 128, 0), 128);
        assert_eq!(side_value(&TABLE_3, 128, -1), 100);
        assert_eq!(side_value(&TABLE_3, 128, -2), 100);
        assert_eq!(side_value(&TABLE_3, 128, 2), 140);
        assert_eq!(side_value(&TABLE_3, 255, -1), 128);
        assert_eq!(side_value(&TABLE_3, 0, 1), 128);
        assert_eq!(side_value(&[77], 0, 0), 77);
    }

    #[test]
    fn the_farthest_offsets_are_held_at_the_ends_of_the_table() {
        for count in [2, 3, 256] {
            let (table, most) = (spread_table(count), count as i32 - 1);
            for (depth, off0, off1, samples) in [
                (0, -most, most, (0, 255)),
                (0, most, -most, (255, 0)),
                (0, -1, 0, (0, 0)),
                (255, most, -most, (255, 0)),
                (255, -most, most, (0, 255)),
                (255, 0, 1, (255, 255)),
            ] {
                let mut block = [9; 16];
                assert_eq!(predict(4, &of(0xFFF0), &[depth; 16], &table, off0, off1, &mut block), Ok(12));
                assert_eq!((block[0], block[15]), samples);
            }
        }
    }

    #[test]
    fn the_block_of_the_sample_file() {
        let mut block = [0; 16];
        assert_eq!(predict(4, &of(0xFFF0), &[128; 16], &TABLE_3, -1, 1, &mut block), Ok(12));
        assert_eq!(block[..4], [100; 4]);
        assert_eq!(block[4..], [140; 12]);
    }

    #[test]
    fn offsets_go_with_marks_and_depths_with_the_first_sample() {
        let full: Vec<u8> = (0..=255).collect();
        let border = [10, 20, 30, 40, 50, 60, 70, 80, 100, 110, 120, 130, 140, 150, 160, 170];
        let mut block = [0; 16];
        assert_eq!(predict(4, &of(0xFFF0), &border, &full, 1, -2, &mut block), Ok(12));
        assert_eq!((block[0], block[15]), (111, 38));
        assert_eq!(predict(4, &of(0x000F), &border, &full, 1, -2, &mut block), Ok(4));
        assert_eq!((block[0], block[15]), (108, 41));
    }

    #[test]
    fn a_block_of_16_and_its_marks_in_every_word() {
        let full: Vec<u8> = (0..=255).collect();
        let border: Vec<u8> = (0..64).collect();
        let pattern = [0x8000, 1, 0x3 << 20, 0xF << 60];
        let mut block = [9; 256];
        assert_eq!(predict(16, &pattern, &border, &full, 1, -2, &mut block), Ok(8));
        let marked: Vec<usize> = (0..256).filter(|&i| block[i] == 47 - 2).collect();
        assert_eq!(marked, [15, 64, 148, 149, 252, 253, 254, 255]);
        assert_eq!(block.iter().filter(|&&sample| sample == 7 + 1).count(), 248);
    }

    #[test]
    fn below_16_words_1_to_3_make_no_difference() {
        let full: Vec<u8> = (0..=255).collect();
        let border: Vec<u8> = (0..32).map(|k| 7 * k).collect();
        for (n, word) in [(4, 0xFFF0), (4, 0x0001), (8, 0xFF00_0000_0000_0001), (8, 0)] {
            let (mut block, mut other) = (vec![0; n * n], vec![1; n * n]);
            let answer = predict(n, &of(word), &border[..4 * n], &full, 0, 3, &mut block);
            let more = [word, u64::MAX, 0x10000, 5];
            assert_eq!(predict(n, &more, &border[..4 * n], &full, 0, 3, &mut other), answer);
            assert_eq!((answer, block), (Ok(word.count_ones()), other));
        }
    }

    #[test]
    fn refusals_in_order_and_the_block_untouched() {
        let mut block = [9; 17];
        let word = 0x10000;
        assert_eq!(predict(5, &of(word), &[0; 3], &[], 256, 0, &mut block), Err(1));
        assert_eq!(predict(4, &of(word), &[0; 15], &[], 256, 0, &mut block[..16]), Err(2));
        assert_eq!(predict(4, &of(word), &[0; 16], &[], 256, 0, &mut block), Err(2));
        assert_eq!(predict(4, &of(word), &[0; 16], &[], 256, 0, &mut block[..16]), Err(3));
        assert_eq!(predict(4, &of(word), &[0; 16], &[7], 256, 0, &mut block[..16]), Err(5));
        assert_eq!(predict(4, &of(1), &[0; 16], &[7], 256, 0, &mut block[..16]), Err(4));
        assert_eq!(predict(4, &of(1), &[0; 16], &[7], 0, -256, &mut block[..16]), Err(4));
        assert_eq!(predict(4, &of(1), &[0; 16], &[7], 0, i32::MIN, &mut block[..16]), Err(4));
        assert_eq!(block, [9; 17]);
        let (border, all, mut block) = ([0; 64], [u64::MAX; 4], [9; 256]);
        assert_eq!(predict(12, &all, &border[..48], &[7], 0, 0, &mut block[..144]), Err(1));
        assert_eq!(predict(32, &all, &[0; 128], &[7], 0, 0, &mut [0; 1024]), Err(1));
        assert_eq!(predict(16, &all, &border[..32], &[], 256, 0, &mut block), Err(2));
        assert_eq!(predict(16, &all, &border, &[], 256, 0, &mut block[..64]), Err(2));
        assert_eq!(predict(16, &all, &border, &[], 256, 0, &mut block), Err(3));
        assert_eq!(predict(16, &all, &border, &[7], 256, 0, &mut block), Err(4));
        assert_eq!(predict(16, &all, &border, &[7], 255, 0, &mut block), Err(24));
        assert_eq!(block, [9; 256]);
        assert_eq!(predict(16, &all, &border, &[7], 0, 0, &mut block), Ok(256));
    }

    /// What a prediction in blocks of 4 with a table of so many values answers to the offsets; refused, it leaves the block.
    fn answer_to(count: usize, off0: i32, off1: i32) -> Result<u32, u32> {
        let mut block = [9; 16];
        let answer = predict(4, &of(0xFFF0), &[0; 16], &spread_table(count), off0, off1, &mut block);
        assert!(answer.is_ok() || block == [9; 16]);
        answer
    }

    #[test]
    fn an_offset_is_below_the_table_count_in_either_place() {
        for (count, usable, not) in [(1, 0, 1), (2, 1, 2), (3, 2, 3), (40, 39, 40), (255, 254, 255)] {
            for sign in [-1, 1] {
                assert_eq!(answer_to(count, sign * usable, 0), Ok(12));
                assert_eq!(answer_to(count, 0, sign * usable), Ok(12));
                for far in [sign * not, sign * 255] {
                    assert_eq!(answer_to(count, far, 0), Err(24));
                    assert_eq!(answer_to(count, 0, far), Err(24));
                    assert_eq!(answer_to(count, far, far), Err(24));
                    assert_eq!(answer_to(count, -far, usable), Err(24));
                }
            }
        }
        for offset in -255..=255 {
            assert_eq!(answer_to(256, offset, -offset), Ok(12));
        }
    }

    #[test]
    fn both_offsets_are_judged_by_4_before_either_by_24() {
        for (off0, off1) in
            [(3, 300), (300, 3), (-3, 256), (-256, 3), (3, i32::MIN), (i32::MAX, -255), (256, 0)]
        {
            assert_eq!(answer_to(3, off0, off1), Err(4));
        }
        for (off0, off1) in [(256, 0), (0, -256), (-256, 255)] {
            assert_eq!(answer_to(256, off0, off1), Err(4));
        }
    }

    #[test]
    fn refusal_24_comes_last() {
        let (high, mut block) = (of(0x10000), [9; 16]);
        assert_eq!(predict(5, &high, &[0; 15], &[7, 7], 2, 0, &mut block), Err(1));
        assert_eq!(predict(4, &high, &[0; 15], &[7, 7], 2, 0, &mut block), Err(2));
        assert_eq!(predict(4, &high, &[0; 16], &[7, 7], 2, 0, &mut block), Err(3));
        assert_eq!(predict(4, &high, &[0; 16], &[], 1, 0, &mut block), Err(3));
        assert_eq!(predict(4, &high, &[0; 16], &[7, 8], 2, 0, &mut block), Err(5));
        assert_eq!(predict(4, &of(1), &[0; 16], &[7, 8], 2, 256, &mut block), Err(4));
        assert_eq!(predict(4, &of(1), &[0; 16], &[7, 8], 2, 0, &mut block), Err(24));
        assert_eq!(predict(8, &high, &[0; 32], &[7, 8], 0, -2, &mut [0; 64]), Err(24));
        assert_eq!(block, [9; 16]);
    }
}
