//! "A block is n rows of n samples; (x, y) is column and row from 0." A pattern has a mark for each sample. Up to n = 8 it "is
//! an unsigned 64-bit word: bit y·n + x is the mark of sample (x, y)"; for n = 16 it "is four 64-bit words, word k holding rows
//! 4k to 4k + 3, row by row, lowest bit first".

use crate::{LENGTH, SIZE};

/// The words of a pattern. Up to n = 8 the pattern is word 0 alone, and words 1 to 3 are not read.
pub type Pattern = [u64; 4];

/// n = 4, 8 or 16.
pub fn size_allowed(n: usize) -> bool {
    n == 4 || n == 8 || n == 16
}

/// The words that a pattern has.
pub fn words_of(n: usize) -> usize {
    if n == 16 {
        4
    } else {
        1
    }
}

/// The word that holds the mark of sample (x, y), and the bit in it. A word of 64 bits has room for 64/n rows.
fn place(n: usize, x: usize, y: usize) -> (usize, usize) {
    let rows = 64 / n;
    (y / rows, y % rows * n + x)
}

/// The mark of sample (x, y).
pub fn mark(n: usize, pattern: &Pattern, x: usize, y: usize) -> bool {
    let (word, bit) = place(n, x, y);
    pattern[word] >> bit & 1 == 1
}

/// The pattern that marks the samples of which `marked` is true; words that it does not need are 0.
pub fn pattern_where(n: usize, marked: impl Fn(usize, usize) -> bool) -> Pattern {
    let mut pattern = [0; 4];
    for y in 0..n {
        for x in 0..n {
            if marked(x, y) {
                let (word, bit) = place(n, x, y);
                pattern[word] |= 1 << bit;
            }
        }
    }
    pattern
}

/// The pattern that marks all n² samples.
pub fn all_marked(n: usize) -> Pattern {
    pattern_where(n, |_, _| true)
}

/// The number of marks, "counted on the word itself": on all bits of the words that the pattern has.
pub fn marks(n: usize, pattern: &Pattern) -> u32 {
    let bits = |word: u64| (0..64).filter(|bit| word >> bit & 1 == 1).count() as u32;
    pattern[..words_of(n)].iter().map(|&word| bits(word)).sum()
}

/// The patterns of a list of words: the whole ones, in order.
pub fn patterns_of(n: usize, list: &[u64]) -> Vec<Pattern> {
    list.chunks_exact(words_of(n)).map(|words| pattern_of_words(n, words)).collect()
}

/// The pattern of so many words as it has.
fn pattern_of_words(n: usize, words: &[u64]) -> Pattern {
    let mut pattern = [0; 4];
    pattern[..words_of(n)].copy_from_slice(words);
    pattern
}

/// The pattern that stands at an entry of a list of words.
pub fn pattern_at(n: usize, list: &[u64], entry: usize) -> Pattern {
    let words = words_of(n);
    pattern_of_words(n, &list[words * entry..words * (entry + 1)])
}

/// The words of a list of patterns, as they are lent.
pub fn list_words(n: usize, patterns: &[Pattern]) -> Vec<u64> {
    patterns.iter().flat_map(|pattern| pattern[..words_of(n)].to_vec()).collect()
}

/// The block with the sample of (x, y) moved to (y, x). Refusals: 1, 2.
pub fn transposed(n: usize, samples: &[u8]) -> Result<Vec<u8>, u32> {
    if !size_allowed(n) {
        return Err(SIZE);
    }
    if samples.len() != n * n {
        return Err(LENGTH);
    }
    let mut turned = vec![0; n * n];
    for y in 0..n {
        for x in 0..n {
            turned[x * n + y] = samples[y * n + x];
        }
    }
    Ok(turned)
}

/// The pattern with the mark of (x, y) moved to (y, x).
pub fn transposed_pattern(n: usize, pattern: &Pattern) -> Pattern {
    pattern_where(n, |x, y| mark(n, pattern, y, x))
}

#[cfg(test)]
mod tests {
    use super::*;
    use crate::random::Random;

    #[test]
    fn full_patterns() {
        assert_eq!(all_marked(4), [0xFFFF, 0, 0, 0]);
        assert_eq!(all_marked(8), [u64::MAX, 0, 0, 0]);
        assert_eq!(all_marked(16), [u64::MAX; 4]);
        assert_eq!([4, 8, 16].map(|n| marks(n, &all_marked(n))), [16, 64, 256]);
    }

    #[test]
    fn word_k_of_16_has_rows_4k_to_4k_plus_3_lowest_bit_first() {
        for (x, y, word, bit) in
            [(0, 0, 0, 0), (15, 0, 0, 15), (0, 1, 0, 16), (15, 3, 0, 63), (0, 4, 1, 0), (7, 9, 2, 23)]
        {
            let mut expected = [0; 4];
            expected[word] = 1 << bit;
            assert_eq!(pattern_where(16, |column, row| (column, row) == (x, y)), expected);
            assert!(mark(16, &expected, x, y));
        }
        assert_eq!(pattern_where(16, |_, row| row == 15), [0, 0, 0, 0xFFFF << 48]);
        assert_eq!(pattern_where(8, |_, row| row == 7), [0xFF << 56, 0, 0, 0]);
    }

    #[test]
    fn below_16_words_1_to_3_are_not_read() {
        for n in [4, 8] {
            let pattern = [0x8421, u64::MAX, 1, 1 << 63];
            assert_eq!(marks(n, &pattern), 4);
            assert_eq!(transposed_pattern(n, &pattern), transposed_pattern(n, &[0x8421, 0, 0, 0]));
        }
        assert_eq!(marks(16, &[0x8421, u64::MAX, 1, 1 << 63]), 70);
    }

    #[test]
    fn a_list_of_16_has_a_pattern_in_every_four_words() {
        let words: Vec<u64> = (10..21).collect();
        assert_eq!(patterns_of(16, &words), [[10, 11, 12, 13], [14, 15, 16, 17]]);
        assert_eq!(pattern_at(16, &words, 1), [14, 15, 16, 17]);
        assert_eq!(patterns_of(8, &words).len(), 11);
        assert_eq!(pattern_at(8, &words, 1), [11, 0, 0, 0]);
        assert_eq!(list_words(16, &patterns_of(16, &words)), words[..8]);
        assert_eq!(list_words(4, &patterns_of(4, &words)), words);
    }

    #[test]
    fn transposing_moves_rows_to_columns_and_back() {
        let block: Vec<u8> = (0..16).collect();
        let turned = transposed(4, &block).unwrap();
        assert_eq!(turned, [0, 4, 8, 12, 1, 5, 9, 13, 2, 6, 10, 14, 3, 7, 11, 15]);
        for n in [4, 8, 16] {
            let block = Random(1).bytes(n * n);
            let turned = transposed(n, &block).unwrap();
            assert_eq!(turned[n + 3], block[3 * n + 1]);
            assert_eq!(transposed(n, &turned).unwrap(), block);
        }
        assert_eq!(transposed_pattern(4, &[0xFFF0, 0, 0, 0]), [0xEEEE, 0, 0, 0]);
        assert_eq!(transposed_pattern(4, &[0x0008, 0, 0, 0]), [0x1000, 0, 0, 0]);
        assert_eq!(transposed_pattern(16, &[1 << 15, 0, 0, 0]), [0, 0, 0, 1 << 48]);
    }

    #[test]
    fn refusals_in_order() {
        assert_eq!(transposed(5, &[0; 3]), Err(1));
        assert_eq!(transposed(12, &[0; 144]), Err(1));
        assert_eq!(transposed(32, &[0; 1024]), Err(1));
        assert_eq!(transposed(4, &[0; 15]), Err(2));
        assert_eq!(transposed(8, &[0; 65]), Err(2));
        assert_eq!(transposed(16, &[0; 255]), Err(2));
    }
}
