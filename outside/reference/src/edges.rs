//! Edge list (the wedgelet list).

use crate::block::{all_marked, list_words, mark, pattern_where, size_allowed, words_of, Pattern};
use crate::{LENGTH, SIZE};
use std::sync::OnceLock;

/// "Border points are the 4n − 4 outer samples, numbered clockwise from (0,0): top row, right column,
/// bottom row, left column up to (0,1)."
pub fn border_points(n: usize) -> Vec<(i64, i64)> {
    let last = n as i64 - 1;
    let mut points = Vec::new();
    points.extend((0..=last).map(|x| (x, 0)));
    points.extend((1..=last).map(|y| (last, y)));
    points.extend((0..last).rev().map(|x| (x, last)));
    points.extend((1..last).rev().map(|y| (0, y)));
    points
}

/// "Mark (x, y) where (xe − xs)(y − ys) − (ye − ys)(x − xs) > 0. If (0,0) is marked, take the
/// complement over the n² bits."
pub fn line_pattern(n: usize, (xs, ys): (i64, i64), (xe, ye): (i64, i64)) -> Pattern {
    let beside = |x: usize, y: usize| (xe - xs) * (y as i64 - ys) - (ye - ys) * (x as i64 - xs) > 0;
    let pattern = pattern_where(n, beside);
    if mark(n, &pattern, 0, 0) {
        let all = all_marked(n);
        [0, 1, 2, 3].map(|k| pattern[k] ^ all[k])
    } else {
        pattern
    }
}

/// "Every ordered pair of different points (s, e) is a candidate, s rising, and e rising within s. A
/// zero word is dropped. A word already in the list is dropped. Kept words stand in order of coming."
pub fn edge_list(n: usize) -> Vec<Pattern> {
    let points = border_points(n);
    let mut list = Vec::new();
    for s in 0..points.len() {
        for e in 0..points.len() {
            if s == e {
                continue;
            }
            let pattern = line_pattern(n, points[s], points[e]);
            if pattern != [0; 4] && !list.contains(&pattern) {
                list.push(pattern);
            }
        }
    }
    list
}

/// The words of the edge list for an allowed n, built at the first call.
pub fn edge_words(n: usize) -> &'static [u64] {
    static BUILT: [OnceLock<Vec<u64>>; 3] = [const { OnceLock::new() }; 3];
    BUILT[n / 8].get_or_init(|| list_words(n, &edge_list(n)))
}

/// The words that the lent list needs: a pattern for each candidate, 132 for n = 4, 756 for n = 8, 3,540 of four words for n = 16.
pub fn words_needed(n: usize) -> usize {
    (4 * n - 4) * (4 * n - 5) * words_of(n)
}

/// Builds the edge list in the lent list and answers its count; "words past the count keep their old
/// content". Refusals: 1, 2.
pub fn wedgelets(n: usize, lent: &mut [u64]) -> Result<usize, u32> {
    if !size_allowed(n) {
        return Err(SIZE);
    }
    if lent.len() < words_needed(n) {
        return Err(LENGTH);
    }
    let list = edge_words(n);
    lent[..list.len()].copy_from_slice(list);
    Ok(list.len() / words_of(n))
}

#[cfg(test)]
mod tests {
    use super::*;
    use crate::block::transposed_pattern;

    #[test]
    fn border_points_go_clockwise() {
        let points = border_points(4);
        let expected =
            [(0, 0), (1, 0), (2, 0), (3, 0), (3, 1), (3, 2), (3, 3), (2, 3), (1, 3), (0, 3), (0, 2), (0, 1)];
        assert_eq!(points, expected);
        assert_eq!((border_points(8).len(), border_points(16).len()), (28, 60));
    }

    #[test]
    fn stated_entries_and_counts() {
        let stated = [0xFFF0, 0xFF70, 0xF730, 0x7310, 0x3310, 0x1110, 0x008E];
        assert_eq!(edge_words(4)[..7], stated);
        assert_eq!([4, 8, 16].map(|n| edge_list(n).len()), [74, 498, 2498]);
        assert_eq!([4, 8, 16].map(words_needed), [132, 756, 14160]);
    }

    #[test]
    fn the_first_candidates_of_16_by_hand() {
        let list = edge_list(16);
        let ones = u64::MAX;
        assert_eq!(list[0], [ones << 16, ones, ones, ones]);
        assert_eq!(list[1], [0xFFFF_FFFF_7FFF_0000, ones, ones, ones]);
        assert_eq!(
            list[..2].iter().map(|pattern| crate::block::marks(16, pattern)).collect::<Vec<u32>>(),
            [240, 239]
        );
    }

    #[test]
    fn entries_differ_are_not_zero_and_leave_the_first_sample_unmarked() {
        for n in [4, 8, 16] {
            let (list, all) = (edge_list(n), all_marked(n));
            for (entry, pattern) in list.iter().enumerate() {
                assert!(*pattern != [0; 4] && pattern[0] & 1 == 0);
                assert!((0..4).all(|k| pattern[k] & !all[k] == 0));
                assert!(!list[..entry].contains(pattern));
                assert!(list.contains(&transposed_pattern(n, pattern)));
            }
        }
    }

    #[test]
    fn words_past_the_count_keep_their_content() {
        for (n, count, length) in [(8, 498, 800), (16, 2498, 14163)] {
            let mut lent: Vec<u64> = (1000..1000 + length as u64).collect();
            let used = count * words_of(n);
            assert_eq!(wedgelets(n, &mut lent), Ok(count));
            assert!((used..length).all(|i| lent[i] == 1000 + i as u64));
            assert_eq!(lent[..used], list_words(n, &edge_list(n)));
        }
    }

    #[test]
    fn refusals_in_order_and_the_list_untouched() {
        let mut lent = vec![7; 14159];
        for n in [0, 3, 5, 7, 9, 12, 15, 17, 32, 64] {
            assert_eq!(wedgelets(n, &mut lent[..0]), Err(1));
            assert_eq!(wedgelets(n, &mut lent), Err(1));
        }
        assert_eq!(wedgelets(16, &mut lent), Err(2));
        assert_eq!(wedgelets(16, &mut lent[..3540]), Err(2));
        assert_eq!(wedgelets(8, &mut lent[..755]), Err(2));
        assert_eq!(wedgelets(4, &mut lent[..131]), Err(2));
        assert!(lent.iter().all(|&word| word == 7));
        assert_eq!(wedgelets(4, &mut lent[..132]), Ok(74));
    }
}
