//! Cases of side depths and predictions.

use crate::patterns::test_patterns;
use crate::slices::{full_table, given, pairs_about, pattern, random, spread_table, Slice, COUNTS, SIZES};
use reference::block::{all_marked, Pattern};

pub fn print() {
    sides();
    predictions();
}

/// The pseudo-random border.
fn border(n: usize) -> Slice {
    random(900 + n, 4 * n)
}

/// The border L(k) = 10 + sk, T(k) = 100 + sk, s being 10, and 5 for N = 16; `end` is added to L(2N - 1).
fn rising_border(n: usize, end: u8) -> Slice {
    let slope = if n == 16 { 5 } else { 10 };
    let run = |first: u8| (0..2 * n).map(move |k| first + slope * k as u8);
    let mut border: Vec<u8> = run(10).chain(run(100)).collect();
    border[2 * n - 1] += end;
    given(&border)
}

/// A pattern whose words 1 to 3, which are not read below N = 16, have all bits.
fn unread(pattern: &Pattern) -> Pattern {
    [pattern[0], u64::MAX, u64::MAX, u64::MAX]
}

fn sides_case(n: usize, marked: &Pattern, border: &Slice) {
    println!("sides {n} {} |n {border}", pattern(marked));
}

/// The side depths of the patterns of `test_patterns`, those of its first seven with two more borders, those seven with words that
/// are not read, then refusals.
fn sides() {
    for n in SIZES {
        for marked in test_patterns(n, if n == 16 { 70 } else { 7 }) {
            sides_case(n, &marked, &border(n));
        }
        for end in [0, 1] {
            for marked in &test_patterns(n, 1)[..7] {
                sides_case(n, marked, &rising_border(n, end));
            }
        }
    }
    for n in [4, 8] {
        for marked in &test_patterns(n, 1)[..7] {
            sides_case(n, &unread(marked), &rising_border(n, 0));
        }
    }
    side_refusals();
}

/// Side depths refused (some are accepted): n, word 0 (words 1 to 3 are 0) and the length of a border of zeros.
fn side_refusals() {
    let bit16 = 0x10000;
    for (n, word, length) in [
        (5, 0, 20),
        (5, bit16, 0),
        (4, 0, 15),
        (4, 0, 17),
        (4, bit16, 15),
        (4, bit16, 16),
        (8, 0, 31),
        (8, bit16, 31),
        (8, bit16, 32),
        (12, 0, 48),
        (16, 0, 63),
        (16, bit16, 32),
        (16, bit16, 64),
    ] {
        sides_case(n, &[word, 0, 0, 0], &given(&vec![0; length]));
    }
}

/// A prediction; the lent block has `length` samples, all 9.
pub fn predict_case(
    n: usize,
    marked: &Pattern,
    border: &Slice,
    table: &Slice,
    offsets: (i32, i32),
    length: usize,
) {
    let block = given(&vec![9; length]);
    println!("predict {n} {} {} {} |n {border} |t {table} |s {block}", pattern(marked), offsets.0, offsets.1);
}

/// Predictions for patterns, tables and offset pairs, then some with words that are not read, those about the table count, then refusals.
fn predictions() {
    let tables = [given(&[77]), given(&[100, 128, 140]), full_table()];
    let pairs = [(0, 0), (-1, 1), (1, -1), (-255, 255), (255, -255), (256, 0), (0, -256)];
    for n in SIZES {
        for marked in test_patterns(n, if n == 16 { 1200 } else { 60 }) {
            for table in &tables {
                for offsets in pairs {
                    predict_case(n, &marked, &border(n), table, offsets, n * n);
                }
            }
        }
    }
    for n in [4, 8] {
        for marked in &test_patterns(n, 1)[..7] {
            predict_case(n, &unread(marked), &border(n), &full_table(), (-1, 1), n * n);
        }
    }
    for n in SIZES {
        about_the_count(n);
    }
    prediction_refusals();
}

/// Predictions with offsets about the table count. The unmarked samples have depth 0 and the marked ones depth 255, or the other way
/// round, so that each side stands at an end of the table, and what passes is held there or reaches the other end.
fn about_the_count(n: usize) {
    let border = given(&[vec![255; 2 * n], vec![0; 2 * n]].concat());
    let (rows, all) = (test_patterns(n, 1)[7], all_marked(n));
    let first_row = [0, 1, 2, 3].map(|k| all[k] ^ rows[k]);
    for count in COUNTS {
        for offsets in pairs_about(count) {
            predict_case(n, &rows, &border, &spread_table(count), offsets, n * n);
        }
        let most = count as i32 - 1;
        for offsets in [(-most, most), (most, -most), (-most, -most), (most, most)] {
            predict_case(n, &first_row, &border, &spread_table(count), offsets, n * n);
        }
    }
}

/// Predictions refused: each early fault together with later ones, so the order shows. Words 1 to 3 are 0. The second half has an offset
/// that the table can't use in each.
fn prediction_refusals() {
    for n in SIZES {
        let (border, none, fives, five) = (border(n), given(&[]), given(&[5, 5]), given(&[5]));
        let three = given(&[100, 128, 140]);
        let short = given(&border.samples[..4 * n - 1]);
        for (other, word, border, table, offsets, length) in [
            (n + 1, 0x10000, &short, &none, (256, 0), n * n - 1),
            (n, 0x10000, &short, &none, (256, 0), n * n - 1),
            (n, 0x10000, &border, &none, (256, 0), n * n - 1),
            (n, 0x10000, &border, &none, (256, 0), n * n),
            (n, 0x10000, &border, &fives, (256, 0), n * n),
            (n, 0x10000, &border, &five, (256, 0), n * n),
            (n, 0x10, &border, &five, (256, 0), n * n),
            (n, 0x10, &border, &five, (0, -256), n * n),
            (n, 0x10000, &border, &five, (0, 0), n * n),
            (n + 1, 0x10000, &short, &fives, (2, 256), n * n),
            (n, 0x10000, &short, &fives, (2, 256), n * n),
            (n, 0x10000, &border, &fives, (2, 256), n * n),
            (n, 0x10000, &border, &five, (1, 256), n * n),
            (n, 0x10000, &border, &five, (1, 0), n * n),
            (n, 0x10, &border, &three, (3, 300), n * n),
            (n, 0x10, &border, &three, (-256, 3), n * n),
            (n, 0x10, &border, &three, (3, -3), n * n),
            (n, 0x10, &border, &three, (2, -3), n * n),
        ] {
            predict_case(other, &[word, 0, 0, 0], border, table, offsets, length);
        }
    }
}
