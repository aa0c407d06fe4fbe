//! Cases of tables and patterns: index of a depth, marks, contours, wedgelet lists.

use crate::slices::{built, built_in, full_table, given, pattern, random, Slice, SIZES};
use reference::block::{all_marked, list_words, pattern_where, Pattern};
use reference::edges::edge_list;

pub fn print() {
    wedgelets();
    contours();
    indices();
    marks();
}

/// The whole lists for N = 4 and 8, the first three and the last three patterns of 16; then refusals. The lent words are those of
/// another list before.
fn wedgelets() {
    for n in SIZES {
        let words = list_words(n, &edge_list(n)).len();
        let shown = if n == 16 { vec![(0, 12), (words - 12, words)] } else { vec![(0, words)] };
        for (first, end) in shown {
            println!("wedgelets {n} {first} {end} |l {}", built(if n == 8 { 16 } else { 8 }));
        }
    }
    let small = [(4, 0), (4, 131), (4, 132), (8, 132), (8, 755), (8, 756)];
    let large = [(16, 3540), (16, 14159), (16, 14160), (12, 14160), (32, 14160)];
    for (n, length) in (0..=17).map(|n| (n, 756)).chain(small).chain(large) {
        println!("wedgelets {n} 0 0 |l {}", built_in(8, length));
    }
}

/// Sample i of texture 0 to 17: constant, one sample, a row, a column, rising, falling; corners above and below the others; one corner
/// above the others by 4, or by 1 to 3, where a quarter of the sum is rounded.
fn contour_sample(case: usize, n: usize, i: usize) -> u8 {
    let (x, y, last) = (i % n, i / n, n - 1);
    let of = |chosen: bool, yes: u8, no: u8| if chosen { yes } else { no };
    let corners = [0, last, n * last, n * n - 1];
    match case {
        0 => 0,
        1 => 255,
        2 => 100,
        3 => of(i == 0, 255, 0),
        4 => of(i == n * n - 1, 255, 0),
        5 => of(y == 0, 200, 50),
        6 => of(x == 0, 200, 50),
        7 => i as u8,
        8 => 255 - i as u8,
        9 => of(corners.contains(&i), 100, 90),
        10 => of(corners.contains(&i), 90, 100),
        11..=14 if x == 1 && y == 1 => 8,
        11..=14 if x == 2 && y == 1 => 9,
        11..=14 => of(i == corners[case - 11], 11, 7),
        _ if x == 1 && y == 1 => 8,
        _ => of(i == corners[case - 15], 8 + (case - 15) as u8, 7),
    }
}

/// A texture by its number: those from 18 up are pseudo-random.
fn texture(case: usize, n: usize) -> Slice {
    let bytes = random(case * 1000 + n, n * n);
    match case {
        0..=17 => given(&(0..n * n).map(|i| contour_sample(case, n, i)).collect::<Vec<u8>>()),
        18..=27 => bytes,
        _ => given(&bytes.samples.iter().map(|byte| byte % 4).collect::<Vec<u8>>()),
    }
}

/// Contours of 40 textures of each size; then refusals.
fn contours() {
    for n in SIZES {
        for case in 0..40 {
            println!("contour {n} |x {}", texture(case, n));
        }
    }
    for n in [0, 3, 4, 5, 8, 12, 16, 32] {
        for length in [0, 15, 16, 17, 63, 64, 65, 144, 255, 256, 257] {
            println!("contour {n} |x {}", given(&vec![0; length]));
        }
    }
}

/// The indices of all depths in five tables; then the refusal of seven tables, sound and unsound.
fn indices() {
    for table in [&[128][..], &[100, 140], &[0, 255], &[100, 128, 140], &full_table().samples] {
        for depth in 0..256 {
            println!("index {depth} |t {}", given(table));
        }
    }
    let long: Vec<u8> = (0..257).map(|i| (i % 256) as u8).collect();
    for table in [&[][..], &long, &[5, 5], &[7, 6], &[0, 1, 2, 2], &[9], &full_table().samples] {
        println!("index 0 |t {}", given(table));
    }
}

/// Seven patterns chosen for their corner marks, then every `step`-th entry of the list from entry 0.
pub fn test_patterns(n: usize, step: usize) -> Vec<Pattern> {
    let last = n - 1;
    let marked = |corners: &[(usize, usize)]| pattern_where(n, |x, y| corners.contains(&(x, y)));
    let (all, first, top_right, bottom_left) = (all_marked(n), (0, 0), (last, 0), (0, last));
    let others = [0, 1, 2, 3].map(|k| all[k] ^ marked(&[first])[k]);
    let mut patterns = vec![[0; 4], all, marked(&[first]), others];
    patterns.extend([marked(&[top_right]), marked(&[bottom_left]), marked(&[top_right, bottom_left])]);
    patterns.extend(edge_list(n).iter().step_by(step));
    patterns
}

/// Marks of the patterns chosen for their corners: the first and the last bit of each word, the corners, and a bit past the last word.
fn marks() {
    for n in SIZES {
        for marked in &test_patterns(n, 1)[..7] {
            for k in [0, 3, 7, 12, 15, 56, 63, 64, 127, 128, 191, 192, 240, 255, 256] {
                println!("marks {k} {}", pattern(marked));
            }
        }
    }
}
