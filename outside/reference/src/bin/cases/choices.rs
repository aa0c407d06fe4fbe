//! Cases of choices, and those of the same blocks transposed.

use crate::slices::{built, given, listed, random, Slice, SIZES};
use reference::block::{all_marked, list_words, pattern_where, transposed, Pattern};
use reference::edges::edge_list;
use reference::random::Random;
use reference::table::index_of;

/// The cases of the choices: fill of the original, fill of the border, table, reach, fill of the
/// texture, list, fault (0 none, 1 the border a byte short, 2 the original a byte short, 3 the texture a
/// byte short, 4 n is N + 1).
const CHOICES: [[u32; 7]; 106] = [
    // Flat blocks: ties between edges, offsets of both signs, ends of the reach and of the table.
    [0, 0, 3, 0, 15, 0, 0],
    [0, 0, 3, 5, 15, 0, 0],
    [10, 0, 3, 5, 15, 0, 0],
    [11, 0, 3, 5, 15, 0, 0],
    [10, 0, 3, 1, 15, 0, 0],
    [11, 0, 3, 1, 15, 0, 0],
    [1, 0, 3, 255, 15, 0, 0],
    [2, 0, 3, 255, 15, 0, 0],
    [0, 1, 3, 255, 15, 0, 0],
    [0, 2, 3, 255, 15, 0, 0],
    [0, 0, 3, 5, 0, 0, 0],
    // Sharp edges, without and with the texture that shows them.
    [5, 14, 3, 255, 15, 0, 0],
    [6, 14, 3, 255, 15, 0, 0],
    [7, 13, 3, 255, 15, 0, 0],
    [5, 13, 3, 5, 15, 0, 0],
    [5, 14, 3, 255, 5, 0, 0],
    [7, 0, 2, 5, 7, 0, 0],
    // Checks and a marked first sample: the outline is the better pattern.
    [8, 0, 3, 255, 8, 0, 0],
    [8, 0, 3, 255, 15, 0, 0],
    [8, 13, 2, 1, 8, 0, 0],
    [9, 13, 3, 255, 9, 0, 0],
    [9, 3, 3, 255, 9, 1, 0],
    [12, 12, 3, 5, 12, 0, 0],
    // No edges in the list: the outline alone, or refusal 10.
    [3, 3, 3, 5, 3, 1, 0],
    [3, 3, 2, 255, 0, 1, 0],
    [3, 3, 3, 5, 15, 1, 0],
    // Pseudo-random blocks: tables of one, three and 256 values, reaches 0, 1, 5 and 255.
    [3, 3, 0, 5, 15, 0, 0],
    [3, 3, 1, 255, 3, 0, 0],
    [3, 3, 2, 0, 15, 0, 0],
    [3, 3, 2, 1, 15, 0, 0],
    [3, 3, 2, 5, 3, 0, 0],
    [3, 3, 2, 255, 3, 0, 0],
    [3, 3, 3, 0, 15, 0, 0],
    [3, 3, 3, 1, 15, 0, 0],
    [3, 3, 3, 5, 3, 0, 0],
    [3, 3, 3, 255, 15, 0, 0],
    [3, 3, 3, 255, 3, 0, 0],
    [4, 4, 3, 1, 15, 0, 0],
    [4, 4, 3, 5, 4, 0, 0],
    [4, 4, 2, 5, 4, 0, 0],
    [3, 3, 3, 5, 15, 2, 0],
    // Lists of the caller: patterns that leave a side without samples, or mark the first sample.
    [0, 3, 3, 5, 15, 3, 0],
    [3, 3, 3, 255, 3, 3, 0],
    [2, 3, 2, 255, 15, 3, 0],
    [8, 1, 4, 5, 15, 3, 0],
    [8, 2, 4, 5, 15, 3, 0],
    [3, 3, 3, 255, 15, 7, 0],
    [3, 3, 3, 5, 3, 5, 0],
    // Refusals, and pairs of faults that show their order.
    [3, 3, 3, 5, 3, 4, 0],
    [3, 3, 3, 256, 15, 0, 0],
    [3, 3, 3, 256, 15, 4, 0],
    [3, 3, 3, 256, 15, 1, 0],
    [3, 3, 5, 5, 15, 4, 0],
    [3, 3, 6, 5, 15, 0, 0],
    [3, 3, 7, 256, 15, 0, 0],
    [3, 3, 5, 5, 15, 6, 0],
    [3, 3, 5, 5, 3, 0, 1],
    [3, 3, 3, 5, 3, 0, 2],
    [3, 3, 3, 5, 3, 0, 3],
    [3, 3, 3, 256, 3, 6, 4],
    // Trials that end at offset 0, at a later one, at the last two of the reach, and not at all.
    [5, 13, 3, 255, 15, 9, 0],
    [5, 14, 3, 255, 5, 9, 0],
    [6, 13, 3, 80, 15, 8, 0],
    [6, 13, 3, 79, 15, 8, 0],
    [1, 2, 3, 255, 15, 8, 0],
    [2, 1, 3, 255, 8, 8, 0],
    [2, 1, 3, 254, 15, 8, 0],
    [9, 0, 3, 255, 9, 8, 0],
    [3, 3, 2, 0, 3, 9, 0],
    // Trials in tables of three values and of one, whose reach is far above what the table can use.
    [6, 13, 2, 255, 6, 8, 0],
    [0, 3, 2, 255, 0, 9, 0],
    [0, 3, 0, 255, 8, 9, 0],
    [3, 3, 1, 255, 15, 8, 0],
    // Sides without samples.
    [10, 0, 3, 0, 15, 3, 0],
    [10, 0, 3, 255, 0, 3, 0],
    [11, 3, 3, 255, 15, 3, 0],
    [0, 3, 0, 255, 15, 3, 0],
    [1, 3, 1, 255, 8, 3, 0],
    // Reaches below, at and above the table count less 1: tables of one, two, three and 256 values.
    [3, 3, 0, 0, 15, 8, 0],
    [3, 3, 0, 1, 15, 8, 0],
    [3, 3, 0, 255, 15, 8, 0],
    [3, 3, 0, 256, 15, 8, 0],
    [3, 3, 8, 0, 15, 8, 0],
    [3, 3, 8, 1, 15, 8, 0],
    [3, 3, 8, 2, 15, 8, 0],
    [3, 3, 8, 255, 15, 8, 0],
    [3, 3, 8, 256, 15, 8, 0],
    [3, 3, 9, 1, 15, 8, 0],
    [3, 3, 9, 2, 15, 8, 0],
    [3, 3, 9, 3, 15, 8, 0],
    [3, 3, 9, 255, 15, 8, 0],
    [3, 3, 9, 256, 15, 8, 0],
    [3, 3, 3, 254, 15, 8, 0],
    [3, 3, 3, 255, 15, 8, 0],
    [3, 3, 3, 256, 15, 8, 0],
    [3, 3, 8, 255, 3, 0, 0],
    [3, 3, 9, 1, 3, 0, 0],
    [3, 3, 9, 2, 15, 0, 0],
    [3, 3, 9, 255, 3, 0, 0],
    // Trials that end at the farthest offset of either sign that the table can use, or would with one offset more.
    [1, 2, 8, 255, 15, 8, 0],
    [2, 1, 8, 255, 15, 8, 0],
    [1, 2, 9, 255, 15, 8, 0],
    [2, 1, 9, 2, 15, 8, 0],
    [1, 2, 9, 1, 15, 8, 0],
    [2, 1, 9, 1, 15, 8, 0],
    [1, 2, 8, 0, 15, 8, 0],
];

/// Sample i of a fill. The same numbers serve originals, textures and borders; x = i % n, y = i / n.
/// 3 and 4 take a pseudo-random byte; 15, an empty slice, has no samples.
fn fill_sample(fill: u32, n: usize, i: usize, random: &mut Random) -> u8 {
    let (x, y) = (i % n, i / n);
    let of = |chosen: bool, yes: u8, no: u8| if chosen { yes } else { no };
    match fill {
        0 => 128,
        1 => 0,
        2 => 255,
        3 => random.byte(),
        4 => random.byte() % 4 + 126,
        5 => of(x < n / 2, 100, 180),
        6 => of(y < n / 2, 100, 180),
        7 => of(x + y < n, 40, 200),
        8 => of((x + y) % 2 == 0, 100, 156),
        9 => of(i == 0, 200, 100),
        10 => 133,
        11 => 123,
        12 => (3 * i % 256) as u8,
        13 => of(i < 2 * n, 100, 180),
        14 => of(y % 2 == 0, 100, 180),
        _ => unreachable!("fills are 0 to 15"),
    }
}

/// The fill number of an empty slice, and that of pseudo-random bytes.
const NONE: u32 = 15;
const BYTES: u32 = 3;

/// `length` samples of a fill, or none; the pseudo-random state starts as the seed.
fn filled(fill: u32, n: usize, length: usize, seed: usize) -> Slice {
    match fill {
        NONE => given(&[]),
        BYTES => random(seed, length),
        _ => {
            let mut state = Random(seed as u64);
            given(&(0..length).map(|i| fill_sample(fill, n, i, &mut state)).collect::<Vec<u8>>())
        }
    }
}

/// The tables of the choices, by number.
fn numbered_table(table: u32) -> Slice {
    let values = match table {
        0 => vec![128],
        1 => vec![77],
        2 => vec![100, 128, 140],
        3 => (0..=255).collect(),
        4 => vec![0, 50, 100, 128, 156, 200],
        5 => vec![],
        6 => vec![5, 5],
        7 => (0..257).map(|i| (i % 256) as u8).collect(),
        8 => vec![0, 255],
        9 => vec![0, 128, 255],
        _ => unreachable!("tables are 0 to 9"),
    };
    given(&values)
}

/// The patterns of which word 0 is each number and the others are 0.
fn numbered_patterns(numbers: &[u64]) -> Vec<Pattern> {
    numbers.iter().map(|&word| [word, 0, 0, 0]).collect()
}

/// The lists of the choices as fields, and their counts, by number.
fn numbered_list(list: u32, n: usize) -> (String, usize) {
    let all = all_marked(n);
    let all_but_first = [all[0] - 1, all[1], all[2], all[3]];
    let (upper, lower) = (pattern_where(n, |_, y| y < n / 2), pattern_where(n, |_, y| y >= n / 2));
    let right = pattern_where(n, |x, _| x >= n / 2);
    let (patterns, count) = match list {
        0 => return (built(n), edge_list(n).len()),
        1 => return (built(n), 0),
        2 => return (built(n), 1),
        3 => (vec![[0; 4], all], 2),
        4 => (numbered_patterns(&[0xFFF0, 0x10000]), 2),
        5 => (numbered_patterns(&[0xFFF0, 0x10000]), 1),
        6 => (numbered_patterns(&[0xFFF0, 0xEEEE]), 3),
        7 => (vec![[1, 0, 0, 0], all_but_first, [0x8008, 0, 0, 0]], 3),
        8 => (vec![upper, upper, lower, upper], 4),
        9 => (vec![right, [0; 4], right, all, right], 5),
        _ => unreachable!("lists are 0 to 9"),
    };
    let words = list_words(n, &patterns);
    (listed(words.len(), &words), count)
}

/// What a choice is given, and the N of its fills.
pub struct Case {
    pub size: usize,
    pub n: usize,
    pub list: (String, usize),
    pub border: Slice,
    pub original: Slice,
    pub table: Slice,
    pub reach: u32,
    pub texture: Slice,
}

impl Case {
    /// Case `number` of the table for N. The seeds are 10000 for the original, 20000 for the border and 30000 for the texture, each
    /// plus 10 * CASE + N.
    fn new(number: usize, size: usize) -> Case {
        let [original, border, table, reach, texture, list, fault] = CHOICES[number];
        let seed = 10 * number + size;
        let short = |of: u32| (fault == of) as usize;
        Case {
            size,
            n: size + short(4),
            list: numbered_list(list, size),
            border: filled(border, size, 4 * size - short(1), 20000 + seed),
            original: filled(original, size, size * size - short(2), 10000 + seed),
            table: numbered_table(table),
            reach,
            texture: filled(texture, size, size * size - short(3), 30000 + seed),
        }
    }

    /// The same for the block transposed: the top run comes before the left one, original and texture are transposed, and no texture
    /// stays none.
    fn turned(&self) -> Case {
        let (left, top) = self.border.samples.split_at(2 * self.size);
        let turn = |slice: &Slice| given(&transposed(self.size, &slice.samples).unwrap_or_default());
        Case {
            list: self.list.clone(),
            border: given(&[top, left].concat()),
            original: turn(&self.original),
            table: self.table.clone(),
            texture: turn(&self.texture),
            ..*self
        }
    }

    /// Prints the case as a line.
    pub fn print(&self) {
        let Case { n, list: (list, count), border, original, table, reach, texture, .. } = self;
        println!("choose {n} {count} {reach} |l {list} |n {border} |o {original} |t {table} |x {texture}");
    }
}

/// Whether a case is one of the diagonal law: the list as built, no fault, a reach up to 255 and a sound table.
fn is_sound(number: usize) -> bool {
    let [_, _, table, reach, _, list, fault] = CHOICES[number];
    list == 0 && fault == 0 && reach <= 255 && index_of(&numbered_table(table).samples, 0).is_ok()
}

/// All cases for each size; then for each size those of the diagonal law, transposed, with the contours of both textures.
pub fn print() {
    for n in SIZES {
        for number in 0..CHOICES.len() {
            Case::new(number, n).print();
        }
    }
    for n in SIZES {
        for number in (0..CHOICES.len()).filter(|&number| is_sound(number)) {
            let here = Case::new(number, n);
            let across = here.turned();
            across.print();
            if !here.texture.samples.is_empty() {
                println!("contour {n} |x {}", here.texture);
                println!("contour {n} |x {}", across.texture);
            }
        }
    }
}
