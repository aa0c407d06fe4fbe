//! Cases of the level law (document 02, Ask 8): blocks as they are, lowered until a sample or a table value is 0, and raised until one is
//! 255. The three choices of a block have one answer, and its predictions rise with it.

use crate::blocks::predict_case;
use crate::choices::Case;
use crate::slices::{built, given, random, Slice, SIZES};
use reference::block::{mark, words_of, Pattern};
use reference::choice::{choose, pattern_of, Choice, Request};
use reference::edges::edge_words;
use reference::levels::Levels;
use reference::outline::outline;
use reference::random::Random;

/// A block: what the law adds a number to, and what it keeps. The list is the one built for n.
struct Block {
    n: usize,
    levels: Levels,
    reach: u32,
    texture: Slice,
}

impl Block {
    /// The block whose n the border's length gives.
    fn new(border: Vec<u8>, original: Vec<u8>, table: Vec<u8>, reach: u32, texture: Slice) -> Block {
        Block { n: border.len() / 4, levels: Levels { border, original, table }, reach, texture }
    }

    /// The block as it is, lowered as far as there is room, and raised as far.
    fn three(&self) -> [Levels; 3] {
        let (least, most) = self.levels.room();
        [0, least, most].map(|by| self.levels.raised(by).unwrap())
    }

    /// The answer to the choice with border, original and table as in `levels`.
    fn chosen(&self, levels: &Levels) -> Result<Choice, u32> {
        let list = edge_words(self.n);
        choose(&Request {
            n: self.n,
            list,
            count: list.len() / words_of(self.n),
            border: &levels.border,
            original: &levels.original,
            table: &levels.table,
            reach: self.reach,
            texture: &self.texture.samples,
        })
    }

    /// The chosen record's pattern; its offsets, and the farthest that the table can use.
    fn records(&self) -> (Pattern, [(i32, i32); 2]) {
        let record = self.chosen(&self.levels).unwrap().record;
        let most = self.levels.table.len() as i32 - 1;
        let pattern = pattern_of(self.n, record.kind, record.entry, &self.texture.samples).unwrap();
        (pattern, [(record.off0, record.off1), (-most, most)])
    }
}

/// Pseudo-random samples from `first` on, in a range of so many values.
fn near(seed: usize, length: usize, first: u8, width: u8) -> Vec<u8> {
    Random(seed as u64).bytes(length).iter().map(|byte| first + byte % width).collect()
}

/// The samples of a block, each by its column and row.
fn drawn(n: usize, sample: impl Fn(usize, usize) -> u8) -> Vec<u8> {
    (0..n * n).map(|i| sample(i % n, i / n)).collect()
}

/// One value where the condition holds, the other where not.
fn of(chosen: bool, yes: u8, no: u8) -> u8 {
    if chosen {
        yes
    } else {
        no
    }
}

/// Blocks that show an edge: a vertical one, a slanting one that is not even, and a marked corner, for which the runs of the border differ
/// alike from end to end and the first depth lies between two table values.
fn edges(n: usize) -> Vec<Block> {
    let (none, last) = (given(&[]), 2 * n - 1);
    let vertical = drawn(n, |x, _| of(x < n / 2, 90, 170));
    let slanting = drawn(n, |x, y| of(x + y < n, 60, 150) + ((x + 2 * y) % 3) as u8);
    let corner = drawn(n, |x, y| of(x + y == last - 1, 130, 100));
    let split = (0..4 * n).map(|i| of(i >= 3 * n, 170, 90)).collect();
    let alike = (0..4 * n).map(|i| of(i > last, 100, 101) + (30 * (i % (2 * n)) / last) as u8).collect();
    let many = (40..=200).step_by(5).collect();
    vec![
        Block::new(split, vertical, vec![50, 90, 130, 170, 210], 4, none.clone()),
        Block::new(near(61000 + n, 4 * n, 70, 80), slanting, many, 255, none.clone()),
        Block::new(alike, corner, vec![90, 96, 104, 130, 136], 1, none),
    ]
}

/// Blocks that show the contour of their texture, which is pseudo-random, or marks four samples in the middle.
fn contours(n: usize) -> Vec<Block> {
    let texture = random(60000 + n, n * n);
    let marked = outline(n, &texture.samples);
    let middle = |x: usize, y: usize| [x, y].iter().all(|&k| k == n / 2 || k + 1 == n / 2);
    let (any, four) = (near(62000 + n, 4 * n, 100, 40), near(63000 + n, 4 * n, 110, 20));
    let shown = drawn(n, |x, y| of(mark(n, &marked, x, y), 160, 80));
    let spot = drawn(n, |x, y| of(middle(x, y), 150, 90));
    vec![
        Block::new(any, shown, vec![80, 100, 120, 140, 160], 2, texture),
        Block::new(four, spot, vec![90, 150], 255, given(&drawn(n, |x, y| of(middle(x, y), 9, 7)))),
    ]
}

/// Flat blocks, with ties between all records and in a table of one value, and pseudo-random ones in a narrow range and a wider one.
fn others(n: usize) -> Vec<Block> {
    let (none, texture) = (given(&[]), |seed: usize| random(seed + n, n * n));
    let original = |seed: usize, first: u8, width: u8| near(seed + n, n * n, first, width);
    let border = |seed: usize, first: u8, width: u8| near(seed + n, 4 * n, first, width);
    let (uneven, many) = (vec![97, 100, 103, 104, 110, 113, 121], (100..=180).collect());
    vec![
        Block::new(vec![128; 4 * n], vec![128; n * n], vec![120, 128, 136], 2, texture(64000)),
        Block::new(border(65000, 90, 70), vec![128; n * n], vec![130], 255, none),
        Block::new(border(66000, 100, 20), original(67000, 100, 20), uneven, 0, texture(68000)),
        Block::new(border(69000, 100, 80), original(70000, 100, 80), many, 17, texture(71000)),
    ]
}

/// All blocks for n.
fn blocks(n: usize) -> Vec<Block> {
    edges(n).into_iter().chain(contours(n)).chain(others(n)).collect()
}

/// One of the blocks for n, by its place.
fn numbered(n: usize, number: usize) -> Block {
    blocks(n).swap_remove(number)
}

/// The blocks of which records are predicted: the vertical edge, the contour of a texture, and the pseudo-random block of reach 0.
const PREDICTED: [usize; 3] = [0, 3, 7];

/// The choices of all blocks, then the predictions of some, each at its three levels.
pub fn print() {
    for n in SIZES {
        for block in blocks(n) {
            for Levels { border, original, table } in block.three() {
                Case {
                    size: n,
                    n,
                    list: (built(n), edge_words(n).len() / words_of(n)),
                    border: given(&border),
                    original: given(&original),
                    table: given(&table),
                    reach: block.reach,
                    texture: block.texture.clone(),
                }
                .print();
            }
        }
    }
    for n in SIZES {
        for block in PREDICTED.map(|number| numbered(n, number)) {
            let (pattern, offsets) = block.records();
            for pair in offsets {
                for Levels { border, table, .. } in block.three() {
                    predict_case(n, &pattern, &given(&border), &given(&table), pair, n * n);
                }
            }
        }
    }
}

#[cfg(test)]
mod tests {
    use super::*;
    use reference::levels::raised;
    use reference::predict::predict;

    #[test]
    fn the_three_choices_of_a_block_have_one_answer() {
        for block in SIZES.iter().flat_map(|&n| blocks(n)) {
            let three = block.three();
            let all = |levels: &Levels| [&levels.border[..], &levels.original, &levels.table].concat();
            assert!(!all(&three[0]).contains(&0) && !all(&three[0]).contains(&255));
            assert!(all(&three[1]).contains(&0) && all(&three[2]).contains(&255));
            let answers = three.map(|levels| block.chosen(&levels));
            assert!(answers[0].is_ok());
            assert!(answers.iter().all(|answer| *answer == answers[0]));
        }
    }

    #[test]
    fn the_predictions_of_a_block_rise_by_the_number() {
        for (n, number) in SIZES.iter().flat_map(|&n| PREDICTED.map(|number| (n, number))) {
            let block = numbered(n, number);
            let ((pattern, offsets), (least, most)) = (block.records(), block.levels.room());
            for (off0, off1) in offsets {
                let samples = block.three().map(|levels| {
                    let mut block = vec![9; n * n];
                    predict(n, &pattern, &levels.border, &levels.table, off0, off1, &mut block).unwrap();
                    block
                });
                assert_eq!(raised(&samples[0], least).as_ref(), Some(&samples[1]));
                assert_eq!(raised(&samples[0], most).as_ref(), Some(&samples[2]));
            }
        }
    }

    /// Whether every offset in use was tried for both sides of every pattern.
    fn all_tried(block: &Block, tried: u32) -> bool {
        let patterns =
            edge_words(block.n).len() / words_of(block.n) + !block.texture.samples.is_empty() as usize;
        let reach = block.reach.min(block.levels.table.len() as u32 - 1);
        tried == 2 * patterns as u32 * (2 * reach + 1)
    }

    #[test]
    fn the_blocks_have_every_kind_of_answer() {
        for n in SIZES {
            let answer = |block: &Block| block.chosen(&block.levels).unwrap();
            for (number, kind, free) in
                [(0, 0, true), (1, 0, false), (2, 0, false), (3, 1, true), (4, 1, true)]
            {
                let Choice { record, cost, .. } = answer(&numbered(n, number));
                assert_eq!((record.kind, cost == 0), (kind, free));
            }
            for whole in [false, true] {
                assert!(blocks(n).iter().any(|block| all_tried(block, answer(block).tried) == whole));
            }
            let outside = |block: Block| block.records().1[1].1 > block.reach as i32;
            assert_eq!(PREDICTED.map(|number| outside(numbered(n, number))), [false, true, true]);
        }
    }

    #[test]
    fn a_border_a_table_or_an_original_left_as_it_was_has_another_answer() {
        for n in SIZES {
            let mut others = [0; 3];
            for block in blocks(n) {
                let ([was, _, high], answer) = (block.three(), block.chosen(&block.levels));
                let border = Levels { border: was.border, ..high.clone() };
                let original = Levels { original: was.original, ..high.clone() };
                for (left, levels) in
                    [border, original, Levels { table: was.table, ..high }].iter().enumerate()
                {
                    others[left] += (block.chosen(levels) != answer) as u32;
                }
            }
            assert!(others.iter().all(|&count| count > 0));
        }
    }
}
