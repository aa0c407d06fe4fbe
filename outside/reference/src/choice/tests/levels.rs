//! The level law (document 02, Ask 8), and that it needs all three: border, table and original.

use super::*;
use crate::levels::{raised, Levels};
use crate::predict::predict;

/// A block: what the law adds a number to, and what it keeps.
struct Block {
    n: usize,
    list: Vec<u64>,
    levels: Levels,
    reach: u32,
    texture: Vec<u8>,
}

impl Block {
    /// The request for the block with border, original and table at another level.
    fn at<'a>(&'a self, levels: &'a Levels) -> Request<'a> {
        Request {
            n: self.n,
            list: &self.list,
            count: self.list.len() / words_of(self.n),
            border: &levels.border,
            original: &levels.original,
            table: &levels.table,
            reach: self.reach,
            texture: &self.texture,
        }
    }

    /// Numbers that can be added: down to 0, half of the way, 1 less, 1 more, half of the way, up to 255.
    fn numbers(&self) -> [i32; 6] {
        let (least, most) = self.levels.room();
        [least, least / 2, -1, 1, most / 2, most]
    }

    /// Border, original and table with a number added for which there is room.
    fn raised(&self, by: i32) -> Levels {
        self.levels.raised(by).unwrap()
    }
}

/// A table of so many rising values from `first` on, each up to `step` above the one before.
fn uneven_table(random: &mut Random, first: u8, count: usize, step: u8) -> Vec<u8> {
    let mut table = vec![first];
    while table.len() < count {
        table.push(table[table.len() - 1] + 1 + random.byte() % step);
    }
    table
}

/// A pseudo-random number below `end`.
fn below(random: &mut Random, end: usize) -> usize {
    random.byte() as usize * end / 256
}

/// Samples from a pseudo-random one on, in a range of so many values.
fn near(random: &mut Random, length: usize, width: u8) -> Vec<u8> {
    let first = 60 + random.byte() % 60;
    random.bytes(length).iter().map(|byte| first + byte % width).collect()
}

/// A block that shows a pattern in two values, the last sample one above its own in half of the blocks.
fn showing(random: &mut Random, n: usize, pattern: &Pattern, values: [u8; 2]) -> Vec<u8> {
    let mut block: Vec<u8> = (0..n * n).map(|i| values[mark(n, pattern, i % n, i / n) as usize]).collect();
    block[n * n - 1] += below(random, 2) as u8;
    block
}

/// A pseudo-random block with room below and above: border and original are flat, of two values, or in a narrow or a wider range. About
/// half of the blocks have a texture, and half of all an original that shows its outline, or where there is none an edge.
fn block(seed: u64, list: Vec<u64>, n: usize, count: usize) -> Block {
    let mut random = Random(seed);
    let first = 60 + random.byte() % 40;
    let table = uneven_table(&mut random, first, count, if count > 9 { 3 } else { 9 });
    let texture = if below(&mut random, 2) == 0 { random.bytes(n * n) } else { vec![] };
    let width = [1, 2, 7, 60][below(&mut random, 4)];
    let (border, mut original) = (near(&mut random, 4 * n, width), near(&mut random, n * n, width));
    if below(&mut random, 2) == 0 {
        let edge = patterns_of(n, &list)[below(&mut random, list.len() / words_of(n))];
        let pattern = if texture.is_empty() { edge } else { outline(n, &texture) };
        original = showing(&mut random, n, &pattern, [table[count - 1], first]);
    }
    let reach = [0, 1, 4, 255, count as u32][below(&mut random, 5)];
    Block { n, list, levels: Levels { border, original, table }, reach, texture }
}

/// The three sizes in turn.
fn size_of(seed: u64) -> usize {
    [4, 8, 16][seed as usize % 3]
}

/// Blocks with the edge list, of 16 its first 200 entries, and tables of 1 value to 40.
fn blocks() -> impl Iterator<Item = Block> {
    (0..75).map(|seed| {
        let n = size_of(seed);
        let list = &edge_words(n)[..edge_words(n).len().min(800)];
        block(800 + seed, list.to_vec(), n, [1, 2, 3, 9, 40][seed as usize % 5])
    })
}

/// Blocks with a list of six patterns, two of which leave a side without samples, and tables of 1 value to 6.
fn small_blocks() -> impl Iterator<Item = Block> {
    (0..48).map(|seed| {
        let (n, edges) = (size_of(seed), edge_list(size_of(seed)));
        let some = [edges[0], edges[5], edges[edges.len() / 2], edges[edges.len() - 1]];
        let list = [&[[0; 4], all_marked(n)][..], &some].concat();
        block(1000 + seed, list_words(n, &list), n, [1, 2, 3, 6][seed as usize % 4])
    })
}

/// What a prediction of the pattern with the offsets answers, and the block after it.
fn predicted_at(request: &Request, pattern: &Pattern, off0: i32, off1: i32) -> (Result<u32, u32>, Vec<u8>) {
    let mut block = vec![9; request.n * request.n];
    let answer = predict(request.n, pattern, request.border, request.table, off0, off1, &mut block);
    (answer, block)
}

/// Whether the prediction of each pattern of the request with each pair of offsets rises by the number in the other request; where it is
/// refused, whether it is so in both.
fn predictions_rise(here: &Request, there: &Request, by: i32, pairs: &[(i32, i32)]) -> bool {
    patterns(here).iter().all(|(_, _, pattern)| {
        pairs.iter().all(|&(off0, off1)| {
            let (answer, block) = predicted_at(here, pattern, off0, off1);
            let (other, above) = predicted_at(there, pattern, off0, off1);
            answer == other && (answer.is_err() || raised(&block, by).as_ref() == Some(&above))
        })
    })
}

/// Offsets of 0, 1 and the farthest that the table can use, within the reach and outside it, and one that it can't use.
fn some_pairs(count: usize) -> [(i32, i32); 6] {
    let most = count as i32 - 1;
    [(0, 0), (-1, 1), (1, 0), (-most, most), (most, -most), (0, most + 1)]
}

#[test]
fn level_law_on_pseudo_random_blocks() {
    for block in blocks() {
        let here = block.at(&block.levels);
        let chosen = choose(&here);
        assert!(chosen.is_ok());
        for by in block.numbers() {
            let levels = block.raised(by);
            let there = block.at(&levels);
            assert_eq!(choose(&there), chosen);
            assert!(predictions_rise(&here, &there, by, &some_pairs(here.table.len())));
        }
    }
}

#[test]
fn level_law_for_every_record_of_small_lists() {
    for block in small_blocks() {
        let here = block.at(&block.levels);
        let chosen = choose_by_trial(&here);
        let few = offsets(here.table.len() as u32);
        let pairs: Vec<_> = few.iter().flat_map(|&off0| few.iter().map(move |&off1| (off0, off1))).collect();
        for by in block.numbers() {
            let levels = block.raised(by);
            let there = block.at(&levels);
            assert_eq!(Ok(both(&there)), chosen);
            assert!(predictions_rise(&here, &there, by, &pairs));
        }
    }
}

#[test]
fn level_law_at_every_level() {
    for block in blocks().filter(|block| block.n == 4).step_by(5) {
        let chosen = choose(&block.at(&block.levels));
        let (least, most) = block.levels.room();
        for by in least..=most {
            assert_eq!(choose(&block.at(&block.raised(by))), chosen);
        }
    }
}

#[test]
fn the_blocks_of_the_level_law_have_every_kind_of_answer() {
    for n in [4, 8, 16] {
        let of_size = || blocks().filter(move |block| block.n == n);
        for (kind, free) in [(0, false), (0, true), (1, false), (1, true)] {
            let fits = |chosen: Choice| chosen.record.kind == kind && (chosen.cost == 0) == free;
            assert!(of_size().any(|block| fits(choose(&block.at(&block.levels)).unwrap())));
        }
        let all_tried = |request: &Request| {
            2 * patterns(request).len() * passing_offsets(request).len()
                == choose(request).unwrap().tried as usize
        };
        for whole in [false, true] {
            assert!(of_size().any(|block| all_tried(&block.at(&block.levels)) == whole));
        }
        assert!(of_size().all(|block| block.levels.room().0 < -1 && block.levels.room().1 > 1));
    }
}

/// The block's levels with the number added to all but one of border, original and table.
fn all_but_one(block: &Block, by: i32, left: usize) -> Levels {
    let (levels, was) = (block.raised(by), block.levels.clone());
    match left {
        0 => Levels { border: was.border, ..levels },
        1 => Levels { original: was.original, ..levels },
        _ => Levels { table: was.table, ..levels },
    }
}

#[test]
fn the_level_law_needs_border_original_and_table() {
    for n in [4, 8, 16] {
        let (mut chosen, mut predicted) = ([0; 3], [0; 3]);
        for block in blocks().filter(|block| block.n == n) {
            let here = block.at(&block.levels);
            let (answer, (least, most)) = (choose(&here), block.levels.room());
            for (left, by) in [(0, least), (0, most), (1, least), (1, most), (2, least), (2, most)] {
                let levels = all_but_one(&block, by, left);
                chosen[left] += (choose(&block.at(&levels)) != answer) as u32;
                predicted[left] += !predictions_rise(&here, &block.at(&levels), by, &[(0, 0)]) as u32;
            }
        }
        assert!(chosen.iter().all(|&count| count > 0));
        assert!(predicted[0] > 0 && predicted[1] == 0 && predicted[2] > 0);
    }
}

/// The bytes one further than the room allows, modulo 256.
fn one_too_far(samples: &[u8], by: i32) -> Vec<u8> {
    samples.iter().map(|&sample| (i32::from(sample) + by + by.signum()).rem_euclid(256) as u8).collect()
}

#[test]
fn a_table_one_step_too_far_is_refused() {
    for block in blocks() {
        let here = block.at(&block.levels);
        let (first, last) = (i32::from(here.table[0]), i32::from(here.table[here.table.len() - 1]));
        for table in [one_too_far(here.table, -first), one_too_far(here.table, 255 - last)] {
            let there = Request { table: &table, ..here };
            assert_eq!(choose(&there) == Err(3), table.len() > 1);
            assert_eq!(predicted_at(&there, &[0; 4], 0, 0).0 == Err(3), table.len() > 1);
        }
    }
}

#[test]
fn a_border_or_an_original_one_step_too_far_can_have_another_answer() {
    let mut others = [0; 2];
    for block in blocks() {
        let (answer, (least, most)) = (choose(&block.at(&block.levels)), block.levels.room());
        for by in [least, most] {
            assert_eq!(block.levels.raised(by + by.signum()), None);
            let (levels, was) = (block.raised(by), &block.levels);
            let border = Levels { border: one_too_far(&was.border, by), ..levels.clone() };
            let original = Levels { original: one_too_far(&was.original, by), ..levels };
            others[0] += (choose(&block.at(&border)) != answer) as u32;
            others[1] += (choose(&block.at(&original)) != answer) as u32;
        }
    }
    assert!(others.iter().all(|&count| count > 0));
}
