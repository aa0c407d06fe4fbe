//! What a file is read with: lists as built and made up, texture, and the lengths of the lent slices.

use crate::random::Random;
use crate::reading::{own, Aids, List};
use reference::block::words_of;
use reference::choice::count_allowed;
use reference::edges::edge_words;
use reference::file::{RECORDS_LENT, SAMPLES_LENT, SIZES};
use reference::sheet::Sheet;

/// The edge lists as built, for n = 4, 8 and 16.
pub struct Built([List; 3]);

impl Built {
    pub fn new() -> Built {
        Built(SIZES.map(|n| List::whole(n, edge_words(n).to_vec())))
    }

    /// The list for n, which is an allowed size.
    pub fn list(&self, n: u32) -> &List {
        &self.0[own(n)]
    }
}

impl Default for Built {
    fn default() -> Built {
        Built::new()
    }
}

/// Aids with the lists as built, and no texture.
pub fn plain_aids(built: &Built) -> Aids {
    let (samples, records) = (SAMPLES_LENT, RECORDS_LENT);
    Aids { lists: built.0.clone(), texture: vec![], samples, records }
}

/// Made-up words of so many patterns, some of them with no bit of the n² or all.
fn words(random: &mut Random, n: usize, patterns: usize) -> Vec<u64> {
    let all = if n == 4 { 0xFFFF } else { u64::MAX };
    let word = |random: &mut Random| match random.below(6) {
        0 => 0,
        1 => all,
        _ => random.word() & all,
    };
    (0..patterns * words_of(n)).map(|_| word(random)).collect()
}

/// So many words as make no pattern: none but for n = 16.
fn left_over(random: &mut Random, n: usize) -> Vec<u64> {
    let count = random.below(words_of(n));
    (0..count).map(|_| random.word()).collect()
}

/// A list and its count: as built, or made up, with words past the count, or with a count that is not allowed.
fn any_list(random: &mut Random, built: &Built, n: usize) -> List {
    let List { words: mut own, count } = built.list(n as u32).clone();
    match random.below(16) {
        0..=3 => List { words: own, count },
        4 => List { words: own, count: random.below(count) },
        5 => {
            own.extend((0..1 + random.below(60)).map(|_| random.word()));
            List { words: own, count }
        }
        6..=8 => {
            let count = 1 + random.below(30);
            let words = [words(random, n, count), left_over(random, n)].concat();
            List { words, count }
        }
        9 | 10 => {
            let mut list = words(random, n, 12);
            list.iter_mut().step_by(2).for_each(|word| *word |= 0x10000 << random.below(48));
            List::whole(n, list)
        }
        11 => {
            let count = 9998 + random.below(4);
            let words = [words(random, n, count), left_over(random, n)].concat();
            List { words, count }
        }
        12 => {
            let count = random.pick(&[9998, 9999, 9999, 10000, 10050]);
            List { words: words(random, n, 10050), count }
        }
        13 => wrong_list(random, built, n),
        14 => List::whole(n, built.list(random.pick(&[4, 8, 16])).words.clone()),
        _ => List { words: vec![], count: 0 },
    }
}

/// A list whose count is above its whole patterns, or above 9,999.
fn wrong_list(random: &mut Random, built: &Built, n: usize) -> List {
    let List { mut words, count } = built.list(n as u32).clone();
    match random.below(6) {
        0 => words.truncate(words.len() - 1),
        1 => {
            let most = words_of(n) - 1;
            words.extend(vec![1; random.pick(&[0, most])]);
            return List { words, count: count + 1 };
        }
        2 => words.clear(),
        3 => return List { words: vec![1; 10001 * words_of(n)], count: 10000 + random.below(2) },
        4 if n == 16 => {
            return List { count: random.pick(&[words.len(), words.len() / 2, count + 1]), words }
        }
        _ => return List { words, count: random.pick(&[count + 1, count + 2, 9999, usize::MAX]) },
    }
    List { words, count }
}

/// A list of a size that the file does not use: mostly as built or empty, sometimes made up, seldom wrong.
fn unused_list(random: &mut Random, built: &Built, n: usize) -> List {
    match random.below(40) {
        0 => wrong_list(random, built, n),
        1..=4 => any_list(random, built, n),
        5..=20 => List { words: vec![], count: 0 },
        _ => built.list(n as u32).clone(),
    }
}

/// A length of texture for a sheet: none, the right one, seldom a wrong one.
fn texture(random: &mut Random, sheet: &Sheet) -> usize {
    let area = sheet.area() as usize;
    match random.below(20) {
        0 => random.pick(&[area - 1, area + 1, 1, (sheet.n * sheet.n) as usize, 2 * area, SAMPLES_LENT]),
        1..=9 => 0,
        _ => area,
    }
}

/// A length that is right if it is at least `least`: seldom one short, often longer.
fn room(random: &mut Random, least: usize) -> usize {
    match random.below(200) {
        0 => least - 1,
        1 => random.pick(&[0, 1, least / 2]),
        2..=60 => least + 1 + random.below(100),
        _ => least,
    }
}

/// Aids for a sheet, any of them wrong now and then.
pub fn any_aids(random: &mut Random, built: &Built, sheet: &Sheet) -> Aids {
    let lists = SIZES.map(|n| {
        if n == sheet.n as usize {
            any_list(random, built, n)
        } else {
            unused_list(random, built, n)
        }
    });
    let length = texture(random, sheet);
    let texture = random.bytes(length);
    let samples = room(random, SAMPLES_LENT);
    Aids { lists, texture, samples, records: room(random, RECORDS_LENT) }
}

/// Whether all that is wrong at line 0 is a list of a size that the file does not use.
pub fn only_unused_wrong(aids: &Aids, n: u32) -> bool {
    let sound = |k: usize| count_allowed(SIZES[k], &aids.lists[k].words, aids.lists[k].count);
    let lengths = aids.samples >= SAMPLES_LENT && aids.records >= RECORDS_LENT;
    lengths && sound(own(n)) && !(0..3).all(sound)
}
