//! What can be wrong with a source that is to be written.

use crate::cases::Case;
use crate::fields::about_the_count;
use crate::lent::Fields;
use crate::random::Random;
use crate::writing::{space_for, Source};
use reference::block::words_of;
use reference::choice::Record;

pub struct Fault {
    pub name: &'static str,
    pub apply: fn(&mut Source, &mut Random),
}

pub const FAULTS: [Fault; 14] = [
    Fault { name: "unfinished", apply: unfinished },
    Fault { name: "over-placed", apply: over_placed },
    Fault { name: "size", apply: size },
    Fault { name: "side", apply: side },
    Fault { name: "table", apply: table },
    Fault { name: "values dropped", apply: values_dropped },
    Fault { name: "count", apply: count },
    Fault { name: "records short", apply: records_short },
    Fault { name: "space short", apply: space_short },
    Fault { name: "kind", apply: kind },
    Fault { name: "entry", apply: entry },
    Fault { name: "word", apply: word },
    Fault { name: "offset", apply: offset },
    Fault { name: "offset about the count", apply: offset_about_the_count },
];

/// The source of a made case; the space is what writing needs, or more.
pub fn source_of(case: &Case, random: &mut Random) -> Source {
    let needed = space_for(&case.sheet, case.table.len());
    let space = if random.seldom(2) { needed } else { needed + 1 + random.below(100) };
    let mut records = case.records.clone();
    if random.seldom(3) {
        let unused = Record { kind: 77, entry: 99999, off0: 999, off1: i32::MIN };
        records.extend(vec![unused; 1 + random.below(9)]);
    }
    Source {
        sheet: case.sheet,
        list: case.list().clone(),
        table: case.table.clone(),
        fields: Fields::of(&records),
        space,
    }
}

/// The sheet's blocks, 0 where n is 0.
fn blocks(source: &Source) -> usize {
    if source.sheet.n == 0 {
        0
    } else {
        source.sheet.blocks() as usize
    }
}

fn unfinished(source: &mut Source, random: &mut Random) {
    let blocks = blocks(source);
    let fewer = random.below(blocks.max(1));
    source.sheet.placed = random.pick(&[0, blocks.saturating_sub(1), fewer]) as u32;
}

fn over_placed(source: &mut Source, random: &mut Random) {
    let blocks = blocks(source) as u32;
    source.sheet.placed = random.pick(&[blocks.wrapping_add(1), blocks.wrapping_add(2), 1025, u32::MAX]);
}

fn size(source: &mut Source, random: &mut Random) {
    source.sheet.n =
        random.pick(&[0, 1, 2, 3, 5, 6, 7, 9, 12, 15, 16, 17, 32, 64, 0x80000004, 0x80000010, u32::MAX]);
}

/// A side that is not allowed. Where the sheet has few blocks by it, records and space are made enough and all blocks are placed,
/// so that the side shows.
fn side(source: &mut Source, random: &mut Random) {
    let side = if random.seldom(2) { &mut source.sheet.width } else { &mut source.sheet.height };
    let near = [side.wrapping_add(1), side.wrapping_add(2), side.wrapping_sub(1)];
    *side = random.pick(&[0, 1, near[0], near[1], near[2], 132, 136, 1000, 0x80000000, u32::MAX]);
    let blocks = blocks(source);
    if blocks < 20000 {
        let records = source.fields.records();
        let more = records.iter().copied().cycle().take(blocks.max(records.len()));
        source.fields = Fields::of(&more.collect::<Vec<Record>>());
        source.space = source.space.max(80 + 4 * source.table.len() + 32 * blocks);
        source.sheet.placed = blocks as u32;
    }
}

fn table(source: &mut Source, random: &mut Random) {
    let table = &mut source.table;
    match random.below(4) {
        0 => table.clear(),
        1 => *table = (0..257).map(|value| value as u8).collect(),
        2 => table.push(0),
        _ => {
            let at = random.below(table.len().max(1));
            if let Some(&value) = table.get(at) {
                table.insert(at, value);
            }
        }
    }
    source.space += 1028;
}

/// The table is a shorter one, so that offsets which the longer one could use may be too far.
fn values_dropped(source: &mut Source, random: &mut Random) {
    let left = 1 + random.below(source.table.len().max(1));
    source.table.truncate(left);
}

/// The words of a pattern of the source's size, also where that is not allowed.
fn pattern_words(source: &Source) -> usize {
    words_of(source.sheet.n as usize)
}

fn count(source: &mut Source, random: &mut Random) {
    let (words, lent) = (pattern_words(source), source.list.words.len());
    let patterns = lent / words;
    source.list.count =
        random.pick(&[patterns + 1, patterns + 2, lent + 1, lent.max(patterns + 1), 10000, usize::MAX]);
    if random.seldom(2) {
        source.list.words.resize(10001 * words, 1);
    }
}

/// One record fewer is lent than the sheet has blocks.
fn records_short(source: &mut Source, _: &mut Random) {
    let length = blocks(source).saturating_sub(1);
    source.fields.rows.truncate(length);
}

fn space_short(source: &mut Source, random: &mut Random) {
    let needed =
        80 + 4 * source.table.len() + 32 * source.fields.rows.len().min(source.sheet.placed as usize);
    source.space = random.pick(&[needed - 1, needed - 1, needed - 1, needed - 32, needed / 2, 79, 80, 0]);
}

/// Changes a record that is to be written, seldom a second one too.
fn change(source: &mut Source, random: &mut Random, change: impl Fn(&mut Record, &mut Random)) {
    let mut records = source.fields.records();
    for _ in 0..random.pick(&[1, 1, 1, 2]) {
        let used = records.len().min(source.sheet.placed as usize);
        if used > 0 {
            let between = random.below(used);
            let at = random.pick(&[0, used - 1, between]);
            change(&mut records[at], random);
        }
    }
    source.fields = Fields::of(&records);
}

fn kind(source: &mut Source, random: &mut Random) {
    change(source, random, |record, random| {
        if random.seldom(2) {
            record.kind = random.pick(&[2, 3, 256, u32::MAX]);
        } else {
            (record.kind, record.entry) = (1, random.pick(&[1, 2, 256, u32::MAX]));
        }
    });
}

fn entry(source: &mut Source, random: &mut Random) {
    let count = source.list.count.min(20000) as u32;
    change(source, random, |record, random| {
        (record.kind, record.entry) = (0, random.pick(&[count, count + 1, 9999, u32::MAX]));
    });
}

/// A pattern in use gets a bit from 16 up, which is wrong for n = 4 alone.
fn word(source: &mut Source, random: &mut Random) {
    let words = pattern_words(source);
    let known = source.list.known(source.sheet.n as usize);
    if known > 0 {
        let at = random.below(known);
        source.list.words[at * words + random.below(words)] |= 0x10000 << random.below(48);
        change(source, random, |record, _| (record.kind, record.entry) = (0, at as u32));
    }
}

/// Puts an offset in either place of a record.
fn put_offset(record: &mut Record, offset: i32, random: &mut Random) {
    if random.seldom(2) {
        record.off0 = offset;
    } else {
        record.off1 = offset;
    }
}

fn offset(source: &mut Source, random: &mut Random) {
    change(source, random, |record, random| {
        let offset = random.pick(&[256, -256, 257, 1000, i32::MAX, i32::MIN]);
        put_offset(record, offset, random);
    });
}

/// One offset of a record, or both, about what the table can use.
fn offset_about_the_count(source: &mut Source, random: &mut Random) {
    let table = source.table.clone();
    change(source, random, |record, random| {
        for _ in 0..1 + random.below(2) {
            let offset = about_the_count(&table, random);
            put_offset(record, offset, random);
        }
    });
}
