//! Files of two records with offsets about the table count, alone and beside another fault, each with the refusals that it has to earn in
//! reading and in writing.

use crate::aids::{plain_aids, Built};
use crate::cases::Case;
use crate::reading::{own, List};
use reference::block::words_of;
use reference::choice::Record;
use reference::file::SIZES;
use reference::sheet::Sheet;

/// A file, its refusal and line in reading, and its refusal in writing; 0 where it is accepted.
pub struct Made {
    pub case: Case,
    pub read: (u32, u32),
    pub written: u32,
}

/// A record, and what it is refused for in reading and in writing; 0 where it is accepted.
#[derive(Clone, Copy)]
struct Judged {
    record: Record,
    read: u32,
    written: u32,
}

/// A record with the same refusal in reading and in writing.
fn judged(kind: u32, entry: u32, off0: i32, off1: i32, number: u32) -> Judged {
    Judged { record: Record { kind, entry, off0, off1 }, read: number, written: number }
}

/// A file of two records, whose refusal is that of the first one that is refused. A list of two patterns is lent, of which the second
/// has bit 16; texture is lent or not.
fn made(built: &Built, n: usize, table: &[u8], textured: bool, [first, second]: [Judged; 2]) -> Made {
    let (side, words) = (n as u32, words_of(n));
    let mut aids = plain_aids(built);
    let mut list = vec![0; 2 * words];
    (list[0], list[words]) = (0xFFF0, 0x10000);
    aids.lists[own(side)] = List::whole(n, list);
    aids.texture = if textured { (0..2 * n * n).map(|i| (i * 29) as u8).collect() } else { vec![] };
    let line = 5 + table.len() as u32;
    let read = match (first.read, second.read) {
        (0, 0) => (0, 0),
        (0, number) => (number, line + 1),
        (number, _) => (number, line),
    };
    let written = if first.written == 0 { second.written } else { first.written };
    let sheet = Sheet { n: side, width: 2 * side, height: side, placed: 2 };
    let records = vec![first.record, second.record];
    Made { case: Case { sheet, table: table.to_vec(), records, aids }, read, written }
}

/// What an offset earns with a table of so many values.
fn refusal(offset: i32, count: usize) -> u32 {
    match offset.unsigned_abs() as usize {
        size if size > 255 => 4,
        size if size >= count => 24,
        _ => 0,
    }
}

/// Offsets count - 1, count, 255 and 256, of both signs, in either place of the second record, which is of either kind.
fn about_the_count(built: &Built, n: usize, count: usize) -> Vec<Made> {
    let table: Vec<u8> = (0..count).map(|value| value as u8).collect();
    let first = judged(0, 0, 0, 0, 0);
    let mut all = Vec::new();
    for size in [count as i32 - 1, count as i32, 255, 256] {
        for (kind, off0, off1) in [(0, size, 0), (1, -size, 0), (1, 0, size), (0, 0, -size)] {
            let second = judged(kind, 0, off0, off1, refusal(size, count));
            all.push(made(built, n, &table, true, [first, second]));
        }
    }
    all
}

/// Records with an offset that three values can't use beside another fault, which is refused first, and with the offset alone; each
/// after a record that is accepted, and before one that is refused too. In writing texture is not asked for.
fn two_faults(built: &Built, n: usize) -> Vec<Made> {
    let table = [100, 128, 140];
    let (sound, bad) = (judged(0, 0, 2, -2, 0), judged(3, 0, 0, 0, 7));
    let mut all = Vec::new();
    for (textured, faulty) in [
        (true, judged(2, 0, 3, 0, 7)),
        (true, judged(1, 1, 0, -3, 7)),
        (false, Judged { read: 21, ..judged(1, 0, 3, 0, 24) }),
        (true, judged(1, 0, 3, 0, 24)),
        (true, judged(0, 2, 3, 0, 6)),
        (true, judged(0, 1, 0, 3, if n == 4 { 5 } else { 24 })),
        (true, judged(0, 0, 3, 300, 4)),
        (false, judged(0, 0, -256, 3, 4)),
        (false, judged(0, 0, 3, -3, 24)),
        (false, judged(0, 0, 200, 1, 24)),
    ] {
        all.push(made(built, n, &table, textured, [sound, faulty]));
        all.push(made(built, n, &table, textured, [faulty, bad]));
    }
    all
}

/// All of them, of each size and with tables of 1, 2, 3 and 256 values.
pub fn all(built: &Built) -> Vec<Made> {
    let mut all = Vec::new();
    for n in SIZES {
        for count in [1, 2, 3, 256] {
            all.extend(about_the_count(built, n, count));
        }
        all.extend(two_faults(built, n));
    }
    all
}
