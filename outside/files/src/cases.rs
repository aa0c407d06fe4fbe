//! Made files: a sheet's numbers, its table and its records, and what the file is read with.

use crate::aids::{any_aids, plain_aids, Built};
use crate::random::Random;
use crate::reading::{Aids, List};
use reference::choice::Record;
use reference::sheet::Sheet;

/// What is written into a file, and what the file is read with.
pub struct Case {
    pub sheet: Sheet,
    pub table: Vec<u8>,
    pub records: Vec<Record>,
    pub aids: Aids,
}

/// A side in blocks: mostly few, seldom many.
fn side(random: &mut Random, most: usize) -> u32 {
    let blocks = match random.below(30) {
        0 => most,
        1 | 2 => 1 + random.below(most),
        _ => 1 + random.below(3),
    };
    blocks as u32
}

/// So many rising values.
fn rising(random: &mut Random, count: usize) -> Vec<u8> {
    let mut table = Vec::new();
    for value in 0..256 {
        if random.below(256 - value) < count - table.len() {
            table.push(value as u8);
        }
    }
    table
}

fn table(random: &mut Random) -> Vec<u8> {
    let count = match random.below(8) {
        0 => 1,
        1 => 2,
        2 | 3 => 3,
        4 => 8,
        5 => 1 + random.below(256),
        6 => 255,
        _ => 256,
    };
    rising(random, count)
}

/// An offset that a table of so many values can use, now and then the farthest of either sign.
fn offset(random: &mut Random, values: usize) -> i32 {
    let most = values - 1;
    let range = random.pick(&[0, 1, 3, 20, 255]).min(most);
    match random.below(12) {
        0 => most as i32,
        1 => -(most as i32),
        _ => random.below(2 * range + 1) as i32 - range as i32,
    }
}

/// A record, mostly one that is allowed, for a table of so many values.
fn record(random: &mut Random, n: u32, aids: &Aids, values: usize) -> Record {
    let contour = random.below(2) == 0 && !aids.texture.is_empty() || random.seldom(200);
    let known = aids.list(n).known(n as usize);
    let (kind, entry) = match (contour, known) {
        (true, _) => (1, 0),
        (false, 0) => (0, 0),
        (false, _) if random.seldom(8) => (0, known - 1),
        (false, _) => (0, random.below(known)),
    };
    Record { kind, entry: entry as u32, off0: offset(random, values), off1: offset(random, values) }
}

/// A case; a plain one is read as `show` reads.
pub fn any(random: &mut Random, built: &Built, plain: bool) -> Case {
    let n = random.pick(&[4, 8, 16]);
    let most = (128 / n) as usize;
    let (width, height) = (n * side(random, most), n * side(random, most));
    let placed = (width / n) * (height / n);
    let sheet = Sheet { n, width, height, placed };
    let aids = if plain { plain_aids(built) } else { any_aids(random, built, &sheet) };
    let table = table(random);
    let records = (0..placed).map(|_| record(random, n, &aids, table.len())).collect();
    Case { sheet, table, records, aids }
}

impl Case {
    /// The list for the case's size.
    pub fn list(&self) -> &List {
        self.aids.list(self.sheet.n)
    }

    /// The text as document 01 lays it out, whatever the numbers are.
    pub fn text(&self) -> Vec<u8> {
        let Sheet { n, width, height, .. } = self.sheet;
        let mut lines = vec![
            "size width height values".to_string(),
            format!("{n} {width} {height} {}", self.table.len()),
            "depth".to_string(),
        ];
        lines.extend(self.table.iter().map(|value| value.to_string()));
        lines.push("kind entry off0 off1".to_string());
        for Record { kind, entry, off0, off1 } in &self.records {
            lines.push(format!("{kind} {entry} {off0} {off1}"));
        }
        (lines.join("\n") + "\n").into_bytes()
    }
}
