//! Damage to the fields of a line: to their form, and to their meaning.

use crate::cases::Case;
use crate::damage::{any_line, lines};
use crate::random::Random;

const FIELDS: [&str; 26] = [
    "0", "00", "-0", "-1", "1", "2", "3", "4", "5", "8", "12", "16", "32", "128", "132", "255", "256",
    "-255", "-256", "9998", "9999", "10000", "99999", "100000", "-100000", "",
];

/// Sizes that are not allowed, and the allowed ones, which seldom fit the rest of the line.
const SIZES_OF_NO_FILE: [&str; 18] =
    ["0", "1", "2", "3", "5", "6", "7", "9", "12", "15", "17", "32", "40", "64", "99999", "4", "8", "16"];

/// Changes the fields of a line.
fn with_fields(file: &mut Vec<u8>, line: usize, change: impl FnOnce(&mut Vec<Vec<u8>>)) {
    let mut lines = lines(file);
    if line < lines.len() {
        let mut fields = lines[line].split(|&byte| byte == b' ').map(|field| field.to_vec()).collect();
        change(&mut fields);
        lines[line] = fields.join(&b' ');
        *file = lines.join(&10);
    }
}

/// Puts text in the place of a field, where the line has so many.
fn replace(file: &mut Vec<u8>, line: usize, field: usize, text: &str) {
    with_fields(file, line, |fields| {
        if field < fields.len() {
            fields[field] = text.as_bytes().to_vec();
        }
    });
}

pub fn field_replaced(file: &mut Vec<u8>, _: &Case, random: &mut Random) {
    let line = any_line(&lines(file), random);
    replace(file, line, random.below(4), random.pick(&FIELDS));
}

pub fn field_led(file: &mut Vec<u8>, _: &Case, random: &mut Random) {
    let line = any_line(&lines(file), random);
    let lead = random.pick(&["0", "0", "00000", "-", "-", "+", "-0", "--"]);
    with_fields(file, line, |fields| {
        let field = random.below(fields.len());
        fields[field].splice(0..0, lead.bytes());
    });
}

pub fn field_count(file: &mut Vec<u8>, _: &Case, random: &mut Random) {
    let line = any_line(&lines(file), random);
    with_fields(file, line, |fields| {
        let field = random.below(fields.len());
        if random.seldom(2) {
            fields.remove(field);
        } else {
            fields.insert(field, fields[field].clone());
        }
    });
}

pub fn sizes(file: &mut Vec<u8>, _: &Case, random: &mut Random) {
    if random.seldom(2) {
        replace(file, 1, 0, random.pick(&SIZES_OF_NO_FILE));
    } else {
        let side = random.pick(&[
            "0", "1", "3", "4", "6", "8", "9", "12", "20", "24", "120", "124", "127", "129", "132", "136",
            "144", "99999",
        ]);
        replace(file, 1, 1 + random.below(2), side);
    }
}

/// Two or more of line 2's numbers, so that the order of its checks shows.
pub fn several_sizes(file: &mut Vec<u8>, case: &Case, random: &mut Random) {
    for _ in 0..2 + random.below(3) {
        match random.below(4) {
            0 => table_count(file, case, random),
            1 => replace(file, 1, random.below(4), random.pick(&FIELDS)),
            _ => sizes(file, case, random),
        }
    }
}

pub fn table_count(file: &mut Vec<u8>, case: &Case, random: &mut Random) {
    let values = case.table.len();
    let count = random.pick(&[0, 257, 258, 99999, values - 1, values + 1]);
    replace(file, 1, 3, &count.to_string());
}

pub fn value(file: &mut Vec<u8>, case: &Case, random: &mut Random) {
    let at = random.below(case.table.len());
    let before = if at == 0 { 256 } else { case.table[at - 1] as usize };
    let value = random.pick(&[before, before, before.saturating_sub(1), 0, 255, 256, 300, 99999]);
    replace(file, 3 + at, 0, &value.to_string());
}

/// The last values go, and the count is the new one: offsets that the longer table could use may be too far.
pub fn values_dropped(file: &mut Vec<u8>, case: &Case, random: &mut Random) {
    let (values, left, mut lines) = (case.table.len(), 1 + random.below(case.table.len()), lines(file));
    if lines.len() >= 3 + values {
        lines.drain(3 + left..3 + values);
        *file = lines.join(&10);
        replace(file, 1, 3, &left.to_string());
    }
}

/// The line of any of the records.
fn record_line(case: &Case, random: &mut Random) -> usize {
    4 + case.table.len() + random.below(case.records.len())
}

pub fn record(file: &mut Vec<u8>, case: &Case, random: &mut Random) {
    let line = record_line(case, random);
    match random.below(4) {
        0 => replace(file, line, 0, random.pick(&["1", "2", "3", "9", "10", "99999"])),
        1 => {
            replace(file, line, 0, "1");
            replace(file, line, 1, random.pick(&["0", "1", "5", "99999"]));
        }
        2 => {
            let count = case.list().count.min(99998);
            let entry = random.pick(&[count, count + 1, 9998, 9999, 10000, 99999]);
            replace(file, line, 1, &entry.to_string());
        }
        _ => {
            let far = random.pick(&["255", "-255", "256", "-256", "257", "1000", "99999", "-99999"]);
            let formless = random.pick(&["-0", "-0", "00", "-00", "01", "-01", "-", "+1", "-100000"]);
            let offset = if random.seldom(2) { formless } else { far };
            replace(file, line, 2 + random.below(2), offset);
        }
    }
}

/// An offset about what the table can use: count - 1, count, 255 or 256, of either sign.
pub fn about_the_count(table: &[u8], random: &mut Random) -> i32 {
    let count = table.len() as i32;
    let size = random.pick(&[count - 1, count, 255, 256]);
    random.pick(&[-size, size])
}

/// One offset of a record, or both.
pub fn offset(file: &mut Vec<u8>, case: &Case, random: &mut Random) {
    let line = record_line(case, random);
    for field in random.pick(&[&[2][..], &[3], &[2, 3]]) {
        replace(file, line, *field, &about_the_count(&case.table, random).to_string());
    }
}

/// Two or more fields of one record, so that the order of its checks shows.
pub fn several_fields(file: &mut Vec<u8>, case: &Case, random: &mut Random) {
    let line = record_line(case, random);
    for _ in 0..2 + random.below(3) {
        let count = case.list().count.min(99998);
        let entry = random.pick(&[0, 1, count.saturating_sub(1), count, 99999]).to_string();
        match random.below(8) {
            0 => replace(file, line, random.below(4), random.pick(&FIELDS)),
            1 => replace(file, line, 0, random.pick(&["0", "1", "2"])),
            2 | 3 => replace(file, line, 1, &entry),
            4 | 5 => {
                replace(file, line, 2 + random.below(2), &about_the_count(&case.table, random).to_string())
            }
            _ => replace(file, line, 2 + random.below(2), random.pick(&["0", "255", "256", "-256", "99999"])),
        }
    }
}

pub fn space(file: &mut Vec<u8>, _: &Case, random: &mut Random) {
    let line = any_line(&lines(file), random);
    with_fields(file, line, |fields| fields.insert(random.below(fields.len() + 1), vec![]));
}
