//! Damage to a file's text. Some of it leaves the file sound, as where a digit is changed to another.

use crate::cases::Case;
use crate::fields;
use crate::random::Random;

pub struct Damage {
    pub name: &'static str,
    pub apply: fn(&mut Vec<u8>, &Case, &mut Random),
}

pub const DAMAGES: [Damage; 23] = [
    Damage { name: "truncated", apply: truncated },
    Damage { name: "byte changed", apply: byte_changed },
    Damage { name: "byte inserted", apply: byte_inserted },
    Damage { name: "byte removed", apply: byte_removed },
    Damage { name: "field replaced", apply: fields::field_replaced },
    Damage { name: "leading zero or sign", apply: fields::field_led },
    Damage { name: "field doubled or dropped", apply: fields::field_count },
    Damage { name: "sizes of no sheet", apply: fields::sizes },
    Damage { name: "several sizes", apply: fields::several_sizes },
    Damage { name: "table count", apply: fields::table_count },
    Damage { name: "value of no table", apply: fields::value },
    Damage { name: "values dropped", apply: fields::values_dropped },
    Damage { name: "record not allowed", apply: fields::record },
    Damage { name: "offset about the count", apply: fields::offset },
    Damage { name: "several fields of a record", apply: fields::several_fields },
    Damage { name: "space doubled or at an end", apply: fields::space },
    Damage { name: "carriage return", apply: carriage_return },
    Damage { name: "tab for space", apply: tab },
    Damage { name: "no last line end", apply: no_last_line_end },
    Damage { name: "bytes past the end", apply: past_the_end },
    Damage { name: "line removed", apply: line_removed },
    Damage { name: "line doubled", apply: line_doubled },
    Damage { name: "lines swapped", apply: lines_swapped },
];

const BYTES: [u8; 16] = [0, 9, 10, 11, 13, 32, b'-', b'+', b'/', b'0', b'1', b'9', b':', b'a', 0x8A, 0xFF];

/// The lines without their byte 10; the last item is what stands after the last byte 10.
pub fn lines(file: &[u8]) -> Vec<Vec<u8>> {
    file.split(|&byte| byte == 10).map(|line| line.to_vec()).collect()
}

/// A line that has bytes: often the second, one of the first or one of the last.
pub fn any_line(lines: &[Vec<u8>], random: &mut Random) -> usize {
    let last = lines.len() - 1;
    let line = match random.below(8) {
        0 => 1,
        1 => random.below(5),
        2 => last - random.below(3.min(last + 1)),
        _ => random.below(last + 1),
    };
    line.min(last)
}

/// Any byte's place, or the place after the last.
fn place(file: &[u8], random: &mut Random) -> usize {
    random.below(file.len() + 1)
}

fn truncated(file: &mut Vec<u8>, _: &Case, random: &mut Random) {
    let length = place(file, random);
    file.truncate(length);
}

fn any_byte(random: &mut Random) -> u8 {
    if random.seldom(3) {
        random.word() as u8
    } else {
        random.pick(&BYTES)
    }
}

fn byte_changed(file: &mut Vec<u8>, _: &Case, random: &mut Random) {
    let (at, byte) = (place(file, random), any_byte(random));
    if at < file.len() {
        file[at] = byte;
    }
}

fn byte_inserted(file: &mut Vec<u8>, _: &Case, random: &mut Random) {
    let (at, byte) = (place(file, random), any_byte(random));
    file.insert(at, byte);
}

fn byte_removed(file: &mut Vec<u8>, _: &Case, random: &mut Random) {
    let at = place(file, random);
    if at < file.len() {
        file.remove(at);
    }
}

fn carriage_return(file: &mut Vec<u8>, _: &Case, random: &mut Random) {
    let mut lines = lines(file);
    if random.seldom(4) {
        lines.iter_mut().for_each(|line| line.push(13));
    } else {
        let line = any_line(&lines, random);
        lines[line].push(13);
    }
    *file = lines.join(&10);
}

fn tab(file: &mut Vec<u8>, _: &Case, random: &mut Random) {
    let spaces: Vec<usize> = (0..file.len()).filter(|&at| file[at] == b' ').collect();
    if !spaces.is_empty() {
        file[random.pick(&spaces)] = 9;
    }
}

fn no_last_line_end(file: &mut Vec<u8>, _: &Case, _: &mut Random) {
    file.pop();
}

fn past_the_end(file: &mut Vec<u8>, _: &Case, random: &mut Random) {
    let count = 1 + random.below(20);
    let more = match random.below(6) {
        0 => b"\n".to_vec(),
        1 => b"0 0 0 0\n".to_vec(),
        2 => b" ".to_vec(),
        3 => vec![0],
        4 => random.bytes(count),
        _ => file.clone(),
    };
    file.extend(more);
}

fn line_removed(file: &mut Vec<u8>, _: &Case, random: &mut Random) {
    let mut lines = lines(file);
    lines.remove(any_line(&lines, random));
    *file = lines.join(&10);
}

fn line_doubled(file: &mut Vec<u8>, _: &Case, random: &mut Random) {
    let mut lines = lines(file);
    let line = any_line(&lines, random);
    lines.insert(line, lines[line].clone());
    *file = lines.join(&10);
}

fn lines_swapped(file: &mut Vec<u8>, _: &Case, random: &mut Random) {
    let mut lines = lines(file);
    let (one, other) = (any_line(&lines, random), any_line(&lines, random));
    lines.swap(one, other);
    *file = lines.join(&10);
}
