//! House file: writing, reading, and the text that `show` prints.

use crate::block::words_of;
use crate::choice::{count_allowed, Record};
use crate::edges::edge_words;
use crate::sheet::{check_record, Lent, Sheet};
use crate::table::sound;
use crate::{FORM, LENGTH, MISSING, TABLE};

/// A refusal in reading: its number and the file line, counted from 1; line 0 stands before the file.
#[derive(Clone, Copy, Debug, PartialEq, Eq)]
pub struct Refused {
    pub number: u32,
    pub line: u32,
}

/// The sizes that a list is lent for in reading, in this order.
pub const SIZES: [usize; 3] = [4, 8, 16];

/// A list as it is lent, in words, and its count of patterns.
#[derive(Clone, Copy)]
pub struct Listed<'a> {
    pub list: &'a [u64],
    pub count: usize,
}

/// "Reading takes a list for each size": those for n = 4, 8 and 16.
pub type Lists<'a> = [Listed<'a>; 3];

/// The lists as built.
pub fn built_lists() -> Lists<'static> {
    SIZES.map(|n| Listed { list: edge_words(n), count: edge_words(n).len() / words_of(n) })
}

const SIZES_LINE: &str = "size width height values";
const DEPTH_LINE: &str = "depth";
const RECORDS_LINE: &str = "kind entry off0 off1";

/// The samples and records that reading is lent at least.
pub const SAMPLES_LENT: usize = 16384;
pub const RECORDS_LENT: usize = 1024;

/// The bytes that `show_text` is lent at least: three lines of 27 bytes, and at most 4 bytes a sample.
pub const TEXT_LENT: usize = 27 + 4 * SAMPLES_LENT;

/// The text of a finished sheet.
fn text(sheet: &Sheet, table: &[u8], records: &[Record]) -> String {
    let Sheet { n, width, height, .. } = sheet;
    let mut text = format!("{SIZES_LINE}\n{n} {width} {height} {}\n{DEPTH_LINE}\n", table.len());
    for value in table {
        text += &format!("{value}\n");
    }
    text += &format!("{RECORDS_LINE}\n");
    for Record { kind, entry, off0, off1 } in records {
        text += &format!("{kind} {entry} {off0} {off1}\n");
    }
    text
}

/// Writes the file into the lent bytes and answers its length; bytes past it keep their content. The list is that for the
/// sheet's n. Refusals: 1, 2, 8, 23, 22, 3, then record by record 7, 6, 5, 4, 24.
pub fn write(
    sheet: &Sheet,
    list: &[u64],
    count: usize,
    table: &[u8],
    records: &[Record],
    bytes: &mut [u8],
) -> Result<usize, u32> {
    sheet.check_size()?;
    let blocks = sheet.blocks();
    let space = 80 + 4 * table.len() as u128 + 32 * blocks as u128;
    let space_short = (bytes.len() as u128) < space;
    if !count_allowed(sheet.n as usize, list, count) || (records.len() as u64) < blocks || space_short {
        return Err(LENGTH);
    }
    sheet.check_state()?;
    if (sheet.placed as u64) < blocks {
        return Err(MISSING);
    }
    if !sound(table) {
        return Err(TABLE);
    }
    let records = &records[..blocks as usize];
    let lent = Lent { list, count, table, texture: &[] };
    for record in records {
        check_record(sheet.n, &lent, record, true)?;
    }
    let text = text(sheet, table, records);
    bytes[..text.len()].copy_from_slice(text.as_bytes());
    Ok(text.len())
}

/// A numeral: one to five digits without leading zeros, and before them, where `signed`, a minus if the
/// number is not 0.
fn numeral(field: &str, signed: bool) -> Option<i32> {
    let digits = match field.strip_prefix('-') {
        Some(rest) if signed && rest != "0" => rest,
        Some(_) => return None,
        None => field,
    };
    let all_digits = digits.bytes().all(|byte| byte.is_ascii_digit());
    let leading_zero = digits.len() > 1 && digits.starts_with('0');
    if !all_digits || leading_zero || !(1..=5).contains(&digits.len()) {
        return None;
    }
    let number: i32 = digits.parse().unwrap();
    Some(if field == digits { number } else { -number })
}

/// The file's lines, taken one by one.
struct Lines<'a> {
    rest: &'a [u8],
    line: u32,
}

impl<'a> Lines<'a> {
    /// A refusal at the line taken last.
    fn refused(&self, number: u32) -> Refused {
        Refused { number, line: self.line }
    }

    /// The next line without its byte 10. A line that does not end in byte 10, or is missing, is
    /// refused at its place, and so is a line of other than ASCII bytes.
    fn next(&mut self) -> Result<&'a str, Refused> {
        self.line += 1;
        let end = self.rest.iter().position(|&byte| byte == 10);
        let (line, rest) = self.rest.split_at(end.ok_or(self.refused(FORM))?);
        self.rest = &rest[1..];
        if !line.is_ascii() {
            return Err(self.refused(FORM));
        }
        Ok(std::str::from_utf8(line).unwrap())
    }

    /// Takes a line that must be this text.
    fn expect(&mut self, text: &str) -> Result<(), Refused> {
        if self.next()? == text {
            Ok(())
        } else {
            Err(self.refused(FORM))
        }
    }

    /// Takes a line of numerals with one space between them; `signed` has an item for each.
    fn numbers(&mut self, signed: &[bool]) -> Result<Vec<i32>, Refused> {
        let fields: Vec<&str> = self.next()?.split(' ').collect();
        if fields.len() != signed.len() {
            return Err(self.refused(FORM));
        }
        let numbers = fields.iter().zip(signed).map(|(field, &signed)| numeral(field, signed));
        numbers.collect::<Option<Vec<i32>>>().ok_or(self.refused(FORM))
    }
}

/// Line 1 and 2: the empty sheet and the table count. Line 2 is judged by 9, 1, 8, 2 (texture), 3.
fn read_sizes(lines: &mut Lines, texture: &[u8]) -> Result<(Sheet, usize), Refused> {
    lines.expect(SIZES_LINE)?;
    let numbers = lines.numbers(&[false; 4])?;
    let [n, width, height, values] = [0, 1, 2, 3].map(|field| numbers[field] as u32);
    let sheet = Sheet::new(n, width, height).map_err(|number| lines.refused(number))?;
    if !sheet.texture_fits(texture) {
        return Err(lines.refused(LENGTH));
    }
    if !(1..=256).contains(&values) {
        return Err(lines.refused(TABLE));
    }
    Ok((sheet, values as usize))
}

/// The table: each value's line is judged by 9, 3.
fn read_table(lines: &mut Lines, values: usize) -> Result<Vec<u8>, Refused> {
    lines.expect(DEPTH_LINE)?;
    let mut table: Vec<u8> = Vec::new();
    for _ in 0..values {
        let value = lines.numbers(&[false])?[0];
        if value > 255 || table.last().is_some_and(|&last| value <= last as i32) {
            return Err(lines.refused(TABLE));
        }
        table.push(value as u8);
    }
    Ok(table)
}

/// A finished sheet as read: its state, table, records and samples.
struct Contents {
    sheet: Sheet,
    table: Vec<u8>,
    records: Vec<Record>,
    samples: Vec<u8>,
}

/// Reads the whole file into contents of its own. Each record's line is judged by 9, 7, 21, 6, 5, 4, 24.
fn read_contents(bytes: &[u8], lists: &Lists, texture: &[u8]) -> Result<Contents, Refused> {
    let mut lines = Lines { rest: bytes, line: 0 };
    let (mut sheet, values) = read_sizes(&mut lines, texture)?;
    let table = read_table(&mut lines, values)?;
    lines.expect(RECORDS_LINE)?;
    let own = SIZES.iter().position(|&n| n == sheet.n as usize).unwrap();
    let Listed { list, count } = lists[own];
    let lent = Lent { list, count, table: &table, texture };
    let mut records = Vec::new();
    let mut samples = vec![0; sheet.area() as usize];
    for _ in 0..sheet.blocks() {
        let numbers = lines.numbers(&[false, false, true, true])?;
        let (kind, entry) = (numbers[0] as u32, numbers[1] as u32);
        let record = Record { kind, entry, off0: numbers[2], off1: numbers[3] };
        sheet = sheet.place(&mut samples, &lent, &record).map_err(|number| lines.refused(number))?;
        records.push(record);
    }
    if !lines.rest.is_empty() {
        return Err(Refused { number: FORM, line: lines.line + 1 });
    }
    Ok(Contents { sheet, table, records, samples })
}

/// Reads a file into the lent samples and records, and answers the finished state and the table. Past the
/// used part nothing changes. Refusals: line 0: 2, of all three lists, used or not, each count against its own size's
/// whole patterns; then line by line as above.
pub fn read(
    bytes: &[u8],
    lists: &Lists,
    texture: &[u8],
    samples: &mut [u8],
    records: &mut [Record],
) -> Result<(Sheet, Vec<u8>), Refused> {
    let lent_short = samples.len() < SAMPLES_LENT || records.len() < RECORDS_LENT;
    let counts_fit = (0..3).all(|own| count_allowed(SIZES[own], lists[own].list, lists[own].count));
    if !counts_fit || lent_short {
        return Err(Refused { number: LENGTH, line: 0 });
    }
    let contents = read_contents(bytes, lists, texture)?;
    samples[..contents.samples.len()].copy_from_slice(&contents.samples);
    records[..contents.records.len()].copy_from_slice(&contents.records);
    Ok((contents.sheet, contents.table))
}

/// "Width and height, then the sample rows", as `show` prints them.
pub fn shown(width: usize, height: usize, samples: &[u8]) -> String {
    let mut text = format!("width height\n{width} {height}\ndepth\n");
    for row in samples.chunks(width) {
        let row: Vec<String> = row.iter().map(|sample| sample.to_string()).collect();
        text += &format!("{}\n", row.join(" "));
    }
    text
}

/// What `show` prints for a file: its samples, or the refusal. It reads with the list as built for the file's n, and lends no
/// texture.
pub fn show(bytes: &[u8]) -> String {
    match read_contents(bytes, &built_lists(), &[]) {
        Err(Refused { number, line }) => format!("refusal line\n{number} {line}\n"),
        Ok(Contents { sheet, samples, .. }) => shown(sheet.width as usize, sheet.height as usize, &samples),
    }
}

/// Writes what `show` prints into the lent bytes and answers its length; bytes past it keep their content.
/// Refused as 2 where they are fewer than the longest text that `show` can print, whatever the file.
pub fn show_text(bytes: &[u8], lent: &mut [u8]) -> Result<usize, u32> {
    if lent.len() < TEXT_LENT {
        return Err(LENGTH);
    }
    let text = show(bytes);
    lent[..text.len()].copy_from_slice(text.as_bytes());
    Ok(text.len())
}

#[cfg(test)]
mod tests;
