//! Sheet. "Width and height are multiples of n, n to 128. Blocks come row by row, left to right."

use crate::block::{pattern_at, size_allowed};
use crate::choice::{check_search, choose, count_allowed, Record, Request};
use crate::outline::outline;
use crate::predict::{check_offsets, predicted};
use crate::sides::pattern_allowed;
use crate::table::sound;
use crate::{ALL_PLACED, ENTRY, KIND, LENGTH, MEASURES, NO_TEXTURE, PLACED, SIZE, TABLE, WORD};

/// "The state is n, width, height and the number of blocks placed."
#[derive(Clone, Copy, Debug, PartialEq, Eq)]
pub struct Sheet {
    pub n: u32,
    pub width: u32,
    pub height: u32,
    pub placed: u32,
}

/// What a sheet call is lent to read: a list for the sheet's n and its count, a table, and the sheet's texture (an
/// empty slice means none).
#[derive(Clone, Copy)]
pub struct Lent<'a> {
    pub list: &'a [u64],
    pub count: usize,
    pub table: &'a [u8],
    pub texture: &'a [u8],
}

/// What composing is lent besides: the original samples of the sheet and the reach.
#[derive(Clone, Copy)]
pub struct Aim<'a> {
    pub original: &'a [u8],
    pub reach: u32,
}

impl Sheet {
    /// The empty state. Refusals: 1, 8.
    pub fn new(n: u32, width: u32, height: u32) -> Result<Sheet, u32> {
        let sheet = Sheet { n, width, height, placed: 0 };
        sheet.check_size()?;
        sheet.check_measures()?;
        Ok(sheet)
    }

    /// Refusal 1.
    pub fn check_size(&self) -> Result<(), u32> {
        if size_allowed(self.n as usize) {
            Ok(())
        } else {
            Err(SIZE)
        }
    }

    /// Refusal 8: width and height are multiples of n, n to 128.
    pub fn check_measures(&self) -> Result<(), u32> {
        let allowed = |side: u32| side.is_multiple_of(self.n) && (self.n..=128).contains(&side);
        if allowed(self.width) && allowed(self.height) {
            Ok(())
        } else {
            Err(MEASURES)
        }
    }

    /// Refusals 8, then 23.
    pub fn check_state(&self) -> Result<(), u32> {
        self.check_measures()?;
        if self.placed as u64 > self.blocks() {
            Err(PLACED)
        } else {
            Ok(())
        }
    }

    /// The number of the sheet's blocks, by whole division where the measures are not allowed.
    pub fn blocks(&self) -> u64 {
        (self.width / self.n) as u64 * (self.height / self.n) as u64
    }

    /// The number of the sheet's samples.
    pub fn area(&self) -> u64 {
        self.width as u64 * self.height as u64
    }

    /// Whether a texture is of the sheet's size, or empty.
    pub fn texture_fits(&self, texture: &[u8]) -> bool {
        texture.is_empty() || texture.len() as u64 == self.area()
    }

    /// Column and row of the first sample of the next block.
    fn corner(&self) -> (usize, usize) {
        let in_row = self.width / self.n;
        ((self.placed % in_row * self.n) as usize, (self.placed / in_row * self.n) as usize)
    }

    /// The next block's n² samples out of a slice of the sheet's size.
    fn cut(&self, samples: &[u8]) -> Vec<u8> {
        let (n, width, (left, top)) = (self.n as usize, self.width as usize, self.corner());
        let at = |i: usize| samples[(top + i / n) * width + left + i % n];
        (0..n * n).map(at).collect()
    }

    /// The border of the next block, left run then top run.
    fn border(&self, samples: &[u8]) -> Vec<u8> {
        let (n, width, (x, y)) = (self.n as usize, self.width as usize, self.corner());
        let at = |column: usize, row: usize| samples[row * width + column];
        let held = |k: usize| k.min(n - 1);
        let left = |k: usize| at(x - 1, y + held(k));
        let top = |k: usize| {
            if x + k < width {
                at(x + k, y - 1)
            } else {
                at(x + n - 1, y - 1)
            }
        };
        let side = |k: usize| match (x > 0, y > 0) {
            (false, false) => (128, 128),
            (true, false) => (left(k), left(0)),
            (false, true) => (top(0), top(k)),
            (true, true) => (left(k), top(k)),
        };
        let run = 0..2 * n;
        run.clone().map(|k| side(k).0).chain(run.map(|k| side(k).1)).collect()
    }

    /// Writes the record's predicted block, and only that, and counts the block. The record is checked.
    fn put(mut self, samples: &mut [u8], lent: &Lent, record: &Record) -> Sheet {
        let (n, width, (left, top)) = (self.n as usize, self.width as usize, self.corner());
        let pattern = match record.kind {
            0 => pattern_at(n, lent.list, record.entry as usize),
            _ => outline(n, &self.cut(lent.texture)),
        };
        let border = self.border(samples);
        let block = predicted(n, &pattern, &border, lent.table, record.off0, record.off1);
        for (i, sample) in block.into_iter().enumerate() {
            samples[(top + i / n) * width + left + i % n] = sample;
        }
        self.placed += 1;
        self
    }

    /// What placing and composing check first; the lengths are judged once the size is allowed. Refusals: 1, 2, 8, 23, 20, 3.
    fn check_open(&self, lengths_fit: impl Fn() -> bool, table: &[u8]) -> Result<(), u32> {
        self.check_size()?;
        if !lengths_fit() {
            return Err(LENGTH);
        }
        self.check_state()?;
        if self.placed as u64 == self.blocks() {
            return Err(ALL_PLACED);
        }
        if !sound(table) {
            return Err(TABLE);
        }
        Ok(())
    }

    /// Whether the samples, the texture and the count fit the sheet and the list.
    fn lent_fits(&self, samples: usize, lent: &Lent) -> bool {
        let count_fits = count_allowed(self.n as usize, lent.list, lent.count);
        samples as u64 == self.area() && self.texture_fits(lent.texture) && count_fits
    }

    /// Places a record as the next block and hands the next state back.
    /// Refusals: 1, 2, 8, 23, 20, 3, 7, 21, 6, 5, 4, 24.
    pub fn place(self, samples: &mut [u8], lent: &Lent, record: &Record) -> Result<Sheet, u32> {
        self.check_open(|| self.lent_fits(samples.len(), lent), lent.table)?;
        check_record(self.n, lent, record, !lent.texture.is_empty())?;
        Ok(self.put(samples, lent, record))
    }

    /// Refusals of composing: 1, 2, 8, 23, 20, 3, 5, 4, 10.
    fn check_compose(&self, samples: usize, lent: &Lent, aim: &Aim, records: usize) -> Result<(), u32> {
        let original_fits = aim.original.len() as u64 == self.area();
        let fit = || self.lent_fits(samples, lent) && original_fits && records as u64 >= self.blocks();
        self.check_open(fit, lent.table)?;
        check_search(self.n as usize, lent.list, lent.count, aim.reach, lent.texture)
    }

    /// "Chooses and places every block still missing, and writes its record; the first block it places
    /// takes the first lent record". Answers the finished state and the number of records written.
    /// Refusals: 1, 2, 8, 23, 20, 3, 5, 4, 10.
    pub fn compose(
        self,
        samples: &mut [u8],
        lent: &Lent,
        aim: &Aim,
        records: &mut [Record],
    ) -> Result<(Sheet, usize), u32> {
        self.check_compose(samples.len(), lent, aim, records.len())?;
        let (mut sheet, mut written) = (self, 0);
        while (sheet.placed as u64) < sheet.blocks() {
            let texture = if lent.texture.is_empty() { vec![] } else { sheet.cut(lent.texture) };
            let choice = choose(&Request {
                n: sheet.n as usize,
                list: lent.list,
                count: lent.count,
                border: &sheet.border(samples),
                original: &sheet.cut(aim.original),
                table: lent.table,
                reach: aim.reach,
                texture: &texture,
            })?;
            sheet = sheet.put(samples, lent, &choice.record);
            records[written] = choice.record;
            written += 1;
        }
        Ok((sheet, written))
    }
}

/// A record's own checks; the table, the list and its count are already judged. Refusals: 7, 21, 6, 5, 4, 24.
pub fn check_record(n: u32, lent: &Lent, record: &Record, outline_possible: bool) -> Result<(), u32> {
    match (record.kind, record.entry) {
        (0, _) | (1, 0) => {}
        _ => return Err(KIND),
    }
    if record.kind == 1 && !outline_possible {
        return Err(NO_TEXTURE);
    }
    if record.kind == 0 {
        if record.entry as usize >= lent.count {
            return Err(ENTRY);
        }
        let n = n as usize;
        if !pattern_allowed(n, &pattern_at(n, lent.list, record.entry as usize)) {
            return Err(WORD);
        }
    }
    check_offsets(lent.table, [record.off0, record.off1])
}

#[cfg(test)]
mod tests;
