//! The calls of `libfile_calls.a`: crates/file_calls has their contracts.

use crate::lent::Lent;
use reference::sheet::Sheet;

/// What reading answers; a refusal has 0 in all fields but its number and line.
#[repr(C)]
#[derive(Clone, Copy, Debug, PartialEq)]
pub struct FileRead {
    pub refusal: u32,
    pub line: u32,
    pub n: u32,
    pub width: u32,
    pub height: u32,
    pub placed: u32,
    pub values: u32,
    pub table: [u8; 256],
}

/// What writing answers; a refusal has the length 0.
#[repr(C)]
#[derive(Clone, Copy, Debug, PartialEq)]
pub struct FileWritten {
    pub refusal: u32,
    pub length: usize,
}

extern "C" {
    fn file_calls_read(
        bytes: *const u8,
        bytes_len: usize,
        list4: *const u64,
        list4_len: usize,
        count4: usize,
        list8: *const u64,
        list8_len: usize,
        count8: usize,
        list16: *const u64,
        list16_len: usize,
        count16: usize,
        texture: *const u8,
        texture_len: usize,
        samples: *mut u8,
        samples_len: usize,
        records: *mut [i32; 4],
        records_len: usize,
    ) -> FileRead;

    fn file_calls_write(
        n: u32,
        width: u32,
        height: u32,
        placed: u32,
        list: *const u64,
        list_len: usize,
        count: usize,
        table: *const u8,
        table_len: usize,
        records: *const [i32; 4],
        records_len: usize,
        out: *mut u8,
        out_len: usize,
    ) -> FileWritten;
}

/// The library reads a file with the lists for n = 4, 8 and 16 and their counts. What it is only lent to read is taken by `&mut` too, so that a write to it would show.
pub fn read(
    file: &mut Lent<u8>,
    lists: &mut [Lent<u64>; 3],
    counts: [usize; 3],
    texture: &mut Lent<u8>,
    samples: &mut Lent<u8>,
    records: &mut Lent<[i32; 4]>,
) -> FileRead {
    let [list4, list8, list16] = lists;
    unsafe {
        file_calls_read(
            file.start(),
            file.len(),
            list4.start(),
            list4.len(),
            counts[0],
            list8.start(),
            list8.len(),
            counts[1],
            list16.start(),
            list16.len(),
            counts[2],
            texture.start(),
            texture.len(),
            samples.start(),
            samples.len(),
            records.start(),
            records.len(),
        )
    }
}

/// The library writes a file.
pub fn write(
    sheet: &Sheet,
    list: &mut Lent<u64>,
    count: usize,
    table: &mut Lent<u8>,
    records: &mut Lent<[i32; 4]>,
    out: &mut Lent<u8>,
) -> FileWritten {
    unsafe {
        file_calls_write(
            sheet.n,
            sheet.width,
            sheet.height,
            sheet.placed,
            list.start(),
            list.len(),
            count,
            table.start(),
            table.len(),
            records.start(),
            records.len(),
            out.start(),
            out.len(),
        )
    }
}
