//! The independent implementation behind C's calls, so that a C program can compare it with `libdepth_bench.a`.

use reference::block::{size_allowed, words_of};
use reference::choice::{choose, pattern_of, Request};
use reference::edges::edge_words;
use reference::predict::predict;
use std::slice::{from_raw_parts, from_raw_parts_mut};

/// A prediction as `depth_bench.h` has it.
#[repr(C)]
pub struct Prediction {
    pub refusal: u32,
    pub marks: u32,
}

/// A choice as `depth_bench.h` has it; a refusal has 0 in all other fields.
#[repr(C)]
#[derive(Default)]
pub struct Choice {
    pub refusal: u32,
    pub kind: u32,
    pub entry: u32,
    pub off0: i32,
    pub off1: i32,
    pub cost: u32,
    pub tried: u32,
}

/// A pattern as `depth_bench.h` has it; a refusal has 0 in all words.
#[repr(C)]
#[derive(Default)]
pub struct Pattern {
    pub refusal: u32,
    pub word: [u64; 4],
}

/// The bytes that C lends.
///
/// # Safety
/// `len` bytes can be read at `start`, which is not null.
unsafe fn lent<'a>(start: *const u8, len: usize) -> &'a [u8] {
    from_raw_parts(start, len)
}

/// The prediction of the independent implementation.
///
/// # Safety
/// Each pointer is not null and has as many bytes as its length says.
#[no_mangle]
#[allow(clippy::too_many_arguments)]
pub unsafe extern "C" fn judge_predict(
    n: usize,
    word0: u64,
    word1: u64,
    word2: u64,
    word3: u64,
    border: *const u8,
    border_len: usize,
    table: *const u8,
    table_len: usize,
    off0: i32,
    off1: i32,
    block: *mut u8,
    block_len: usize,
) -> Prediction {
    let out = from_raw_parts_mut(block, block_len);
    let pattern = [word0, word1, word2, word3];
    match predict(n, &pattern, lent(border, border_len), lent(table, table_len), off0, off1, out) {
        Ok(marks) => Prediction { refusal: 0, marks },
        Err(refusal) => Prediction { refusal, marks: 0 },
    }
}

/// The choice of the independent implementation, with the edge list for n.
///
/// # Safety
/// Each pointer is not null and has as many bytes as its length says.
#[no_mangle]
#[allow(clippy::too_many_arguments)]
pub unsafe extern "C" fn judge_choose(
    n: usize,
    border: *const u8,
    border_len: usize,
    original: *const u8,
    original_len: usize,
    table: *const u8,
    table_len: usize,
    reach: u32,
    texture: *const u8,
    texture_len: usize,
) -> Choice {
    let list = if size_allowed(n) { edge_words(n) } else { &[] };
    let request = Request {
        n,
        list,
        count: list.len() / words_of(n),
        border: lent(border, border_len),
        original: lent(original, original_len),
        table: lent(table, table_len),
        reach,
        texture: lent(texture, texture_len),
    };
    match choose(&request) {
        Ok(found) => Choice {
            refusal: 0,
            kind: found.record.kind,
            entry: found.record.entry,
            off0: found.record.off0,
            off1: found.record.off1,
            cost: found.cost,
            tried: found.tried,
        },
        Err(refusal) => Choice { refusal, ..Choice::default() },
    }
}

/// The pattern of a record of the independent implementation.
///
/// # Safety
/// `texture` is not null and has as many bytes as its length says.
#[no_mangle]
pub unsafe extern "C" fn judge_pattern_of(
    n: usize,
    kind: u32,
    entry: u32,
    texture: *const u8,
    texture_len: usize,
) -> Pattern {
    match pattern_of(n, kind, entry, lent(texture, texture_len)) {
        Ok(word) => Pattern { refusal: 0, word },
        Err(refusal) => Pattern { refusal, ..Pattern::default() },
    }
}
