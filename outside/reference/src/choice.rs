//! Choice: the record of least cost, and the number of offsets tried for it (document 02, Asks 3 and 4).

use crate::block::{mark, pattern_at, patterns_of, size_allowed, words_of, Pattern};
use crate::edges::edge_words;
use crate::outline::outline;
use crate::predict::{depths_by_mark, offset_usable, predicted, value_at};
use crate::sides::pattern_allowed;
use crate::table::{nearest_index, sound};
use crate::{EMPTY_CHOICE, ENTRY, KIND, LENGTH, NO_TEXTURE, OFFSET, SIZE, TABLE, WORD};

/// Kind 0 is an edge of the list, kind 1 the outline, whose entry is 0.
#[derive(Clone, Copy, Debug, Default, PartialEq, Eq)]
pub struct Record {
    pub kind: u32,
    pub entry: u32,
    pub off0: i32,
    pub off1: i32,
}

/// The chosen record, its cost, and "how many offsets were tried in all".
#[derive(Clone, Copy, Debug, PartialEq, Eq)]
pub struct Choice {
    pub record: Record,
    pub cost: u32,
    pub tried: u32,
}

/// "A list and its count, a border, the original, a table, a reach R (0 to 255) and optionally texture
/// (an empty slice means none)." The list is lent as words, the count is of patterns.
#[derive(Clone, Copy)]
pub struct Request<'a> {
    pub n: usize,
    pub list: &'a [u64],
    pub count: usize,
    pub border: &'a [u8],
    pub original: &'a [u8],
    pub table: &'a [u8],
    pub reach: u32,
    pub texture: &'a [u8],
}

/// A list count above the whole patterns lent or above 9,999 is a wrong length; words left over are none.
pub fn count_allowed(n: usize, list: &[u64], count: usize) -> bool {
    count <= list.len() / words_of(n) && count <= 9999
}

/// The last checks of a choice, for a list that has as many patterns as its count. Refusals: 5, 4, 10.
pub fn check_search(n: usize, list: &[u64], count: usize, reach: u32, texture: &[u8]) -> Result<(), u32> {
    if patterns_of(n, list)[..count].iter().any(|pattern| !pattern_allowed(n, pattern)) {
        return Err(WORD);
    }
    if reach > 255 {
        return Err(OFFSET);
    }
    if count == 0 && texture.is_empty() {
        return Err(EMPTY_CHOICE);
    }
    Ok(())
}

/// The checks of a choice. Refusals: 1, 2, 3, 5, 4, 10.
fn check(request: &Request) -> Result<(), u32> {
    let n = request.n;
    if !size_allowed(n) {
        return Err(SIZE);
    }
    let texture_fits = request.texture.is_empty() || request.texture.len() == n * n;
    let blocks_fit = request.border.len() == 4 * n && request.original.len() == n * n;
    if !count_allowed(n, request.list, request.count) || !blocks_fit || !texture_fits {
        return Err(LENGTH);
    }
    if !sound(request.table) {
        return Err(TABLE);
    }
    check_search(n, request.list, request.count, request.reach, request.texture)
}

/// The kinds, entries and patterns of the records, "edges in list order, then the outline".
fn patterns(request: &Request) -> Vec<(u32, u32, Pattern)> {
    let mut all = Vec::new();
    for entry in 0..request.count {
        all.push((0, entry as u32, pattern_at(request.n, request.list, entry)));
    }
    if !request.texture.is_empty() {
        all.push((1, 0, outline(request.n, request.texture)));
    }
    all
}

/// The offsets in −R .. R, "the smaller absolute value, then the negative": 0, −1, 1, −2, 2 ..
pub fn offsets(reach: u32) -> Vec<i32> {
    let mut all = vec![0];
    for distance in 1..=reach as i32 {
        all.extend([-distance, distance]);
    }
    all
}

/// The reach in use: "the smaller of R and table count − 1".
fn reach_in_use(request: &Request) -> u32 {
    request.reach.min(request.table.len() as u32 - 1)
}

/// "A choice tries only offsets that would pass": of those in −R .. R the ones that the table can use, in the same order.
fn passing_offsets(request: &Request) -> Vec<i32> {
    offsets(request.reach).into_iter().filter(|&offset| offset_usable(request.table, offset)).collect()
}

/// "The sum of absolute differences between prediction and original."
pub fn cost(prediction: &[u8], original: &[u8]) -> u32 {
    prediction.iter().zip(original).map(|(&p, &o)| p.abs_diff(o) as u32).sum()
}

/// The cost of one side, the marked one where `marked` is true, with the offset for it: sample by sample from the prediction.
fn side_cost(request: &Request, pattern: &Pattern, marked: bool, offset: i32) -> u32 {
    let Request { n, border, original, table, .. } = *request;
    let prediction = predicted(n, pattern, border, table, offset, offset);
    let on_side = |i: &usize| mark(n, pattern, i % n, i / n) == marked;
    (0..n * n).filter(on_side).map(|i| prediction[i].abs_diff(original[i]) as u32).sum()
}

/// The place of an offset, counted from 1, in the order 0, −1, 1, −2, 2 ..
fn place(offset: i32) -> u32 {
    2 * offset.unsigned_abs() + (offset >= 0) as u32
}

/// The number of offsets tried for each side of each pattern, summed: the place of the first that "gives cost 0 for that side", or all
/// that would pass where none does.
fn tried_by_place(request: &Request) -> u32 {
    let all = passing_offsets(request);
    let mut tried = 0;
    for (_, _, pattern) in patterns(request) {
        for marked in [false, true] {
            let free = all.iter().filter(|&&offset| side_cost(request, &pattern, marked, offset) == 0);
            tried += free.map(|&offset| place(offset)).min().unwrap_or(all.len() as u32);
        }
    }
    tried
}

/// The record of least cost of all with these offsets, in the order of the tie rule, and its cost; a later one needs a lesser cost.
fn best_by_trial(request: &Request, offsets: &[i32]) -> (Record, u32) {
    let Request { n, border, table, .. } = *request;
    let mut best: Option<(Record, u32)> = None;
    for (kind, entry, pattern) in patterns(request) {
        for &off0 in offsets {
            for &off1 in offsets {
                let prediction = predicted(n, &pattern, border, table, off0, off1);
                let cost = cost(&prediction, request.original);
                if best.is_none_or(|(_, least)| cost < least) {
                    best = Some((Record { kind, entry, off0, off1 }, cost));
                }
            }
        }
    }
    best.unwrap()
}

/// The choice by trying every record whose offsets would pass. Refusals: 1, 2, 3, 5, 4, 10.
pub fn choose_by_trial(request: &Request) -> Result<Choice, u32> {
    check(request)?;
    let (record, cost) = best_by_trial(request, &passing_offsets(request));
    Ok(Choice { record, cost, tried: tried_by_place(request) })
}

/// The original's unmarked samples and its marked ones.
fn sides_of(n: usize, pattern: &Pattern, original: &[u8]) -> [Vec<u8>; 2] {
    let mut sides = [vec![], vec![]];
    for y in 0..n {
        for x in 0..n {
            sides[mark(n, pattern, x, y) as usize].push(original[y * n + x]);
        }
    }
    sides
}

/// What the trial of a side's offsets ends with: the first offset of least cost, that cost, and the number of offsets tried.
struct Trial {
    offset: i32,
    cost: u32,
    tried: u32,
}

/// "Offsets are tried for a side in the order of the tie rule. Once one gives cost 0 for that side, none later can replace it, so its
/// trial ends there (at its first for a side without samples)." A value's cost is worked out once.
fn try_offsets(request: &Request, samples: &[u8], depth: u8) -> Trial {
    let value_cost = |value: u8| samples.iter().map(|&sample| sample.abs_diff(value) as u32).sum();
    let index = nearest_index(request.table, depth) as i32;
    let mut costs: [Option<u32>; 256] = [None; 256];
    let mut best = Trial { offset: 0, cost: u32::MAX, tried: 0 };
    for offset in offsets(reach_in_use(request)) {
        let value = value_at(request.table, index + offset);
        let cost = *costs[value as usize].get_or_insert_with(|| value_cost(value));
        best.tried += 1;
        if cost < best.cost {
            (best.offset, best.cost) = (offset, cost);
        }
        if cost == 0 {
            break;
        }
    }
    best
}

/// The same choice with each side's offset found by itself: the cost is the sum of the two sides'
/// costs, and an offset alters only its own side's. Refusals: 1, 2, 3, 5, 4, 10.
pub fn choose(request: &Request) -> Result<Choice, u32> {
    check(request)?;
    let mut best: Option<(Record, u32)> = None;
    let mut tried = 0;
    for (kind, entry, pattern) in patterns(request) {
        let depths = depths_by_mark(request.n, &pattern, request.border);
        let sides = sides_of(request.n, &pattern, request.original);
        let unmarked = try_offsets(request, &sides[0], depths.0);
        let marked = try_offsets(request, &sides[1], depths.1);
        let cost = unmarked.cost + marked.cost;
        tried += unmarked.tried + marked.tried;
        if best.is_none_or(|(_, least)| cost < least) {
            best = Some((Record { kind, entry, off0: unmarked.offset, off1: marked.offset }, cost));
        }
    }
    let (record, cost) = best.unwrap();
    Ok(Choice { record, cost, tried })
}

/// "A record's pattern is the one the list has at its entry, or for kind 1 the outline of the texture
/// lent with the block"; the list is the edge list for n. Refusals: 1, 2, 7, 21, 6.
pub fn pattern_of(n: usize, kind: u32, entry: u32, texture: &[u8]) -> Result<Pattern, u32> {
    if !size_allowed(n) {
        return Err(SIZE);
    }
    if !texture.is_empty() && texture.len() != n * n {
        return Err(LENGTH);
    }
    match (kind, entry) {
        (0, _) if entry as usize >= edge_words(n).len() / words_of(n) => Err(ENTRY),
        (0, _) => Ok(pattern_at(n, edge_words(n), entry as usize)),
        (1, 0) if texture.is_empty() => Err(NO_TEXTURE),
        (1, 0) => Ok(outline(n, texture)),
        _ => Err(KIND),
    }
}

#[cfg(test)]
mod tests;
