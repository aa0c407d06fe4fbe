//! Cases of sheets: composed ones, some with records placed before, and the refusals of the sheet calls.

use crate::slices::{
    built, full_table, given, listed, pairs_about, random, spread_table, Slice, COUNTS, SIZES,
};
use reference::edges::edge_list;

/// The cases: n, width, height, original (0 smooth, 1 bytes), table (0 full, 1 three values, 2 two, 3 one), reach, texture (0 none,
/// 1 bytes, 2 the original), first.
const CASES: [[u32; 8]; 46] = [
    [4, 4, 4, 0, 0, 0, 0, 0],
    [4, 4, 4, 1, 1, 1, 1, 0],
    [4, 4, 4, 1, 0, 5, 0, 0],
    [4, 8, 8, 1, 0, 5, 2, 0],
    [4, 8, 8, 0, 1, 1, 0, 0],
    [4, 8, 8, 1, 1, 5, 2, 2],
    [4, 8, 8, 1, 0, 1, 0, 3],
    [4, 12, 4, 1, 0, 5, 0, 0],
    [4, 12, 4, 1, 1, 1, 2, 1],
    [4, 12, 4, 0, 0, 0, 0, 2],
    [4, 4, 12, 1, 0, 5, 0, 0],
    [4, 4, 12, 1, 1, 1, 2, 1],
    [4, 4, 12, 0, 0, 0, 1, 2],
    [4, 12, 12, 1, 0, 5, 2, 4],
    [8, 8, 8, 1, 0, 5, 2, 0],
    [8, 8, 8, 0, 1, 1, 0, 0],
    [8, 16, 24, 1, 0, 5, 2, 0],
    [8, 16, 24, 1, 0, 5, 0, 3],
    [8, 16, 24, 0, 1, 1, 2, 1],
    [8, 16, 24, 0, 0, 0, 1, 5],
    [8, 24, 16, 1, 0, 5, 2, 2],
    [4, 128, 128, 1, 0, 1, 2, 0],
    [8, 128, 128, 1, 0, 1, 2, 0],
    [4, 128, 128, 0, 1, 1, 0, 500],
    [8, 128, 128, 0, 0, 1, 0, 100],
    [4, 128, 4, 1, 0, 1, 2, 7],
    [8, 8, 128, 1, 0, 1, 0, 9],
    [16, 16, 16, 0, 0, 0, 0, 0],
    [16, 16, 16, 1, 0, 5, 2, 0],
    [16, 16, 16, 1, 1, 255, 1, 0],
    [16, 32, 32, 1, 0, 5, 2, 2],
    [16, 48, 16, 0, 1, 1, 0, 1],
    [16, 16, 48, 1, 0, 1, 1, 1],
    [16, 64, 64, 1, 0, 5, 0, 3],
    [16, 128, 128, 1, 0, 1, 2, 0],
    // Reaches about the table count less 1; with one value the records placed before are refused.
    [4, 8, 8, 1, 3, 0, 0, 0],
    [4, 8, 8, 1, 3, 255, 2, 2],
    [4, 8, 8, 1, 2, 0, 2, 1],
    [4, 8, 8, 1, 2, 1, 2, 0],
    [4, 8, 8, 1, 2, 255, 2, 0],
    [4, 12, 8, 1, 1, 1, 2, 2],
    [4, 12, 8, 1, 1, 2, 2, 2],
    [4, 12, 8, 1, 1, 3, 0, 0],
    [8, 16, 16, 1, 1, 255, 2, 1],
    [8, 16, 8, 1, 3, 1, 0, 1],
    [16, 32, 16, 1, 2, 2, 2, 1],
];

/// As many records are lent to composing a sheet.
const RECORDS: usize = 1024;

pub fn print() {
    for case in 0..CASES.len() {
        composed(case);
    }
    new_cases();
    for case in 0..=22 {
        compose_refusal(case);
    }
    for case in 0..=25 {
        place_refusal(case);
    }
    for n in SIZES {
        for count in COUNTS {
            placed_about_the_count(n, count);
        }
        for textured in [false, true] {
            two_faults(n, textured);
        }
    }
}

/// A case of placing or composing: `state` is n, width, height and the blocks placed; `records` are placed in turn, and `lent` records
/// are lent to composing.
struct Case {
    state: [usize; 4],
    count: usize,
    shown: bool,
    reach: u32,
    lent: usize,
    list: String,
    samples: Slice,
    table: Slice,
    texture: Slice,
    original: Slice,
    records: Vec<[i32; 4]>,
}

impl Case {
    /// A case of placing, or of composing after that.
    fn print(&self, composes: bool) {
        let Case { state: [n, width, height, placed], count, reach, lent, list, .. } = self;
        let Case { samples, table, texture, original, records, .. } = self;
        let word = if composes { "compose" } else { "place" };
        print!("{word} {n} {width} {height} {placed} {count} {}", self.shown as u32);
        if composes {
            print!(" {reach} {lent}");
        }
        print!(" |l {list} |s {samples} |t {table} |x {texture}");
        if composes {
            print!(" |o {original}");
        }
        print!(" |r {}", records.len());
        for [kind, entry, off0, off1] in records {
            print!(" {kind} {entry} {off0} {off1}");
        }
        println!();
    }
}

/// The samples i * 7 % 256.
fn smooth(length: usize) -> Slice {
    given(&(0..length).map(|i| (i * 7 % 256) as u8).collect::<Vec<u8>>())
}

/// Record i of those placed before composing.
fn first_record(i: usize, count: usize, textured: bool) -> [i32; 4] {
    if textured && i % 2 == 1 {
        return [1, 0, 1, -1];
    }
    [0, (3 * i % count) as i32, -1, 1]
}

/// A sheet composed, after some records placed; where there are any, once more with these alone.
fn composed(number: usize) {
    let [n, width, height, original, table, reach, texture, first] =
        CASES[number].map(|field| field as usize);
    let area = width * height;
    let original = if original == 1 { random(50000 + number, area) } else { smooth(area) };
    let texture = match texture {
        0 => given(&[]),
        1 => random(60000 + number, area),
        _ => original.clone(),
    };
    let count = edge_list(n).len();
    let textured = !texture.samples.is_empty();
    let case = Case {
        state: [n, width, height, 0],
        count,
        shown: area <= 1024,
        reach: reach as u32,
        lent: RECORDS,
        list: built(n),
        samples: random(70000 + number, area),
        table: match table {
            0 => full_table(),
            1 => given(&[100, 128, 140]),
            2 => given(&[60, 190]),
            _ => given(&[77]),
        },
        texture,
        original,
        records: (0..first).map(|i| first_record(i, count, textured)).collect(),
    };
    case.print(true);
    if first > 0 {
        case.print(false);
    }
}

/// Empty states, allowed and refused.
fn new_cases() {
    let sizes = [
        (5, 0, 0),
        (0, 4, 4),
        (16, 16, 16),
        (4, 0, 4),
        (4, 4, 0),
        (4, 6, 4),
        (4, 4, 6),
        (8, 4, 8),
        (8, 8, 12),
        (4, 132, 4),
        (8, 8, 136),
        (4, 4, 4),
        (8, 128, 128),
        (12, 12, 12),
        (32, 32, 32),
        (16, 8, 16),
        (16, 16, 24),
        (16, 144, 16),
        (16, 128, 128),
    ];
    for (n, width, height) in sizes {
        println!("new {n} {width} {height}");
    }
}

/// One value where a case has a fault, else another.
fn where_faulty<T>(faulty: bool, fault: T, sound: T) -> T {
    if faulty {
        fault
    } else {
        sound
    }
}

/// What both calls are lent in a refusal case: the faults of the cases 0 to 5 in the order of the checks. A fault of an early check
/// stands together with those of later checks, so that the order of the checks shows.
fn faulty(case: usize, n: usize, width: usize, height: usize) -> Case {
    let n = where_faulty(case == 0, 5, n);
    let width = where_faulty(case <= 2, 10, width);
    let placed = match case {
        0..=3 => 200,
        4 => 4,
        _ => 0,
    };
    let area = width * height;
    Case {
        state: [n, width, height, placed],
        count: 0,
        shown: false,
        reach: where_faulty(case <= 7, 256, 1),
        lent: where_faulty(matches!(case, 14 | 15 | 17 | 18), 3, 4),
        list: listed(2, &LIST),
        samples: random(80000 + case, where_faulty(case <= 1, area - 1, area)),
        table: where_faulty(case <= 5, given(&[5, 5]), given(&[100, 128, 140])),
        texture: smooth(area),
        original: smooth(area),
        records: vec![],
    }
}

/// The first words of the lists of refusal cases.
const LIST: [u64; 2] = [0xFFF0, 0x10000];

/// Composing in a refusal case.
fn compose_refusal(case: usize) {
    let (n, side) = match case {
        20 => (8, 8),
        21 | 22 => (16, 16),
        _ => (4, 8),
    };
    let mut given = faulty(case, n, side, side);
    let area = given.original.samples.len();
    if case == 19 {
        given.samples = random(80000 + case, area + 1);
    }
    given.list = match case {
        16 => listed(10000, &LIST),
        21 | 22 => listed(11, &LIST),
        _ => given.list,
    };
    given.count = match case {
        0..=6 | 20 | 21 => 2,
        7..=9 => 0,
        13 | 22 => 3,
        16 => 10000,
        _ => 1,
    };
    given.original = smooth(area - where_faulty(case == 11, 1, 0));
    given.texture = smooth(match case {
        0..=8 => 0,
        12 => area - 1,
        _ => area,
    });
    given.print(true);
}

/// Placing in a refusal case: its record, the same with an offset that the table can't use, and with offsets that it can.
fn place_refusal(case: usize) {
    let (n, width, height) = match case {
        21 => (4, 132, 8),
        22 => (8, 8, 8),
        23..=25 => (16, 16, 16),
        _ => (4, 8, 8),
    };
    let mut given = faulty(case, n, width, height);
    let area = given.original.samples.len();
    if case >= 23 {
        given.list = listed(11, &LIST);
    }
    given.count = match case {
        17 | 18 => 0,
        19 | 24 => 3,
        _ => 2,
    };
    given.texture = smooth(match case {
        0..=13 => 0,
        20 => area - 1,
        _ => area,
    });
    let [kind, entry, off0, off1] = record(case);
    given.records = vec![[kind, entry, off0, off1], [kind, entry, -2, 3], [kind, entry, 2, -2]];
    given.print(false);
}

/// Records with offsets about the table count, of both kinds, placed in turn on a sheet that has room for all that pass.
fn placed_about_the_count(n: usize, count: usize) {
    let (side, entries) = (5 * n, edge_list(n).len());
    let of_kinds = |(i, (off0, off1)): (usize, (i32, i32))| {
        [[0, (3 * i % entries) as i32, off0, off1], [1, 0, off0, off1]]
    };
    Case {
        state: [n, side, side, 0],
        count: entries,
        shown: n == 4,
        reach: 0,
        lent: 0,
        list: built(n),
        samples: random(90000 + n, side * side),
        table: spread_table(count),
        texture: random(91000 + n, side * side),
        original: given(&[]),
        records: pairs_about(count).into_iter().enumerate().flat_map(of_kinds).collect(),
    }
    .print(false);
}

/// Records that have an offset which the table can't use together with one other fault, then such an offset alone, then none. Of the
/// list's entries the second has a bit that is too high for N = 4.
fn two_faults(n: usize, textured: bool) {
    let area = 2 * n * n;
    Case {
        state: [n, 2 * n, n, 0],
        count: 2,
        shown: false,
        reach: 0,
        lent: 0,
        list: listed(if n == 16 { 8 } else { 2 }, &LIST),
        samples: random(92000 + n, area),
        table: given(&[100, 128, 140]),
        texture: if textured { random(93000 + n, area) } else { given(&[]) },
        original: given(&[]),
        records: vec![
            [2, 0, 3, 0],
            [1, 1, 0, -3],
            [0, 2, 3, 0],
            [0, 0, 3, 300],
            [0, 0, -256, 3],
            [1, 0, 3, 0],
            [0, 1, 0, 3],
            [0, 0, 3, -3],
            [0, 0, 2, -2],
        ],
    }
    .print(false);
}

/// The record of a refusal case of placing.
fn record(case: usize) -> [i32; 4] {
    let kind = match case {
        0..=6 => 2,
        7 | 8 | 14..=17 => 1,
        _ => 0,
    };
    let entry = match case {
        0..=7 | 10 | 22..=24 => 1,
        9 | 25 => 2,
        _ => 0,
    };
    let off0 = match case {
        0..=11 => 256,
        14 => -256,
        _ => 255,
    };
    let off1 = match case {
        0..=12 => -256,
        16 => 256,
        _ => -255,
    };
    [kind, entry, off0, off1]
}
