use super::*;
use crate::block::words_of;
use crate::edges::edge_words;
use crate::random::Random;

const TABLE_3: [u8; 3] = [100, 128, 140];

/// The table of all values 0 to 255.
fn full_table() -> Vec<u8> {
    (0..=255).collect()
}

/// A state with the number of blocks placed.
fn state(n: u32, width: u32, height: u32, placed: u32) -> Sheet {
    Sheet { n, width, height, placed }
}

/// A record of kind 0.
fn edge(entry: u32, off0: i32, off1: i32) -> Record {
    Record { kind: 0, entry, off0, off1 }
}

#[test]
fn new_sheets() {
    assert_eq!(Sheet::new(4, 4, 128), Ok(state(4, 4, 128, 0)));
    assert_eq!(Sheet::new(8, 128, 8), Ok(state(8, 128, 8, 0)));
    assert_eq!(Sheet::new(16, 128, 16), Ok(state(16, 128, 16, 0)));
    for (n, width, height) in [(0, 8, 8), (5, 3, 0), (12, 12, 12), (32, 32, 32)] {
        assert_eq!(Sheet::new(n, width, height), Err(1));
    }
    for (n, width, height) in [(16, 8, 16), (16, 16, 24), (16, 144, 16)] {
        assert_eq!(Sheet::new(n, width, height), Err(8));
    }
    for (n, width, height) in [(4, 0, 4), (4, 4, 0), (4, 6, 4), (8, 8, 12), (8, 136, 8), (4, 4, 132)] {
        assert_eq!(Sheet::new(n, width, height), Err(8));
    }
}

/// Samples 0, 1, 2 .. of a sheet of 12 by 8 with n = 4.
fn counted() -> Vec<u8> {
    (0..96).collect()
}

#[test]
fn borders_without_a_row_above() {
    let samples = counted();
    assert_eq!(state(4, 12, 8, 0).border(&samples), [128; 16]);
    let left = [3, 15, 27, 39, 39, 39, 39, 39];
    assert_eq!(state(4, 12, 8, 1).border(&samples), [left, [3; 8]].concat());
    let left = [7, 19, 31, 43, 43, 43, 43, 43];
    assert_eq!(state(4, 12, 8, 2).border(&samples), [left, [7; 8]].concat());
}

#[test]
fn borders_below_a_row() {
    let samples = counted();
    let top = [36, 37, 38, 39, 40, 41, 42, 43];
    assert_eq!(state(4, 12, 8, 3).border(&samples), [[36; 8], top].concat());
    let (left, top) = ([51, 63, 75, 87, 87, 87, 87, 87], [40, 41, 42, 43, 44, 45, 46, 47]);
    assert_eq!(state(4, 12, 8, 4).border(&samples), [left, top].concat());
    let (left, top) = ([55, 67, 79, 91, 91, 91, 91, 91], [44, 45, 46, 47, 47, 47, 47, 47]);
    assert_eq!(state(4, 12, 8, 5).border(&samples), [left, top].concat());
    let one_column: Vec<u8> = (0..32).collect();
    let top = [12, 13, 14, 15, 15, 15, 15, 15];
    assert_eq!(state(4, 4, 8, 1).border(&one_column), [[12; 8], top].concat());
}

#[test]
fn placing_writes_only_its_block() {
    let list = edge_words(4);
    let lent = Lent { list, count: list.len(), table: &TABLE_3, texture: &[] };
    let mut samples = vec![7; 96];
    let next = state(4, 12, 8, 0).place(&mut samples, &lent, &edge(0, -1, 1)).unwrap();
    assert_eq!(next, state(4, 12, 8, 1));
    for (i, &sample) in samples.iter().enumerate() {
        let expected = match (i % 12, i / 12) {
            (0..=3, 0) => 100,
            (0..=3, 1..=3) => 140,
            _ => 7,
        };
        assert_eq!(sample, expected);
    }
}

#[test]
fn placing_in_blocks_of_16() {
    let (list, table) = (edge_words(16), full_table());
    let lent = Lent { list, count: 2498, table: &table, texture: &[] };
    let mut samples: Vec<u8> = (0..32 * 32).map(|i| (20 + i % 199) as u8).collect();
    let before = samples.clone();
    let next = state(16, 32, 32, 3).place(&mut samples, &lent, &edge(0, 5, -5)).unwrap();
    assert_eq!(next, state(16, 32, 32, 4));
    // entry 0 marks all rows but the first: A is T7, B is L15
    let (a, b) = (before[15 * 32 + 16 + 7], before[31 * 32 + 15]);
    for (i, &sample) in samples.iter().enumerate() {
        let expected = match (i % 32, i / 32) {
            (16..32, 16) => a + 5,
            (16..32, 17..32) => b - 5,
            _ => before[i],
        };
        assert_eq!(sample, expected);
    }
    let short = Lent { list: &list[..4 * 2498 - 1], ..lent };
    assert_eq!(state(16, 32, 32, 3).place(&mut samples, &short, &edge(0, 5, -5)), Err(2));
    let fewer = Lent { list: &list[..11], count: 2, ..lent };
    assert_eq!(state(16, 32, 32, 3).place(&mut samples, &fewer, &edge(2, 0, 0)), Err(6));
    assert!(state(16, 32, 32, 3).place(&mut samples, &fewer, &edge(1, 0, 0)).is_ok());
}

#[test]
fn the_outline_is_that_of_the_blocks_own_texture() {
    let table = full_table();
    let texture: Vec<u8> = (0..96).map(|i| if i % 12 >= 6 { 9 } else { 3 }).collect();
    let lent = Lent { list: &[], count: 0, table: &table, texture: &texture };
    let outline = Record { kind: 1, entry: 0, off0: 2, off1: 5 };
    let mut samples = vec![128; 96];
    let next = state(4, 12, 8, 1).place(&mut samples, &lent, &outline).unwrap();
    assert_eq!(next.placed, 2);
    assert_eq!(samples[..12], [128, 128, 128, 128, 130, 130, 133, 133, 128, 128, 128, 128]);
}

#[test]
fn refusals_of_placing_in_order_and_the_samples_untouched() {
    let list = [0xFFF0, 0x10000];
    let mut samples = vec![7; 96];
    let bad = Record { kind: 1, entry: 5, off0: 256, off1: 0 };
    let no_table = Lent { list: &list, count: 2, table: &[], texture: &[] };
    let lent = Lent { table: &TABLE_3, ..no_table };
    let mut refused = |sheet: Sheet, length: usize, lent: &Lent, record: &Record| {
        sheet.place(&mut samples[..length], lent, record).unwrap_err()
    };
    assert_eq!(refused(state(5, 13, 8, 99), 95, &no_table, &bad), 1);
    assert_eq!(refused(state(4, 13, 8, 99), 95, &no_table, &bad), 2);
    assert_eq!(refused(state(4, 12, 8, 99), 96, &Lent { texture: &[0; 95], ..no_table }, &bad), 2);
    assert_eq!(refused(state(4, 12, 8, 99), 96, &Lent { count: 3, ..no_table }, &bad), 2);
    assert_eq!(refused(state(4, 6, 8, 99), 48, &no_table, &bad), 8);
    assert_eq!(refused(state(4, 0, 0, 0), 0, &no_table, &bad), 8);
    assert_eq!(refused(state(4, 12, 8, 7), 96, &no_table, &bad), 23);
    assert_eq!(refused(state(4, 12, 8, 6), 96, &no_table, &bad), 20);
    assert_eq!(refused(state(4, 12, 8, 5), 96, &no_table, &bad), 3);
    let fresh = state(4, 12, 8, 5);
    assert_eq!(refused(fresh, 96, &lent, &bad), 7);
    assert_eq!(refused(fresh, 96, &lent, &Record { kind: 2, entry: 0, ..bad }), 7);
    assert_eq!(refused(fresh, 96, &lent, &Record { entry: 0, ..bad }), 21);
    assert_eq!(refused(fresh, 96, &lent, &edge(2, 256, 0)), 6);
    assert_eq!(refused(fresh, 96, &Lent { count: 1, ..lent }, &edge(1, 256, 0)), 6);
    assert_eq!(refused(fresh, 96, &lent, &edge(1, 256, 0)), 5);
    assert_eq!(refused(fresh, 96, &lent, &edge(0, 256, 0)), 4);
    assert_eq!(refused(fresh, 96, &lent, &edge(0, 0, -256)), 4);
    assert_eq!(samples, [7; 96]);
}

/// What placing a record on a sheet of one block answers, with three values, a list whose second entry has bit 16, and texture or none.
/// Refused, it leaves the samples.
fn answer_to(record: &Record, textured: bool) -> Result<(), u32> {
    let (list, texture, mut samples) = ([0xFFF0, 0x10000], [0; 16], [7; 16]);
    let texture = if textured { &texture[..] } else { &[] };
    let lent = Lent { list: &list, count: 2, table: &TABLE_3, texture };
    let answer = state(4, 4, 4, 0).place(&mut samples, &lent, record).map(|_| ());
    assert!(answer.is_ok() || samples == [7; 16]);
    answer
}

#[test]
fn an_offset_that_the_table_cannot_use_is_not_placed() {
    for sign in [-1, 1] {
        for (offset, answer) in [(2, Ok(())), (3, Err(24)), (255, Err(24)), (256, Err(4))] {
            assert_eq!(answer_to(&edge(0, sign * offset, 0), false), answer);
            assert_eq!(answer_to(&edge(0, 0, sign * offset), false), answer);
            let outline = Record { kind: 1, entry: 0, off0: 1, off1: sign * offset };
            assert_eq!(answer_to(&outline, true), answer);
        }
    }
}

#[test]
fn in_placing_24_comes_after_each_other_check_of_the_record() {
    let outline = |entry: u32| Record { kind: 1, entry, off0: 3, off1: 0 };
    assert_eq!(answer_to(&Record { kind: 2, ..outline(0) }, true), Err(7));
    assert_eq!(answer_to(&outline(1), true), Err(7));
    assert_eq!(answer_to(&outline(0), false), Err(21));
    assert_eq!(answer_to(&edge(2, 0, -3), false), Err(6));
    assert_eq!(answer_to(&edge(1, 3, 0), false), Err(5));
    assert_eq!(answer_to(&edge(0, 3, 300), false), Err(4));
    assert_eq!(answer_to(&edge(0, -256, 3), false), Err(4));
    assert_eq!(answer_to(&edge(0, 3, -3), false), Err(24));
}

#[test]
fn in_placing_24_comes_after_the_checks_of_the_call() {
    let (list, mut samples) = ([0xFFF0, 0x10000], vec![7; 32]);
    let four = Lent { list: &list, count: 2, table: &[1, 2, 3, 4], texture: &[] };
    let falling = Lent { table: &[2, 1], ..four };
    let mut placed = |sheet: Sheet, length: usize, lent: &Lent, offset: i32| {
        sheet.place(&mut samples[..length], lent, &edge(0, offset, 0)).map(|next| next.placed)
    };
    assert_eq!(placed(state(5, 6, 4, 3), 23, &falling, 4), Err(1));
    assert_eq!(placed(state(4, 6, 4, 3), 23, &falling, 4), Err(2));
    assert_eq!(placed(state(4, 6, 4, 3), 24, &falling, 4), Err(8));
    assert_eq!(placed(state(4, 8, 4, 3), 32, &falling, 4), Err(23));
    assert_eq!(placed(state(4, 8, 4, 2), 32, &falling, 4), Err(20));
    assert_eq!(placed(state(4, 8, 4, 1), 32, &falling, 4), Err(3));
    assert_eq!(placed(state(4, 8, 4, 1), 32, &four, 4), Err(24));
    assert_eq!(placed(state(4, 8, 4, 1), 32, &four, 3), Ok(2));
}

#[test]
fn composing_is_choosing_and_placing_in_turn() {
    let cases = [
        (4, 1, true, 256, 20),
        (8, 2, false, 256, 20),
        (4, 3, false, 3, 255),
        (8, 4, true, 2, 255),
        (4, 7, true, 1, 1),
        (16, 5, true, 256, 20),
        (16, 6, false, 3, 3),
    ];
    for (n, seed, textured, values, reach) in cases {
        let (list, mut random) = (edge_words(n), Random(seed));
        let table: Vec<u8> = full_table().into_iter().step_by(256 / values).take(values).collect();
        let area = 6 * n * n;
        let (original, texture) = (random.bytes(area), random.bytes(if textured { area } else { 0 }));
        let lent = Lent { list, count: list.len() / words_of(n), table: &table, texture: &texture };
        let aim = Aim { original: &original, reach };
        let empty = Sheet::new(n as u32, 3 * n as u32, 2 * n as u32).unwrap();
        let (mut samples, mut records) = (vec![1; area], vec![Record::default(); 7]);
        let (finished, written) = empty.compose(&mut samples, &lent, &aim, &mut records).unwrap();
        assert_eq!((finished.placed, written), (6, 6));
        assert_eq!(records[6], Record::default());

        let (mut sheet, mut again) = (empty, vec![2; area]);
        for record in &records[..2] {
            sheet = sheet.place(&mut again, &lent, record).unwrap();
        }
        let mut rest = vec![Record::default(); 6];
        let (rest_state, written) = sheet.compose(&mut again, &lent, &aim, &mut rest).unwrap();
        assert_eq!((rest_state, written), (finished, 4));
        assert_eq!(rest[..4], records[2..6]);
        assert_eq!(rest[4..], [Record::default(); 2]);
        assert_eq!(again, samples);
    }
}

#[test]
fn refusals_of_composing_in_order_and_nothing_altered() {
    let (list, original) = ([0xFFF0, 0x10000], [0; 96]);
    let (mut samples, mut records) = (vec![7; 96], vec![edge(9, 9, 9); 6]);
    let no_table = Lent { list: &list, count: 2, table: &[], texture: &[] };
    let lent = Lent { table: &TABLE_3, ..no_table };
    let aim = Aim { original: &original, reach: 256 };
    let short = Aim { original: &original[1..], reach: 256 };
    let mut refused = |sheet: Sheet, lent: &Lent, aim: &Aim, count: usize| {
        sheet.compose(&mut samples, lent, aim, &mut records[..count]).unwrap_err()
    };
    assert_eq!(refused(state(5, 12, 8, 9), &no_table, &short, 5), 1);
    assert_eq!(refused(state(4, 12, 8, 9), &no_table, &short, 6), 2);
    assert_eq!(refused(state(4, 12, 8, 5), &no_table, &aim, 5), 2);
    assert_eq!(refused(state(4, 12, 8, 9), &Lent { texture: &[0; 97], ..no_table }, &aim, 6), 2);
    assert_eq!(refused(state(4, 16, 6, 9), &no_table, &aim, 3), 2);
    assert_eq!(refused(state(4, 16, 6, 9), &no_table, &aim, 4), 8);
    assert_eq!(refused(state(4, 12, 8, 7), &no_table, &aim, 6), 23);
    assert_eq!(refused(state(4, 12, 8, 6), &no_table, &aim, 6), 20);
    assert_eq!(refused(state(4, 12, 8, 5), &no_table, &aim, 6), 3);
    assert_eq!(refused(state(4, 12, 8, 5), &lent, &aim, 6), 5);
    assert_eq!(refused(state(4, 12, 8, 5), &Lent { count: 0, ..lent }, &aim, 6), 4);
    let within = Aim { reach: 255, ..aim };
    assert_eq!(refused(state(4, 12, 8, 5), &Lent { count: 0, ..lent }, &within, 6), 10);
    assert_eq!(samples, [7; 96]);
    assert_eq!(records, [edge(9, 9, 9); 6]);
}
