use super::*;
use crate::block::{all_marked, list_words, transposed, transposed_pattern};
use crate::edges::edge_list;
use crate::random::Random;
use crate::table::spread_table;

mod levels;

/// A sound request for n = 4 with the given list: flat border 128, flat original 128.
fn flat_request(list: &[u64]) -> Request<'_> {
    Request {
        n: 4,
        list,
        count: list.len(),
        border: &[128; 16],
        original: &[128; 16],
        table: &[100, 128, 140],
        reach: 2,
        texture: &[],
    }
}

/// Checks the faster choice against the trial of every record.
fn both(request: &Request) -> Choice {
    let answer = choose_by_trial(request).unwrap();
    assert_eq!(choose(request), Ok(answer));
    answer
}

#[test]
fn offsets_by_absolute_value_then_the_negative() {
    assert_eq!(offsets(0), [0]);
    assert_eq!(offsets(2), [0, -1, 1, -2, 2]);
    assert_eq!(offsets(255).len(), 511);
    for (k, offset) in offsets(255).into_iter().enumerate() {
        assert_eq!(place(offset), k as u32 + 1);
    }
}

#[test]
fn ties_go_to_the_first_entry_and_to_offset_zero() {
    let list = edge_words(4);
    let mut request = flat_request(list);
    request.texture = &[9; 16];
    assert_eq!(both(&request), Choice { record: Record::default(), cost: 0, tried: 75 * 2 });
    request.original = &[0; 16];
    let record = Record { kind: 0, entry: 0, off0: -1, off1: -1 };
    assert_eq!(both(&request), Choice { record, cost: 1600, tried: 74 * 2 * 5 + 5 + 1 });
    request.original = &[255; 16];
    let record = Record { kind: 0, entry: 0, off0: 1, off1: 1 };
    assert_eq!(both(&request), Choice { record, cost: 16 * 115, tried: 74 * 2 * 5 + 5 + 1 });
}

#[test]
fn the_outline_wins_only_with_a_lesser_cost() {
    let list = edge_words(4);
    let mut request = flat_request(list);
    let checks: Vec<u8> = (0..16).map(|i| if (i % 4 + i / 4) % 2 == 0 { 100 } else { 140 }).collect();
    request.original = &checks;
    request.texture = &checks;
    let record = Record { kind: 1, entry: 0, off0: -1, off1: 1 };
    // Of the edges only the four sides of a single corner end sooner.
    assert_eq!(both(&request), Choice { record, cost: 0, tried: 144 * 5 + 2 * (2 + 3) + (2 + 3) });
    let with_outline = [outline(4, &checks)[0]];
    request.list = &with_outline;
    request.count = 1;
    assert_eq!(both(&request), Choice { record: Record { kind: 0, ..record }, cost: 0, tried: 2 * (2 + 3) });
    request.count = 0;
    assert_eq!(both(&request), Choice { record, cost: 0, tried: 2 + 3 });
}

#[test]
fn of_several_offsets_of_least_cost_the_smallest() {
    let list = [0];
    let mut request = flat_request(&list);
    let checks: Vec<u8> = (0..16).map(|i| if i % 2 == 0 { 100 } else { 156 }).collect();
    request.original = &checks;
    request.table = &[0, 50, 100, 128, 156, 200];
    request.reach = 5;
    request.border = &[0; 16];
    assert_eq!(both(&request).record.off0, 2);
    request.border = &[255; 16];
    assert_eq!(both(&request).record, Record { kind: 0, entry: 0, off0: -1, off1: 0 });
}

#[test]
fn both_methods_agree_on_pseudo_random_blocks() {
    for seed in 0..48 {
        let n = [4, 8, 4, 16][seed as usize % 4];
        let mut random = Random(seed);
        let (border, original, texture) = (random.bytes(4 * n), random.bytes(n * n), random.bytes(n * n));
        let table = spread_table([1, 2, 3, 7, 256][seed as usize % 5]);
        both(&Request {
            n,
            list: edge_words(n),
            count: if n == 4 { 74 } else { 30 },
            border: &border,
            original: &original,
            table: &table,
            reach: seed as u32 % 4,
            texture: if seed % 2 == 0 { &texture } else { &[] },
        });
    }
}

#[test]
fn both_methods_agree_where_many_sides_cost_nothing() {
    for seed in 300..360 {
        let n = [4, 8, 4, 16][seed as usize % 4];
        let few = |random: &mut Random, length: usize| -> Vec<u8> {
            random.bytes(length).iter().map(|byte| 126 + byte % 2 * (byte % 3)).collect()
        };
        let mut random = Random(seed);
        let (border, texture) = (random.bytes(4 * n), few(&mut random, n * n));
        let original = if seed % 3 == 0 { vec![127; n * n] } else { few(&mut random, n * n) };
        let words = [list_words(n, &[[0; 4], all_marked(n)]), edge_words(n).to_vec()].concat();
        both(&Request {
            n,
            list: &words,
            count: if n == 4 { 76 } else { 12 },
            border: &border,
            original: &original,
            table: &[[0, 100, 126, 127, 255], [0, 126, 127, 128, 129]][seed as usize / 2 % 2],
            reach: [0, 1, 4, 7][seed as usize / 4 % 4],
            texture: if seed % 5 < 3 { &texture } else { &[] },
        });
    }
}

#[test]
fn both_methods_agree_on_the_greatest_reach() {
    let mut random = Random(77);
    let (border, original) = (random.bytes(16), random.bytes(16));
    for (word, table) in [(0x8CEF, spread_table(256)), (0xFFF0, spread_table(40)), (0, spread_table(9))] {
        let list = [word];
        both(&Request {
            border: &border,
            original: &original,
            table: &table,
            reach: 255,
            ..flat_request(&list)
        });
    }
}

/// The block of 4 by 4 with one value where the word has no mark, and another where it has.
fn block_of(word: u64, unmarked: u8, marked: u8) -> [u8; 16] {
    std::array::from_fn(|i| if word >> i & 1 == 1 { marked } else { unmarked })
}

/// How many offsets are tried for a block of 4 by 4 with the list and a flat border, by both methods.
fn tried(list: &[u64], border: u8, table: &[u8], original: &[u8; 16], reach: u32) -> u32 {
    both(&Request { border: &[border; 16], original, table, reach, ..flat_request(list) }).tried
}

#[test]
fn a_trial_ends_at_the_first_offset_that_costs_nothing() {
    let full = spread_table(256);
    for (sample, count) in [(128, 1), (127, 2), (129, 3), (126, 4), (130, 5), (123, 10), (133, 11)] {
        assert_eq!(tried(&[0xFFF0], 128, &full, &[sample; 16], 5), 2 * count);
    }
    for sample in [0, 122, 134, 255] {
        assert_eq!(tried(&[0xFFF0], 128, &full, &[sample; 16], 5), 2 * 11);
    }
}

#[test]
fn each_side_has_its_own_trial() {
    let full = spread_table(256);
    for (row, rest, count) in [(128, 131, 1 + 7), (131, 128, 7 + 1), (126, 133, 4 + 7), (0, 127, 7 + 2)] {
        assert_eq!(tried(&[0xFFF0], 128, &full, &block_of(0xFFF0, row, rest), 3), count);
        assert_eq!(tried(&[0x000F], 128, &full, &block_of(0xFFF0, row, rest), 3), count);
    }
}

#[test]
fn a_side_without_samples_takes_one_offset() {
    let table: Vec<u8> = (10..=255).collect();
    for n in [4, 8, 16] {
        let words = list_words(n, &[[0; 4], all_marked(n)]);
        let (border, original) = (vec![128; 4 * n], vec![9; n * n]);
        for (reach, used) in [(0, 0), (1, 1), (17, 17), (245, 245), (255, 245)] {
            let request = Request { n, list: &words, border: &border, reach, ..flat_request(&[]) };
            let request = Request { original: &original, table: &table, ..request };
            for count in 1..=2 {
                let choice = choose(&Request { count, ..request }).unwrap();
                assert_eq!(choice.tried, count as u32 * (2 * used + 1 + 1));
                assert_eq!(choice.tried, tried_by_place(&Request { count, ..request }));
            }
        }
    }
}

#[test]
fn the_ends_of_the_reach() {
    let full = spread_table(256);
    assert_eq!(tried(&[0xFFF0], 128, &full, &[128; 16], 0), 2);
    assert_eq!(tried(&[0xFFF0], 128, &full, &[0; 16], 0), 2);
    assert_eq!(tried(&[0xFFF0], 128, &full, &[128; 16], 255), 2);
    assert_eq!(tried(&[0xFFF0], 255, &full, &[0; 16], 255), 2 * 510);
    assert_eq!(tried(&[0xFFF0], 0, &full, &[255; 16], 255), 2 * 511);
    assert_eq!(tried(&[0xFFF0], 255, &full, &[0; 16], 254), 2 * 509);
    assert_eq!(tried(&[0xFFF0], 0, &full, &[255; 16], 254), 2 * 509);
}

#[test]
fn offsets_that_are_held_to_one_index_count_singly() {
    assert_eq!(tried(&[0xFFF0], 255, &[100, 128, 140], &[100; 16], 255), 2 * 4);
    assert_eq!(tried(&[0xFFF0], 0, &[100, 128, 140], &[140; 16], 255), 2 * 5);
    assert_eq!(tried(&[0xFFF0], 0, &[100, 128, 140], &[139; 16], 255), 2 * 5);
    let table: Vec<u8> = (100..=140).collect();
    for border in [0, 120, 255] {
        for reach in [0, 1, 20, 39, 40] {
            assert_eq!(tried(&[0xFFF0], border, &table, &[99; 16], reach), 2 * (2 * reach + 1));
        }
    }
}

#[test]
fn only_offsets_that_the_table_can_use_are_tried() {
    let (pair, three, full) = ([100, 140], [100, 128, 140], spread_table(256));
    for border in [0, 128, 255] {
        for reach in [0, 1, 2, 255] {
            assert_eq!(tried(&[0xFFF0], border, &[128], &[128; 16], reach), 2);
            assert_eq!(tried(&[0xFFF0], border, &[128], &[127; 16], reach), 2);
        }
        for (reach, used) in [(0, 0), (1, 1), (2, 1), (255, 1)] {
            assert_eq!(tried(&[0xFFF0], border, &pair, &[99; 16], reach), 2 * (2 * used + 1));
        }
        for (reach, used) in [(0, 0), (1, 1), (2, 2), (3, 2), (255, 2)] {
            assert_eq!(tried(&[0xFFF0], border, &three, &[99; 16], reach), 2 * (2 * used + 1));
        }
    }
    for reach in [253, 254, 255] {
        let checks = block_of(0x5A5A, 127, 128);
        assert_eq!(tried(&[0xFFF0], 128, &full, &checks, reach), 2 * (2 * reach + 1));
    }
}

#[test]
fn a_trial_can_end_at_the_farthest_offset_in_use() {
    for count in [2, 3, 7] {
        let (table, most) = (spread_table(count), count as u32 - 1);
        for reach in [most, most + 1, 255] {
            assert_eq!(tried(&[0xFFF0], 255, &table, &[0; 16], reach), 2 * 2 * most);
            assert_eq!(tried(&[0xFFF0], 0, &table, &[255; 16], reach), 2 * (2 * most + 1));
        }
        assert_eq!(tried(&[0xFFF0], 255, &table, &[0; 16], most - 1), 2 * (2 * most - 1));
    }
}

/// "The least cost can't change by that": the record of least cost over all offsets in −R .. R, by trying each, is the chosen one,
/// which has only offsets that the table can use.
fn same_over_the_reach_as_given(request: &Request) {
    let (record, cost) = best_by_trial(request, &offsets(request.reach));
    let chosen = both(request);
    assert_eq!((chosen.record, chosen.cost), (record, cost));
    assert!([record.off0, record.off1].iter().all(|&offset| offset_usable(request.table, offset)));
    assert_eq!(choose(&Request { reach: reach_in_use(request), ..*request }), Ok(chosen));
}

#[test]
fn the_reach_as_given_has_the_same_record_and_cost_on_pseudo_random_blocks() {
    for seed in 500..596 {
        let n = [4, 8, 4, 4, 16][seed as usize % 5];
        let mut random = Random(seed);
        let (border, original, texture) = (random.bytes(4 * n), random.bytes(n * n), random.bytes(n * n));
        let table = spread_table([1, 2, 3, 4, 7, 12][seed as usize % 6]);
        same_over_the_reach_as_given(&Request {
            n,
            list: edge_words(n),
            count: if n == 4 { 74 } else { 12 },
            border: &border,
            original: &original,
            table: &table,
            reach: table.len() as u32 + [0, 1, 5][seed as usize / 6 % 3],
            texture: if seed % 2 == 0 { &texture } else { &[] },
        });
    }
}

#[test]
fn the_reach_as_given_has_the_same_record_and_cost_where_many_records_tie() {
    for seed in 600..660 {
        let mut random = Random(seed);
        let ends = |random: &mut Random, length: usize| -> Vec<u8> {
            random.bytes(length).iter().map(|byte| [0, 255, 128, 255][*byte as usize % 4]).collect()
        };
        let (border, original) = (ends(&mut random, 16), ends(&mut random, 16));
        let words = [0, 0xFFFF, 0xFFF0, 0xEEEE, 0x8000];
        same_over_the_reach_as_given(&Request {
            border: &border,
            original: if seed % 3 == 0 { &[255; 16] } else { &original },
            table: &spread_table([1, 2, 3, 5][seed as usize % 4]),
            reach: [2, 6, 17][seed as usize / 4 % 3],
            ..flat_request(&words)
        });
    }
}

#[test]
fn the_greatest_reach_has_the_same_record_and_cost() {
    for (seed, count) in [(700, 1), (701, 2), (702, 3), (703, 9), (704, 40), (705, 255), (706, 256)] {
        let mut random = Random(seed);
        let (border, original) = (random.bytes(16), random.bytes(16));
        same_over_the_reach_as_given(&Request {
            border: &border,
            original: &original,
            table: &spread_table(count),
            reach: 255,
            ..flat_request(&[0x8CEF, 0x0001])
        });
    }
}

#[test]
fn entries_that_stand_again_count_again() {
    let full = spread_table(256);
    let original = block_of(0xFFF0, 127, 130);
    for (list, count) in [(&[0xFFF0][..], 7), (&[0xFFF0; 2], 14), (&[0xFFF0; 9], 63)] {
        assert_eq!(tried(list, 128, &full, &original, 5), count);
    }
    let mixed = [0xFFF0, 0, 0xFFF0, 0xFFFF, 0, 0xFFF0];
    assert_eq!(tried(&mixed, 128, &full, &original, 5), 3 * 7 + 3 * (11 + 1));
}

#[test]
fn a_pattern_of_cost_0_does_not_stop_the_later_ones() {
    let original = block_of(0xFFF0, 100, 140);
    let request = Request { original: &original, ..flat_request(&[0xFFF0, 0xEEEE, 0x000F]) };
    let record = Record { kind: 0, entry: 0, off0: -1, off1: 1 };
    assert_eq!(both(&Request { count: 1, ..request }), Choice { record, cost: 0, tried: 2 + 3 });
    assert_eq!(both(&Request { count: 2, ..request }), Choice { record, cost: 0, tried: 2 + 3 + 5 + 5 });
    assert_eq!(both(&request), Choice { record, cost: 0, tried: 2 + 3 + 5 + 5 + 3 + 2 });
    let textured = Request { texture: &original, ..request };
    assert_eq!(both(&textured), Choice { record, cost: 0, tried: 2 + 3 + 5 + 5 + 3 + 2 + 2 + 3 });
}

#[test]
fn a_least_cost_that_is_not_0_does_not_end_the_trial() {
    let full = spread_table(256);
    assert_eq!(tried(&[0xFFF0], 128, &full, &block_of(0xAAAA, 127, 128), 4), 2 * 9);
    assert_eq!(tried(&[0xFFF0], 128, &full, &block_of(0x8000, 128, 129), 255), 1 + 511);
}

#[test]
fn the_outline_is_tried_only_where_texture_is_lent() {
    let (texture, original) = (block_of(0x8020, 0, 1), block_of(0x8020, 128, 140));
    let request = Request { original: &original, ..flat_request(&[0xFFF0, 0x8000]) };
    assert_eq!(both(&request).tried, (1 + 5) + (5 + 3));
    assert_eq!(both(&Request { texture: &texture, ..request }).tried, (1 + 5) + (5 + 3) + (1 + 3));
    assert_eq!(both(&Request { texture: &[7; 16], ..request }).tried, (1 + 5) + (5 + 3) + (5 + 1));
    assert_eq!(both(&Request { texture: &texture, count: 0, ..request }).tried, 1 + 3);
}

#[test]
fn the_count_is_the_sum_over_the_patterns_alone() {
    for seed in 400..412 {
        let n = [4, 8, 16][seed as usize % 3];
        let mut random = Random(seed);
        let (border, texture) = (random.bytes(4 * n), random.bytes(n * n));
        let original: Vec<u8> = random.bytes(n * n).iter().map(|byte| byte / 250 * 3 + 90).collect();
        let (words, full) = (edge_words(n), spread_table(256));
        let request = Request {
            n,
            list: words,
            count: words.len() / words_of(n),
            border: &border,
            original: &original,
            table: &full,
            reach: 255,
            texture: &texture,
        };
        let alone =
            |list: &[u64]| choose(&Request { list, count: 1, texture: &[], ..request }).unwrap().tried;
        let entries: u32 = words.chunks(words_of(n)).map(alone).sum();
        let outline = choose(&Request { count: 0, ..request }).unwrap().tried;
        assert_eq!(choose(&request).unwrap().tried, entries + outline);
        assert_eq!(choose(&Request { texture: &[], ..request }).unwrap().tried, entries);
    }
}

#[test]
fn refusals_in_order() {
    let list = [0xFFF0, 0x10000];
    let long = vec![0u64; 10000];
    let texture = [0; 15];
    let mut request = flat_request(&list);
    request = Request { n: 5, border: &[0; 15], texture: &texture, table: &[], reach: 256, ..request };
    let refused = |request: &Request| {
        assert_eq!(choose(request), choose_by_trial(request));
        choose(request).unwrap_err()
    };
    assert_eq!(refused(&request), 1);
    request.n = 4;
    assert_eq!(refused(&request), 2);
    request.border = &[0; 16];
    assert_eq!(refused(&request), 2);
    request.texture = &[];
    assert_eq!(refused(&Request { count: 3, ..request }), 2);
    assert_eq!(refused(&Request { list: &long, count: 10000, ..request }), 2);
    assert_eq!(refused(&Request { original: &[0; 17], ..request }), 2);
    assert_eq!(refused(&request), 3);
    request.table = &[7];
    assert_eq!(refused(&request), 5);
    request.count = 0;
    assert_eq!(refused(&request), 4);
    request.reach = 255;
    assert_eq!(refused(&request), 10);
    request.count = 1;
    assert_eq!(choose(&request).map(|choice| choice.tried), Ok(2));
    for table in [&[7][..], &[7, 8], &[7, 8, 9]] {
        assert!(choose(&Request { table, reach: 255, ..request }).is_ok());
        assert_eq!(refused(&Request { table, reach: 256, ..request }), 4);
        assert_eq!(refused(&Request { table, reach: u32::MAX, ..request }), 4);
    }
    assert!(choose(&Request { list: &long, count: 9999, reach: 0, ..request }).is_ok());
}

#[test]
fn the_count_of_16_is_of_whole_patterns() {
    let words: Vec<u64> = (0..11).map(|k| 0x10002 << k).collect();
    let many = vec![1u64; 40001];
    let request = Request { n: 16, border: &[9; 64], original: &[7; 256], reach: 1, ..flat_request(&words) };
    let number =
        |length: usize, count: usize| choose(&Request { list: &words[..length], count, ..request }).err();
    assert_eq!(
        [(8, 2), (9, 2), (10, 2), (11, 2), (4, 1)].map(|(length, count)| number(length, count)),
        [None; 5]
    );
    assert_eq!(
        [(11, 3), (8, 3), (8, 8), (7, 2), (3, 1)].map(|(length, count)| number(length, count)),
        [Some(2); 5]
    );
    assert_eq!([(3, 0), (0, 0)].map(|(length, count)| number(length, count)), [Some(10); 2]);
    assert_eq!(choose(&Request { list: &many, count: 10000, ..request }), Err(2));
    assert!(choose(&Request { list: &many, count: 9999, ..request }).is_ok());
    for n in [12, 32] {
        assert_eq!(choose(&Request { n, ..request }), Err(1));
    }
}

#[test]
fn a_choice_for_16_finds_the_entry_that_the_block_shows() {
    let list = edge_list(16);
    let words = list_words(16, &list);
    let border: Vec<u8> = (0..64).map(|k| 60 + 3 * (k % 32)).collect();
    let table = spread_table(256);
    for entry in [0, 1, 700, 1500, 2497] {
        let original = predicted(16, &list[entry], &border, &table, -3, 40);
        let request = Request {
            n: 16,
            list: &words,
            count: list.len(),
            border: &border,
            original: &original,
            table: &table,
            reach: 50,
            texture: &original,
        };
        let chosen = choose(&request).unwrap();
        assert_eq!((chosen.record.kind, chosen.record.entry, chosen.cost), (0, entry as u32, 0));
        let outlined = choose(&Request { count: entry, ..request }).unwrap();
        assert_eq!((outlined.record.kind, outlined.record.entry, outlined.cost), (1, 0, 0));
    }
}

/// The cost of a record with its pattern.
fn cost_of(request: &Request, pattern: &Pattern, off0: i32, off1: i32) -> u32 {
    let prediction = predicted(request.n, pattern, request.border, request.table, off0, off1);
    cost(&prediction, request.original)
}

/// The diagonal law for one case: partners exist and are single, their predictions are transposed,
/// their costs equal, and so are the two chosen costs. With equal costs as many offsets are tried.
fn diagonal_law(request: &Request) {
    let n = request.n;
    let turn = |samples: &[u8]| {
        if samples.is_empty() {
            vec![]
        } else {
            transposed(n, samples).unwrap()
        }
    };
    let (left, top) = request.border.split_at(2 * n);
    let border = [top, left].concat();
    let (original, texture) = (turn(request.original), turn(request.texture));
    let turned = Request { border: &border, original: &original, texture: &texture, ..*request };
    let others = patterns(&turned);
    for (kind, _, pattern) in patterns(request) {
        let partner = transposed_pattern(n, &pattern);
        let is_partner = |other: &&(u32, u32, Pattern)| other.0 == kind && other.2 == partner;
        let partners: Vec<_> = others.iter().filter(is_partner).collect();
        assert_eq!(partners.len(), 1);
        for (off0, off1) in [(0, 0), (-1, 1), (1, 0)] {
            let block = predicted(n, &pattern, request.border, request.table, off0, off1);
            let other = predicted(n, &partner, &border, request.table, off0, off1);
            assert_eq!(turn(&block), other);
            let cost = cost_of(request, &pattern, off0, off1);
            assert_eq!(cost_of(&turned, &partner, off0, off1), cost);
        }
    }
    let (here, across) = (choose(request).unwrap(), choose(&turned).unwrap());
    assert_eq!((across.cost, across.tried), (here.cost, here.tried));
}

#[test]
fn diagonal_law_on_pseudo_random_blocks() {
    for seed in 100..130 {
        let n = [4, 8, 4, 8, 16][seed as usize % 5];
        let mut random = Random(seed);
        let (mut border, original) = (random.bytes(4 * n), random.bytes(n * n));
        let (texture, list) = (random.bytes(n * n), edge_words(n));
        let differ = border[0].abs_diff(border[2 * n - 1]) != border[2 * n].abs_diff(border[4 * n - 1]);
        if seed % 3 == 0 || !differ {
            border[2 * n - 1] = border[4 * n - 1];
        }
        let table = spread_table([1, 3, 16, 256][seed as usize % 4]);
        diagonal_law(&Request {
            n,
            list,
            count: list.len() / words_of(n),
            border: &border,
            original: &original,
            table: &table,
            reach: [0, 1, 20, 255][seed as usize / 4 % 4],
            texture: if seed % 7 < 4 { &texture } else { &[] },
        });
    }
}

#[test]
fn the_law_needs_its_condition() {
    let mut border = [50; 16];
    (border[7], border[15]) = (40, 60);
    let turned = {
        let (left, top) = border.split_at(8);
        [top, left].concat()
    };
    let table: Vec<u8> = (0..=255).collect();
    let mut original = [50; 16];
    original[15] = 60;
    let request = Request {
        border: &border,
        original: &original,
        table: &table,
        reach: 0,
        ..flat_request(edge_words(4))
    };
    assert_eq!(choose(&request).unwrap().cost, 0);
    assert_eq!(choose(&Request { border: &turned, ..request }).unwrap().cost, 10);
}

#[test]
fn the_pattern_of_a_record_is_its_entry_or_the_outline() {
    let texture: Vec<u8> = (0..=255).collect();
    for n in [4, 8, 16] {
        let (list, texture) = (edge_list(n), &texture[..n * n]);
        for lent in [&[][..], texture] {
            let found: Vec<Pattern> =
                (0..list.len() as u32).map(|entry| pattern_of(n, 0, entry, lent).unwrap()).collect();
            assert_eq!(found, list);
        }
        assert_eq!(pattern_of(n, 1, 0, texture), Ok(outline(n, texture)));
    }
    assert_eq!(pattern_of(4, 0, 6, &[]), Ok([0x008E, 0, 0, 0]));
}

#[test]
fn refusals_of_a_pattern_in_order() {
    assert_eq!(pattern_of(5, 2, 0, &[0; 15]), Err(1));
    assert_eq!(pattern_of(4, 2, 0, &[0; 15]), Err(2));
    assert_eq!(pattern_of(8, 0, 498, &[0; 16]), Err(2));
    assert_eq!(pattern_of(4, 2, 74, &[]), Err(7));
    assert_eq!(pattern_of(4, 1, 1, &[]), Err(7));
    assert_eq!(pattern_of(4, 1, 0, &[]), Err(21));
    assert_eq!(pattern_of(4, 0, 74, &[]), Err(6));
    assert_eq!(pattern_of(8, 0, u32::MAX, &[0; 64]), Err(6));
    assert_eq!(pattern_of(12, 0, 0, &[]), Err(1));
    assert_eq!(pattern_of(32, 0, 0, &[]), Err(1));
    assert_eq!(pattern_of(16, 2, 0, &[0; 64]), Err(2));
    assert_eq!(pattern_of(16, 1, 1, &[0; 256]), Err(7));
    assert_eq!(pattern_of(16, 1, 0, &[]), Err(21));
    assert_eq!(pattern_of(16, 0, 2498, &[]), Err(6));
}
