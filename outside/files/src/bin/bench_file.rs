//! Times reading and writing record files of 1, 64 and 1,024 records (n = 4), the library beside the independent implementation, both
//! in one run. Each time is the least of several rounds, in which the two take turns.

use files::aids::{plain_aids, Built};
use files::cases::Case;
use files::lent::{Fields, Lent};
use files::library;
use files::random::Random;
use files::reading::List;
use files::writing::space_for;
use reference::choice::Record;
use reference::file;
use reference::sheet::Sheet;
use std::hint::black_box;
use std::time::Instant;

const ROUNDS: usize = 25;

/// The side of the sheet in blocks for each file.
const SIDES: [u32; 3] = [1, 8, 32];

/// Nanoseconds a call of each of the two, the least of the rounds.
fn least(mut library: impl FnMut(), mut other: impl FnMut(), calls: u32) -> [f64; 2] {
    let timed = |call: &mut dyn FnMut()| {
        let start = Instant::now();
        (0..calls).for_each(|_| call());
        start.elapsed().as_nanos() as f64 / calls as f64
    };
    let mut best = [f64::INFINITY; 2];
    for _ in 0..ROUNDS {
        best[0] = best[0].min(timed(&mut library));
        best[1] = best[1].min(timed(&mut other));
    }
    best
}

fn case(random: &mut Random, built: &Built, side: u32, table: Vec<u8>) -> Case {
    let sheet = Sheet { n: 4, width: 4 * side, height: 4 * side, placed: side * side };
    let (aids, most) = (plain_aids(built), table.len() - 1);
    let record = |random: &mut Random| Record {
        kind: 0,
        entry: random.below(aids.list(4).count) as u32,
        off0: random.below(2 * most + 1) as i32 - most as i32,
        off1: random.below(2 * most + 1) as i32 - most as i32,
    };
    let records = (0..sheet.placed).map(|_| record(random)).collect();
    Case { sheet, table, records, aids }
}

fn time_reading(case: &Case, text: &[u8], calls: u32) -> [f64; 2] {
    let aids = &case.aids;
    let (mut bytes, mut lists, mut texture) = (Lent::new(text, 0), aids.lent_lists(), Lent::new(&[], 0));
    let (mut samples, mut fields) =
        (Lent::new(&vec![0; aids.samples], 0), Fields::unread(aids.records).lent());
    let (mut own_samples, mut own_records) = (vec![0; aids.samples], Fields::unread(aids.records).records());
    let library = || {
        let back =
            library::read(&mut bytes, &mut lists, aids.counts(), &mut texture, &mut samples, &mut fields);
        assert_eq!(black_box(back).refusal, 0);
    };
    let other = || {
        let back = file::read(black_box(text), &aids.listed(), &[], &mut own_samples, &mut own_records);
        assert!(black_box(back).is_ok());
    };
    least(library, other, calls)
}

fn time_writing(case: &Case, text: &[u8], calls: u32) -> [f64; 2] {
    let List { words, count } = case.list();
    let (mut list, mut table) = (Lent::new(words, 0), Lent::new(&case.table, 0));
    let mut fields = Fields::of(&case.records).lent();
    let space = vec![0; space_for(&case.sheet, case.table.len())];
    let (mut out, mut own_out) = (Lent::new(&space, 0), space);
    let library = || {
        let wrote = library::write(&case.sheet, &mut list, *count, &mut table, &mut fields, &mut out);
        assert_eq!(black_box(wrote).length, text.len());
    };
    let other = || {
        let wrote =
            file::write(black_box(&case.sheet), words, *count, &case.table, &case.records, &mut own_out);
        assert_eq!(black_box(wrote), Ok(text.len()));
    };
    least(library, other, calls)
}

/// One call on the three files: a line for each, with the time a byte beside that of the smallest file, and the time that each record
/// more takes.
fn print_times(
    name: &str,
    random: &mut Random,
    built: &Built,
    table: &[u8],
    time: fn(&Case, &[u8], u32) -> [f64; 2],
) {
    let (mut smallest, mut before) = (None, None);
    for side in SIDES {
        let case = case(random, built, side, table.to_vec());
        let (text, records) = (case.text(), case.records.len());
        let [library, other] = time(&case, &text, 20000 / (records as u32 + 20));
        let a_byte = library / text.len() as f64;
        let relative = a_byte / *smallest.get_or_insert(a_byte);
        let (bytes, ratio) = (text.len(), library / other);
        let more = match before.replace((library, records)) {
            Some((less, fewer)) => format!("{:.0}", (library - less) / (records - fewer) as f64),
            None => String::new(),
        };
        println!("  {name:<6}{records:>8}{bytes:>7}{library:>9.0}{a_byte:>8.2}{relative:>10.2}{more:>14}{ratio:>17.2}");
    }
}

fn main() {
    let (mut random, built) = (Random::new(1), Built::new());
    for table in [vec![100, 128, 140], (0..=255).collect::<Vec<u8>>()] {
        println!("n = 4, {} table values; times in nanoseconds", table.len());
        println!("  call   records  bytes     time  a byte  relative  a record more  library / other");
        print_times("read", &mut random, &built, &table, time_reading);
        print_times("write", &mut random, &built, &table, time_writing);
    }
}
