use super::*;
use crate::random::Random;
use crate::sheet::Aim;

const SAMPLE: &str =
    "size width height values\n4 4 4 3\ndepth\n100\n128\n140\nkind entry off0 off1\n0 0 -1 1\n";
const SHOWN: &str =
    "width height\n4 4\ndepth\n100 100 100 100\n140 140 140 140\n140 140 140 140\n140 140 140 140\n";

/// A record that no file holds, to see what reading leaves untouched.
const UNREAD: Record = Record { kind: 9, entry: 9, off0: 999, off1: 999 };

/// State, table, samples and records.
type Read = (Sheet, Vec<u8>, Vec<u8>, Vec<Record>);

/// Reads with the lists as built, or the refusal; refused or past the used part, nothing changes.
fn read_built(text: &str, texture: &[u8]) -> Result<Read, (u32, u32)> {
    let mut samples = vec![77; SAMPLES_LENT];
    let mut records = vec![UNREAD; RECORDS_LENT];
    let answer = read(text.as_bytes(), &built_lists(), texture, &mut samples, &mut records);
    let (area, blocks) = match &answer {
        Ok((sheet, _)) => (sheet.area() as usize, sheet.blocks() as usize),
        Err(_) => (0, 0),
    };
    assert!(samples[area..].iter().all(|&sample| sample == 77));
    assert!(records[blocks..].iter().all(|record| *record == UNREAD));
    samples.truncate(area);
    records.truncate(blocks);
    let (sheet, table) = answer.map_err(|refused| (refused.number, refused.line))?;
    Ok((sheet, table, samples, records))
}

/// The refusal number and line of the sample file with a part of its text replaced.
fn refused(old: &str, new: &str) -> (u32, u32) {
    assert_eq!(SAMPLE.matches(old).count(), 1, "{old}");
    let text = SAMPLE.replace(old, new);
    let answer = read_built(&text, &[]).unwrap_err();
    assert_eq!(show(text.as_bytes()), format!("refusal line\n{} {}\n", answer.0, answer.1));
    answer
}

#[test]
fn the_sample_file() {
    let (sheet, table, samples, records) = read_built(SAMPLE, &[]).unwrap();
    assert_eq!(sheet, Sheet { n: 4, width: 4, height: 4, placed: 1 });
    assert_eq!(table, [100, 128, 140]);
    assert_eq!(samples, [[100; 4], [140; 4], [140; 4], [140; 4]].concat());
    assert_eq!(records, [Record { kind: 0, entry: 0, off0: -1, off1: 1 }]);
    assert_eq!(show(SAMPLE.as_bytes()), SHOWN);
    let mut bytes = vec![7; 80 + 4 * 3 + 32];
    let length = write(&sheet, edge_words(4), 74, &table, &records, &mut bytes).unwrap();
    assert_eq!(&bytes[..length], SAMPLE.as_bytes());
    assert!(bytes[length..].iter().all(|&byte| byte == 7));
}

#[test]
fn show_needs_space_for_the_longest_text() {
    assert_eq!(TEXT_LENT, 65563);
    for file in [SAMPLE.as_bytes(), b"", &[255; 9]] {
        let mut lent = vec![7; TEXT_LENT + 1];
        assert_eq!(show_text(file, &mut lent[..TEXT_LENT - 1]), Err(2));
        assert!(lent.iter().all(|&byte| byte == 7));
        let text = show(file);
        for length in [TEXT_LENT, TEXT_LENT + 1] {
            let mut lent = vec![7; length];
            assert_eq!(show_text(file, &mut lent), Ok(text.len()));
            assert_eq!(&lent[..text.len()], text.as_bytes());
            assert!(lent[text.len()..].iter().all(|&byte| byte == 7));
        }
    }
}

#[test]
fn the_longest_text_fills_the_space() {
    let front = "size width height values\n4 128 128 1\ndepth\n255\nkind entry off0 off1\n";
    let file = front.to_string() + &"0 0 0 0\n".repeat(RECORDS_LENT);
    assert_eq!(show(file.as_bytes()).len(), TEXT_LENT);
}

#[test]
fn numerals() {
    for (field, number) in [("0", 0), ("7", 7), ("10", 10), ("99999", 99999)] {
        assert_eq!(numeral(field, false), Some(number));
        assert_eq!(numeral(field, true), Some(number));
    }
    assert_eq!(numeral("-1", true), Some(-1));
    assert_eq!(numeral("-99999", true), Some(-99999));
    for field in ["", "-", "-0", "00", "01", "-01", "100000", "-100000", "+1", "--1", "1-", "a", " 1", "1\r"]
    {
        assert_eq!(numeral(field, true), None, "{field}");
    }
    assert_eq!(numeral("-1", false), None);
}

#[test]
fn refusals_of_sizes() {
    for (new, expected) in [
        ("5 0 0 0\n", (1, 2)),
        ("0 4 4 3\n", (1, 2)),
        ("99999 4 4 3\n", (1, 2)),
        ("12 12 12 3\n", (1, 2)),
        ("32 32 32 3\n", (1, 2)),
        ("16 4 4 3\n", (8, 2)),
        ("16 16 24 3\n", (8, 2)),
        ("16 16 144 3\n", (8, 2)),
        ("16 16 16 0\n", (3, 2)),
        ("4 6 4 0\n", (8, 2)),
        ("4 4 0 3\n", (8, 2)),
        ("4 132 4 3\n", (8, 2)),
        ("4 4 4 0\n", (3, 2)),
        ("4 4 4 257\n", (3, 2)),
        ("4 4 4\n", (9, 2)),
        ("4 4 4 3 \n", (9, 2)),
        ("4 4 4 3 3\n", (9, 2)),
        ("4  4 4 3\n", (9, 2)),
        ("4 4 4 3\r\n", (9, 2)),
        ("5 4 4 03\n", (9, 2)),
        ("5 4 4 -3\n", (9, 2)),
        ("5 4 4 100000\n", (9, 2)),
        ("\n", (9, 2)),
    ] {
        assert_eq!(refused("4 4 4 3\n", new), expected, "{new}");
    }
    assert_eq!(refused("size width", "size  width"), (9, 1));
    assert_eq!(refused("values\n4", "values 4"), (9, 1));
}

#[test]
fn refusals_of_values_and_records() {
    for (old, new, expected) in [
        ("depth\n", "depths\n", (9, 3)),
        ("depth\n", "", (9, 3)),
        ("100\n", "256\n", (3, 4)),
        ("128\n", "100\n", (3, 5)),
        ("140\n", "140 \n", (9, 6)),
        ("140\n", "-1\n", (9, 6)),
        ("140\n", "", (9, 6)),
        ("kind ", "Kind ", (9, 7)),
        ("0 0 -1 1\n", "2 0 -256 1\n", (7, 8)),
        ("0 0 -1 1\n", "1 1 -256 1\n", (7, 8)),
        ("0 0 -1 1\n", "1 0 -256 1\n", (21, 8)),
        ("0 0 -1 1\n", "0 74 -256 1\n", (6, 8)),
        ("0 0 -1 1\n", "0 73 -256 1\n", (4, 8)),
        ("0 0 -1 1\n", "0 73 0 99999\n", (4, 8)),
        ("0 0 -1 1\n", "0 74 -0 1\n", (9, 8)),
        ("0 0 -1 1\n", "0 74 0 100000\n", (9, 8)),
        ("0 0 -1 1\n", "0 -1 0 0\n", (9, 8)),
        ("0 0 -1 1\n", "0 0 -1 1", (9, 8)),
        ("0 0 -1 1\n", "", (9, 8)),
        ("0 0 -1 1\n", "0 0 -1 1\n\n", (9, 9)),
        ("0 0 -1 1\n", "0 0 -1 1\n0", (9, 9)),
        ("0 0 -1 1\n", "0 0 -1 1\n0 0 -1 1\n", (9, 9)),
    ] {
        assert_eq!(refused(old, new), expected, "{old}{new}");
    }
    assert_eq!(read_built("", &[]).unwrap_err(), (9, 1));
    assert_eq!(show(&[255, 10]), "refusal line\n9 1\n");
}

#[test]
fn refusal_24_at_a_records_line() {
    for (record, number) in [
        ("0 0 3 0", 24),
        ("0 0 -3 0", 24),
        ("0 0 0 3", 24),
        ("0 0 0 -3", 24),
        ("0 0 255 -255", 24),
        ("0 0 200 1", 24),
        ("0 0 3 256", 4),
        ("0 0 300 -3", 4),
        ("0 74 3 0", 6),
        ("1 0 3 0", 21),
        ("1 1 3 0", 7),
        ("2 0 3 0", 7),
        ("2 0 3 00", 9),
    ] {
        assert_eq!(refused("0 0 -1 1\n", &format!("{record}\n")), (number, 8), "{record}");
    }
    for record in ["0 0 2 -2", "0 0 -2 2", "0 0 0 0"] {
        assert!(read_built(&SAMPLE.replace("0 0 -1 1", record), &[]).is_ok());
    }
    let textured = SAMPLE.replace("0 0 -1 1", "1 0 1 -3");
    assert_eq!(read_built(&textured, &[9; 16]).unwrap_err(), (24, 8));
    let words = [0xFFF0, 0x10000];
    let lists = [Listed { list: &words, count: 2 }, built_lists()[1], built_lists()[2]];
    for (record, number) in [("0 1 3 0", 5), ("0 0 3 0", 24)] {
        let (mut samples, mut records) = (vec![7; SAMPLES_LENT], vec![UNREAD; RECORDS_LENT]);
        let text = SAMPLE.replace("0 0 -1 1", record);
        let answer = read(text.as_bytes(), &lists, &[], &mut samples, &mut records);
        assert_eq!(answer, Err(Refused { number, line: 8 }));
        assert!(samples.iter().all(|&sample| sample == 7) && records.iter().all(|r| *r == UNREAD));
    }
}

#[test]
fn the_offsets_of_each_record_are_set_against_the_files_table() {
    let two = |table: &str, records: &str| {
        let values = table.lines().count();
        let text = format!("4 8 4 {values}\ndepth\n{table}kind entry off0 off1\n{records}");
        read_built(&("size width height values\n".to_string() + &text), &[]).map(|_| ()).unwrap_err()
    };
    assert_eq!(two("7\n", "0 0 0 0\n0 0 0 1\n"), (24, 7));
    assert_eq!(two("7\n", "0 0 -1 0\n2 0 0 0\n"), (24, 6));
    assert_eq!(two("7\n", "2 0 0 0\n0 0 -1 0\n"), (7, 6));
    assert_eq!(two("7\n8\n", "0 0 1 -1\n0 0 -2 0\n"), (24, 8));
    assert_eq!(two("7\n8\n", "0 0 0 2\n"), (24, 7));
    assert_eq!(two("7\n8\n9\n", "0 0 2 -2\n"), (9, 9));
    let full: String = (0..256).map(|value| format!("{value}\n")).collect();
    assert_eq!(two(&full, "0 0 255 -255\n0 0 256 0\n"), (4, 262));
}

#[test]
fn refusal_24_in_writing() {
    let (list, sheet) = ([0xFFF0, 0x10000], Sheet { n: 4, width: 8, height: 4, placed: 2 });
    let edge = |entry: u32, off0: i32, off1: i32| Record { kind: 0, entry, off0, off1 };
    let outline = |entry: u32| Record { kind: 1, entry, off0: 0, off1: 3 };
    let mut bytes = vec![7; 200];
    let mut written = |table: &[u8], first: Record, second: Record| {
        let answer = write(&sheet, &list, 2, table, &[first, second], &mut bytes).map(|_| ());
        assert!(answer.is_ok() || bytes.iter().all(|&byte| byte == 7));
        bytes.fill(7);
        answer
    };
    let (three, sound) = ([100, 128, 140], edge(0, 2, -2));
    for (record, number) in [
        (edge(0, 3, 0), 24),
        (edge(0, -3, 0), 24),
        (edge(0, 0, 255), 24),
        (outline(0), 24),
        (edge(0, 3, 300), 4),
        (edge(0, i32::MIN, 3), 4),
        (edge(1, 3, 0), 5),
        (edge(2, 3, 0), 6),
        (outline(1), 7),
        (Record { kind: 2, ..outline(0) }, 7),
    ] {
        assert_eq!(written(&three, sound, record), Err(number));
        assert_eq!(written(&three, record, Record { kind: 3, ..sound }), Err(number));
        assert_eq!(written(&[7, 7], record, record), Err(3));
    }
    assert_eq!(written(&three, sound, sound), Ok(()));
    assert_eq!(written(&[100, 128], sound, sound), Err(24));
    assert_eq!(written(&[100], edge(0, 0, 0), edge(0, 0, 1)), Err(24));
    assert_eq!(written(&[100], edge(0, 0, 0), edge(0, 0, 0)), Ok(()));
    assert_eq!(written(&[1, 2, 3, 4], outline(0), edge(0, -3, 3)), Ok(()));
}

#[test]
fn the_first_bad_line_counts() {
    let text = SAMPLE.replace("128\n", "1 28\n").replace("4 4 4 3", "4 5 4 3");
    assert_eq!(read_built(&text, &[]).unwrap_err(), (8, 2));
    let text = SAMPLE.replace("128\n", "90\n").replace("140\n", "x\n");
    assert_eq!(read_built(&text, &[]).unwrap_err(), (3, 5));
}

#[test]
fn a_file_of_16() {
    let text = SAMPLE.replace("4 4 4 3", "16 16 16 3").replace("0 0 -1 1", "0 2497 -1 1");
    let (sheet, _, samples, records) = read_built(&text, &[]).unwrap();
    assert_eq!(sheet, Sheet { n: 16, width: 16, height: 16, placed: 1 });
    assert_eq!(records, [Record { kind: 0, entry: 2497, off0: -1, off1: 1 }]);
    let pattern = crate::block::pattern_at(16, edge_words(16), 2497);
    for (i, &sample) in samples.iter().enumerate() {
        let marked = crate::block::mark(16, &pattern, i % 16, i / 16);
        assert_eq!(sample, if marked { 140 } else { 100 });
    }
    let refused = read_built(&text.replace("0 2497", "0 2498"), &[]).unwrap_err();
    assert_eq!(refused, (6, 8));
    assert_eq!(read_built(&text, &[0; 64]).unwrap_err(), (2, 2));
    assert!(read_built(&text.replace("0 2497", "1 0"), &[0; 256]).is_ok());
}

#[test]
fn lengths_and_texture_in_reading() {
    let list = vec![0x10000u64; 10000];
    let (mut samples, mut records) = (vec![7; SAMPLES_LENT], vec![UNREAD; RECORDS_LENT]);
    let bad = "not a file".as_bytes();
    let short = Err(Refused { number: 2, line: 0 });
    let with = |list, count| [Listed { list, count }, built_lists()[1], built_lists()[2]];
    assert_eq!(read(bad, &with(&list, 10000), &[], &mut samples, &mut records), short);
    assert_eq!(read(bad, &with(&list[..1], 2), &[], &mut samples, &mut records), short);
    assert_eq!(read(bad, &with(&list, 1), &[], &mut samples[1..], &mut records), short);
    assert_eq!(read(bad, &with(&list, 1), &[], &mut samples, &mut records[1..]), short);
    let word = Err(Refused { number: 5, line: 8 });
    assert_eq!(read(SAMPLE.as_bytes(), &with(&list, 1), &[], &mut samples, &mut records), word);
    assert_eq!(read_built(SAMPLE, &[0; 15]).unwrap_err(), (2, 2));
    assert_eq!(read_built(&SAMPLE.replace("4 4 4 3", "4 4 4 0"), &[0; 15]).unwrap_err(), (2, 2));
    assert_eq!(read_built(&SAMPLE.replace("4 4 4 3", "4 4 6 3"), &[0; 15]).unwrap_err(), (8, 2));
    assert!(read_built(&SAMPLE.replace("0 0 -1 1", "1 0 -1 1"), &[0; 16]).is_ok());
}

#[test]
fn all_three_lists_are_judged_and_only_the_files_own_is_used() {
    let many = vec![0x10000u64; 40000];
    let text = SAMPLE.replace("4 4 4 3", "16 16 16 3");
    let read_with = |file: &str, own: usize, list, count| {
        let mut lists = built_lists();
        lists[own] = Listed { list, count };
        let (mut samples, mut records) = (vec![7; SAMPLES_LENT], vec![UNREAD; RECORDS_LENT]);
        let answer = read(file.as_bytes(), &lists, &[], &mut samples, &mut records);
        answer.map(|_| ()).map_err(|refused| (refused.number, refused.line))
    };
    for file in [SAMPLE, &text, "not a file"] {
        for own in 0..3 {
            let words = words_of(SIZES[own]);
            assert_eq!(read_with(file, own, &many, 10000), Err((2, 0)));
            assert_eq!(read_with(file, own, &many[..9 * words - 1], 9), Err((2, 0)));
            assert_eq!(read_with(file, own, &[], 1), Err((2, 0)));
            assert_ne!(read_with(file, own, &many, 9999), Err((2, 0)));
            assert_ne!(read_with(file, own, &many[..9 * words], 9), Err((2, 0)));
            assert_ne!(read_with(file, own, &[], 0), Err((2, 0)));
        }
    }
    assert_eq!(read_with(&text, 2, &many[..7], 1), Ok(()));
    assert_eq!(read_with(&text, 2, &many[..7], 2), Err((2, 0)));
    assert_eq!(read_with(&text, 0, &[], 0), Ok(()));
    assert_eq!(read_with(&text, 2, &[], 0), Err((6, 8)));
    assert_eq!(read_with(SAMPLE, 2, &[], 0), Ok(()));
}

#[test]
fn refusals_of_writing_in_order_and_the_bytes_untouched() {
    let list = [0xFFF0, 0x10000];
    let mut bytes = vec![7; 80 + 4 + 64];
    let edge = |entry: u32, off0: i32| Record { kind: 0, entry, off0, off1: 0 };
    let (bad, sound) = (Record { kind: 2, entry: 0, off0: 256, off1: 0 }, edge(0, 0));
    let state = |n, width, placed| Sheet { n, width, height: 4, placed };
    let mut refused = |sheet: Sheet, count: usize, table: &[u8], records: &[Record], space: usize| {
        write(&sheet, &list, count, table, records, &mut bytes[..space]).unwrap_err()
    };
    assert_eq!(refused(state(5, 9, 9), 3, &[], &[], 0), 1);
    assert_eq!(refused(state(4, 9, 9), 3, &[], &[bad; 2], 148), 2);
    assert_eq!(refused(state(4, 9, 9), 2, &[], &[bad], 148), 2);
    assert_eq!(refused(state(4, 9, 9), 2, &[], &[bad; 2], 143), 2);
    assert_eq!(refused(state(4, 8, 2), 2, &[7, 7], &[bad; 2], 148), 2);
    assert_eq!(refused(state(4, 9, 9), 2, &[], &[bad; 2], 144), 8);
    assert_eq!(refused(state(4, 8, 3), 2, &[], &[bad; 2], 148), 23);
    assert_eq!(refused(state(4, 8, 1), 2, &[], &[bad; 2], 148), 22);
    assert_eq!(refused(state(4, 8, 2), 2, &[], &[bad; 2], 148), 3);
    let full = state(4, 8, 2);
    assert_eq!(refused(full, 2, &[7], &[sound, bad], 148), 7);
    assert_eq!(refused(full, 2, &[7], &[edge(2, 256), bad], 148), 6);
    assert_eq!(refused(full, 2, &[7], &[edge(1, 256), bad], 148), 5);
    assert_eq!(refused(full, 2, &[7], &[edge(0, 256), bad], 148), 4);
    assert!(bytes.iter().all(|&byte| byte == 7));
    let words = [0x10000; 11];
    let of_16 = Sheet { n: 16, width: 16, height: 16, placed: 1 };
    assert_eq!(write(&of_16, &words, 3, &[7], &[sound], &mut bytes), Err(2));
    assert_eq!(write(&of_16, &words[..7], 2, &[7], &[sound], &mut bytes), Err(2));
    assert_eq!(write(&of_16, &words, 2, &[7], &[edge(2, 0)], &mut bytes), Err(6));
    assert!(bytes.iter().all(|&byte| byte == 7));
    assert!(write(&of_16, &words, 2, &[7], &[edge(1, 0)], &mut bytes).is_ok());
    let outline = Record { kind: 1, ..sound };
    assert!(write(&full, &list, 2, &[7], &[outline, sound, bad], &mut bytes).is_ok());
}

#[test]
fn written_files_read_back() {
    let cases = [
        (4, 3, 2, 1, true, 5, 9),
        (8, 2, 3, 2, true, 5, 9),
        (4, 32, 32, 3, false, 5, 9),
        (16, 2, 2, 4, true, 5, 9),
        (16, 8, 1, 5, false, 5, 9),
        (4, 2, 3, 6, true, 100, 255),
        (8, 2, 2, 7, false, 200, 255),
        (4, 3, 1, 8, true, 256, 1),
    ];
    for (n, wide, high, seed, textured, step, reach) in cases {
        let (list, count, mut random) = (edge_words(n), edge_words(n).len() / words_of(n), Random(seed));
        let area = n * n * wide * high;
        let table: Vec<u8> = (0..=255).step_by(step).collect();
        let (original, texture) = (random.bytes(area), random.bytes(if textured { area } else { 0 }));
        let lent = Lent { list, count, table: &table, texture: &texture };
        let (mut samples, mut records) = (vec![0; area], vec![UNREAD; wide * high]);
        let empty = Sheet::new(n as u32, (n * wide) as u32, (n * high) as u32).unwrap();
        let aim = Aim { original: &original, reach };
        let (sheet, _) = empty.compose(&mut samples, &lent, &aim, &mut records).unwrap();
        let mut bytes = vec![0; 80 + 4 * table.len() + 32 * records.len()];
        let length = write(&sheet, list, count, &table, &records, &mut bytes).unwrap();

        let (mut read_samples, mut read_records) = (vec![1; SAMPLES_LENT], vec![UNREAD; RECORDS_LENT]);
        let file = &bytes[..length];
        let answer = read(file, &built_lists(), &texture, &mut read_samples, &mut read_records);
        assert_eq!(answer, Ok((sheet, table)));
        assert_eq!(read_samples[..area], samples);
        assert_eq!(read_records[..records.len()], records);
    }
}

#[test]
fn an_altered_file_is_refused_or_is_the_file_written_of_what_was_read() {
    for at in 0..SAMPLE.len() {
        for byte in [b'\n', b' ', b'-', b'0', b'1', b'5', b'9', b'k', 0, 255] {
            let (mut replaced, mut longer, mut shorter) =
                (SAMPLE.as_bytes().to_vec(), SAMPLE.as_bytes().to_vec(), SAMPLE.as_bytes().to_vec());
            replaced[at] = byte;
            longer.insert(at, byte);
            shorter.remove(at);
            for file in [replaced, longer, shorter] {
                let (mut samples, mut records) = (vec![7; SAMPLES_LENT], vec![UNREAD; RECORDS_LENT]);
                let answer = read(&file, &built_lists(), &[], &mut samples, &mut records);
                if let Ok((sheet, table)) = answer {
                    let mut bytes = vec![0; 1000];
                    let list = built_lists()[SIZES.iter().position(|&n| n == sheet.n as usize).unwrap()];
                    let length = write(&sheet, list.list, list.count, &table, &records, &mut bytes).unwrap();
                    assert_eq!(bytes[..length], file);
                }
            }
        }
    }
}
