//! Files that stand in every run.

use crate::aids::{plain_aids, Built};
use crate::cases::Case;
use crate::random::Random;
use reference::choice::Record;
use reference::sheet::Sheet;

/// The longest file that is sound with the list as built: 128 by 128, n = 4, all values, and each record as long as it gets.
pub fn longest(built: &Built) -> Case {
    let sheet = Sheet { n: 4, width: 128, height: 128, placed: 1024 };
    let aids = plain_aids(built);
    let entry = built.list(4).count as u32 - 1;
    let records = vec![Record { kind: 0, entry, off0: -255, off1: -255 }; 1024];
    Case { sheet, table: (0..=255).collect(), records, aids }
}

/// Files that no damage makes: document 01's own, one of each size, of sizes beside them, no bytes, bytes of no meaning, and files of 100,000 bytes.
pub fn fixed(random: &mut Random, built: &Built) -> Vec<Vec<u8>> {
    let sample = b"size width height values\n4 4 4 3\ndepth\n100\n128\n140\nkind entry off0 off1\n0 0 -1 1\n";
    let long = longest(built).text();
    let filled = |start: &[u8], unit: &[u8]| {
        let fill = unit.iter().copied().cycle();
        start.iter().copied().chain(fill).take(100000).collect::<Vec<u8>>()
    };
    let title = b"size width height values\n";
    let mut files = vec![
        sample.to_vec(),
        vec![],
        vec![0],
        vec![10],
        vec![255; 40],
        vec![0; 5000],
        vec![10; 5000],
        (0..=255).collect(),
        title.to_vec(),
        long.clone(),
        long[..long.len() - 1].to_vec(),
        [&long[..], b"\n"].concat(),
        [&long[..], b"0"].concat(),
        [&long[..], &long[..]].concat(),
        filled(&long, b"\n"),
        filled(&long, b"0 0 0 0\n"),
        filled(b"", b"0"),
        filled(b"", b"\n"),
        filled(b"", b"size width height values\n4 4 4 3\n"),
        filled(title, b"4"),
        filled(title, b"4 "),
        filled(b"", &[0]),
        filled(sample, b" "),
        filled(sample, sample),
        random.bytes(100000),
    ];
    for n in [4, 8, 16, 12, 32] {
        let of_size = String::from_utf8_lossy(sample).replace("4 4 4 3", &format!("{n} {n} {n} 3"));
        files.push(of_size.clone().into_bytes());
        files.extend(
            [73, 74, 497, 498, 2497, 2498]
                .map(|entry| of_size.replace("0 0 -1 1", &format!("0 {entry} -1 1")).into_bytes()),
        );
    }
    for length in [1, 7, 80, 1000, 16384, 33873] {
        files.push(random.bytes(length));
        files.push([title.to_vec(), random.bytes(length)].concat());
    }
    files
}
