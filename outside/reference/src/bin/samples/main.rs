//! Writes the sample files of `docs/samples` into the folder that is named, which must exist.

use reference::block::words_of;
use reference::choice::{cost, Record};
use reference::edges::edge_words;
use reference::file::{shown, write, RECORDS_LENT};
use reference::sheet::{Aim, Lent, Sheet};
use std::path::Path;

mod scene;

/// Document 01's sample record file.
const FIRST: &str =
    "size width height values\n4 4 4 3\ndepth\n100\n128\n140\nkind entry off0 off1\n0 0 -1 1\n";

/// What `show` prints of it, as document 01 has it.
const FIRST_SHOWN: &str =
    "width height\n4 4\ndepth\n100 100 100 100\n140 140 140 140\n140 140 140 140\n140 140 140 140\n";

/// The search range of the offsets in composing the scene.
const REACH: u32 = 16;

/// The scene composed in blocks of n by n: its record file, its samples and how many records it took.
struct Composed {
    file: Vec<u8>,
    samples: Vec<u8>,
    records: usize,
}

/// Composes the scene and writes its record file.
fn composed(n: u32) -> Result<Composed, u32> {
    let (list, table, original) = (edge_words(n as usize), scene::table(), scene::original());
    let count = list.len() / words_of(n as usize);
    let lent = Lent { list, count, table: &table, texture: &[] };
    let aim = Aim { original: &original, reach: REACH };
    let mut samples = vec![0; original.len()];
    let mut records = vec![Record::default(); RECORDS_LENT];
    let empty = Sheet::new(n, scene::SIDE as u32, scene::SIDE as u32)?;
    let (sheet, written) = empty.compose(&mut samples, &lent, &aim, &mut records)?;
    let mut file = vec![0; 80 + 4 * table.len() + 32 * written];
    let length = write(&sheet, list, count, &table, &records, &mut file)?;
    file.truncate(length);
    Ok(Composed { file, samples, records: written })
}

/// Samples of the scene's size, as `show` would print them.
fn scene_shown(samples: &[u8]) -> String {
    shown(scene::SIDE, scene::SIDE, samples)
}

/// Writes the files, and prints of each composed sheet its records, its bytes and its difference to the scene.
fn main() -> std::io::Result<()> {
    let folder = std::env::args().nth(1).expect("a folder has to be named: samples FOLDER");
    let save = |name: &str, bytes: &[u8]| std::fs::write(Path::new(&folder).join(name), bytes);
    let original = scene::original();
    save("first.txt", FIRST.as_bytes())?;
    save("first.shown.txt", FIRST_SHOWN.as_bytes())?;
    save("scene.original.txt", scene_shown(&original).as_bytes())?;
    for n in [16, 8, 4] {
        let Composed { file, samples, records } = composed(n).expect("the scene is sound");
        save(&format!("scene-{n}.txt"), &file)?;
        save(&format!("scene-{n}.shown.txt"), scene_shown(&samples).as_bytes())?;
        let (bytes, cost) = (file.len(), cost(&samples, &original));
        println!("scene-{n}: {records} records, {bytes} bytes, sum of absolute differences {cost}");
    }
    Ok(())
}
