//! Writing by the library beside writing by the independent implementation, and the two round trips.

use crate::lent::{Fields, Lent};
use crate::library::{self, FileWritten};
use crate::reading::{self, Aids, Back, List};
use reference::file;
use reference::sheet::Sheet;

/// What a file is written from, and the number of lent bytes.
pub struct Source {
    pub sheet: Sheet,
    pub list: List,
    pub table: Vec<u8>,
    pub fields: Fields,
    pub space: usize,
}

/// "Needs 80 + 4·values + 32·records bytes."
pub fn space_for(sheet: &Sheet, values: usize) -> usize {
    80 + 4 * values + 32 * sheet.blocks() as usize
}

/// Writes with both, and compares the answers and every lent slice with its guards. Answers the refusal and the file.
pub fn compare(source: &Source) -> Result<(u32, Vec<u8>), String> {
    let old: Vec<u8> = (0..source.space).map(|i| (i * 37 + 11) as u8).collect();
    let mut out = old.clone();
    let records = source.fields.records();
    let List { words, count } = &source.list;
    let answer = file::write(&source.sheet, words, *count, &source.table, &records, &mut out);
    let want = match answer {
        Ok(length) => FileWritten { refusal: 0, length },
        Err(refusal) => FileWritten { refusal, length: 0 },
    };
    if want.refusal != 0 && out != old {
        return Err("writing: the independent implementation altered something on a refusal".into());
    }

    let mut lent_list = Lent::new(words, 0xA5A5A5A5A5A5A5A5);
    let mut lent_table = Lent::new(&source.table, 0xA5);
    let mut lent_fields = source.fields.lent();
    let mut lent_out = Lent::new(&old, 0x5A);
    let got = library::write(
        &source.sheet,
        &mut lent_list,
        *count,
        &mut lent_table,
        &mut lent_fields,
        &mut lent_out,
    );

    if got != want {
        let lists = (words.len(), count);
        return Err(format!(
            "writing: another answer\n  words and count {lists:?}\n  got      {got:?}\n  expected {want:?}"
        ));
    }
    if !lent_list.holds(words) || !lent_table.holds(&source.table) || !lent_fields.holds(&source.fields.rows)
    {
        return Err("writing: an input was altered".into());
    }
    if !lent_out.holds(&out) {
        return Err(format!("writing (refusal {}): other bytes", want.refusal));
    }
    Ok((got.refusal, lent_out.content()[..got.length].to_vec()))
}

/// What the library read is written again by the library, into as many bytes as writing needs, and is the file.
pub fn write_again(bytes: &[u8], aids: &Aids, back: &Back) -> Result<(), String> {
    let (sheet, table) = (back.sheet(), back.table().to_vec());
    let space = space_for(&sheet, table.len());
    let fields = Fields::of(back.placed());
    let source = Source { sheet, list: aids.list(sheet.n).clone(), table, fields, space };
    match compare(&source)? {
        (0, again) if again == bytes => Ok(()),
        (0, _) => Err("what was read is written as another file".into()),
        (refusal, _) => Err(format!("what was read is refused in writing as {refusal}")),
    }
}

/// What the library wrote is read by the library, and gives back the state, the table, the records, and the samples of placing
/// them in turn.
pub fn read_back(written: &[u8], source: &Source, aids: &Aids) -> Result<(), String> {
    let back = reading::compare(written, aids)?;
    if back.answer.refusal != 0 {
        return Err(format!("what was written is refused in reading as {}", back.answer.refusal));
    }
    let records = source.fields.records();
    let records = &records[..source.sheet.blocks() as usize];
    if back.sheet() != source.sheet || back.table() != source.table || back.placed() != records {
        return Err("what was written is read as another sheet".into());
    }
    match reading::placed_in_turn(&source.sheet, aids, &source.table, records) {
        Ok(samples) if back.samples[..samples.len()] == samples => Ok(()),
        Ok(_) => Err("the samples read are not those of placing the records in turn".into()),
        Err(refusal) => Err(format!("placing what was written is refused as {refusal}")),
    }
}
