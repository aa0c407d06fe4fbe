//! Reading by the library beside reading by the independent implementation.

use crate::lent::{Fields, Lent};
use crate::library::{self, FileRead};
use reference::block::words_of;
use reference::choice::Record;
use reference::file::{self, Listed, Refused, SIZES};
use reference::sheet::{self, Sheet};

/// A list as it is lent, in words, and its count of patterns.
#[derive(Clone)]
pub struct List {
    pub words: Vec<u64>,
    pub count: usize,
}

impl List {
    /// A list for n with all its whole patterns counted.
    pub fn whole(n: usize, words: Vec<u64>) -> List {
        let count = words.len() / words_of(n);
        List { words, count }
    }

    /// The patterns below the count that are there.
    pub fn known(&self, n: usize) -> usize {
        self.count.min(self.words.len() / words_of(n))
    }

    fn lent(&self) -> Lent<u64> {
        Lent::new(&self.words, 0xA5A5A5A5A5A5A5A5)
    }
}

/// The place of a size among the lists.
pub fn own(n: u32) -> usize {
    SIZES.iter().position(|&size| size == n as usize).expect("an allowed size")
}

/// What a file is read with: a list for each size, texture (empty for none), and the lengths of the lent samples and of the lent
/// records.
#[derive(Clone)]
pub struct Aids {
    pub lists: [List; 3],
    pub texture: Vec<u8>,
    pub samples: usize,
    pub records: usize,
}

impl Aids {
    /// The list for n.
    pub fn list(&self, n: u32) -> &List {
        &self.lists[own(n)]
    }

    /// The lists as the independent implementation takes them.
    pub fn listed(&self) -> file::Lists<'_> {
        [0, 1, 2].map(|k| Listed { list: &self.lists[k].words, count: self.lists[k].count })
    }

    /// The lists lent to the library.
    pub fn lent_lists(&self) -> [Lent<u64>; 3] {
        [0, 1, 2].map(|k| self.lists[k].lent())
    }

    pub fn counts(&self) -> [usize; 3] {
        [0, 1, 2].map(|k| self.lists[k].count)
    }
}

/// The library's answer and what it left in the lent slices.
pub struct Back {
    pub answer: FileRead,
    pub samples: Vec<u8>,
    pub records: Vec<Record>,
}

impl Back {
    pub fn sheet(&self) -> Sheet {
        let FileRead { n, width, height, placed, .. } = self.answer;
        Sheet { n, width, height, placed }
    }

    pub fn table(&self) -> &[u8] {
        &self.answer.table[..self.answer.values as usize]
    }

    /// The records of the file that was read.
    pub fn placed(&self) -> &[Record] {
        &self.records[..self.answer.placed as usize]
    }
}

/// The answer that the library is to give.
fn expected(answer: &Result<(Sheet, Vec<u8>), Refused>) -> FileRead {
    let none =
        FileRead { refusal: 0, line: 0, n: 0, width: 0, height: 0, placed: 0, values: 0, table: [0; 256] };
    match answer {
        Err(Refused { number, line }) => FileRead { refusal: *number, line: *line, ..none },
        Ok((Sheet { n, width, height, placed }, values)) => {
            let mut table = [0; 256];
            table[..values.len()].copy_from_slice(values);
            let (n, width, height, placed) = (*n, *width, *height, *placed);
            FileRead { refusal: 0, line: 0, n, width, height, placed, values: values.len() as u32, table }
        }
    }
}

/// Reads the file with both, and compares the answers and every lent slice with its guards.
pub fn compare(bytes: &[u8], aids: &Aids) -> Result<Back, String> {
    let old_samples: Vec<u8> = (0..aids.samples).map(|i| (i * 37 + 11) as u8).collect();
    let old_fields = Fields::unread(aids.records);

    let (mut samples, mut records) = (old_samples.clone(), old_fields.records());
    let answer = file::read(bytes, &aids.listed(), &aids.texture, &mut samples, &mut records);
    let (want, fields) = (expected(&answer), old_fields.with(&records));
    if want.refusal != 0 && (samples != old_samples || records != old_fields.records()) {
        return Err("reading: the independent implementation altered something on a refusal".into());
    }

    let mut lent_file = Lent::new(bytes, b'0');
    let mut lent_lists = aids.lent_lists();
    let mut lent_texture = Lent::new(&aids.texture, 0xA5);
    let mut lent_samples = Lent::new(&old_samples, 0x5A);
    let mut lent_fields = old_fields.lent();
    let got = library::read(
        &mut lent_file,
        &mut lent_lists,
        aids.counts(),
        &mut lent_texture,
        &mut lent_samples,
        &mut lent_fields,
    );

    if got != want {
        let lists = aids.lists.each_ref().map(|list| (list.words.len(), list.count));
        return Err(format!(
            "reading: another answer\n  words and counts {lists:?}\n  got      {got:?}\n  expected {want:?}"
        ));
    }
    let lists_hold = (0..3).all(|k| lent_lists[k].holds(&aids.lists[k].words));
    if !lent_file.holds(bytes) || !lists_hold || !lent_texture.holds(&aids.texture) {
        return Err("reading: an input was altered".into());
    }
    if !lent_samples.holds(&samples) {
        return Err(format!("reading (refusal {}): other samples", want.refusal));
    }
    if !lent_fields.holds(&fields.rows) {
        return Err(format!("reading (refusal {}): other records", want.refusal));
    }
    let records = Fields { rows: lent_fields.content().to_vec() }.records();
    Ok(Back { answer: got, samples: lent_samples.content().to_vec(), records })
}

/// "The samples that placing them in turn on an empty sheet gives with the file's table and that texture."
pub fn placed_in_turn(
    finished: &Sheet,
    aids: &Aids,
    table: &[u8],
    records: &[Record],
) -> Result<Vec<u8>, u32> {
    let mut state = Sheet { placed: 0, ..*finished };
    let mut samples = vec![0; state.area() as usize];
    let List { words, count } = aids.list(finished.n);
    let lent = sheet::Lent { list: words, count: *count, table, texture: &aids.texture };
    for record in records {
        state = state.place(&mut samples, &lent, record)?;
    }
    Ok(samples)
}
