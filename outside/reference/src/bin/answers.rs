//! Reads cases from standard input, one a line, and prints the independent implementation's answer to each; `outside/README.md`
//! has the form of both. A line of another form ends it with the line `bad case`.

use reference::block::{mark, Pattern};
use reference::choice::{choose, Record, Request};
use reference::edges::{edge_words, wedgelets};
use reference::outline::contour;
use reference::predict::predict;
use reference::random::Random;
use reference::sheet::{Aim, Lent, Sheet};
use reference::sides::side_depths;
use reference::table::index_of;
use std::io::Read;

/// The fields of a case that are still to be read; `None` comes of a line of another form.
struct Fields<'a>(std::str::Split<'a, char>);

impl<'a> Fields<'a> {
    /// The next field's text.
    fn text(&mut self) -> Option<&'a str> {
        self.0.next()
    }

    /// A bar with its letter, which comes before each slice.
    fn bar(&mut self, letter: &str) -> Option<()> {
        (self.text()?.strip_prefix('|')? == letter).then_some(())
    }

    /// A decimal number.
    fn number(&mut self) -> Option<i64> {
        self.text()?.parse().ok()
    }

    /// A number of another type.
    fn size<T: TryFrom<i64>>(&mut self) -> Option<T> {
        T::try_from(self.number()?).ok()
    }

    /// A word: an x and hexadecimal digits.
    fn word(&mut self) -> Option<u64> {
        u64::from_str_radix(self.text()?.strip_prefix('x')?, 16).ok()
    }

    /// The four words of a pattern.
    fn pattern(&mut self) -> Option<Pattern> {
        Some([self.word()?, self.word()?, self.word()?, self.word()?])
    }

    /// A slice of samples: its length and its rule. Rule 0: the samples; 1: pseudo-random from a seed; 2: a start and the width of
    /// the step made before each sample.
    fn bytes(&mut self, letter: &str) -> Option<Vec<u8>> {
        self.bar(letter)?;
        let length: usize = self.size()?;
        match self.number()? {
            0 => (0..length).map(|_| self.size()).collect(),
            1 => Some(Random(self.size()?).bytes(length)),
            2 => {
                let (start, step): (usize, usize) = (self.size()?, self.size()?);
                Some((1..=length).map(|i| ((start + i * step) % 256) as u8).collect())
            }
            _ => None,
        }
    }

    /// A list: the size for which it is built (0: none), the words lent, and words put in from the start.
    fn list(&mut self) -> Option<Vec<u64>> {
        self.bar("l")?;
        let (n, length, given): (usize, usize, usize) = (self.size()?, self.size()?, self.size()?);
        let mut list = if n == 0 { Vec::new() } else { edge_words(n).to_vec() };
        list.resize(length, 0);
        for word in list.iter_mut().take(given) {
            *word = self.word()?;
        }
        Some(list)
    }

    /// The number of records, and their fields.
    fn records(&mut self) -> Option<Vec<Record>> {
        self.bar("r")?;
        let count = self.size()?;
        let mut next = || {
            Some(Record { kind: self.size()?, entry: self.size()?, off0: self.size()?, off1: self.size()? })
        };
        (0..count).map(|_: usize| next()).collect()
    }
}

/// The lent records before composing.
const RECORD_BEFORE: Record = Record { kind: 9, entry: 8, off0: 7, off1: -6 };

/// The numbers, a space before each.
fn joined<T: ToString>(numbers: impl IntoIterator<Item = T>) -> String {
    numbers.into_iter().map(|number| format!(" {}", number.to_string())).collect()
}

/// Words, a space and an x before each.
fn hexadecimal(words: &[u64]) -> String {
    words.iter().map(|word| format!(" x{word:x}")).collect()
}

/// The answer's text, or its refusal.
fn told<T>(answer: Result<T, u32>, text: impl FnOnce(T) -> String) -> String {
    match answer {
        Ok(value) => text(value),
        Err(number) => format!(" refused {number}"),
    }
}

/// The field of a checksum.
fn checksum(numbers: impl Iterator<Item = u64>) -> String {
    format!(" checksum {}", numbers.fold(0, |c, number| (c * 31 + number) % 1000000007))
}

/// The samples, where they are shown, and their checksum.
fn samples(samples: &[u8], shown: bool) -> String {
    let all = if shown { joined(samples) } else { String::new() };
    all + &checksum(samples.iter().map(|&sample| sample as u64))
}

/// The fields of a record.
fn numbers_of(record: &Record) -> [i64; 4] {
    [record.kind as i64, record.entry as i64, record.off0 as i64, record.off1 as i64]
}

/// The numbers of a state.
fn state(sheet: &Sheet) -> String {
    joined([sheet.n, sheet.width, sheet.height, sheet.placed])
}

fn index(f: &mut Fields) -> Option<String> {
    let (depth, table) = (f.size()?, f.bytes("t")?);
    Some(told(index_of(&table, depth), |index| joined([index])))
}

fn marks(f: &mut Fields) -> Option<String> {
    let (k, pattern): (usize, Pattern) = (f.size()?, f.pattern()?);
    let marked = k < 256 && mark(16, &pattern, k % 16, k / 16);
    Some(joined([reference::block::marks(16, &pattern), marked as u32]))
}

fn contour_case(f: &mut Fields) -> Option<String> {
    let n = f.size()?;
    Some(told(contour(n, &f.bytes("x")?), |pattern| hexadecimal(&pattern)))
}

fn wedgelets_case(f: &mut Fields) -> Option<String> {
    let (n, first, end): (usize, usize, usize) = (f.size()?, f.size()?, f.size()?);
    let mut list = f.list()?;
    let count = told(wedgelets(n, &mut list), |count| joined([count]));
    let halves = list.iter().flat_map(|word| [word % (1 << 32), word >> 32]);
    Some(count + &hexadecimal(&list[first..end]) + &checksum(halves))
}

fn sides(f: &mut Fields) -> Option<String> {
    let (n, pattern, border) = (f.size()?, f.pattern()?, f.bytes("n")?);
    Some(told(side_depths(n, &pattern, &border), |(lt, br)| joined([lt, br])))
}

fn predict_case(f: &mut Fields) -> Option<String> {
    let (n, pattern, off0, off1) = (f.size()?, f.pattern()?, f.size()?, f.size()?);
    let (border, table, mut block) = (f.bytes("n")?, f.bytes("t")?, f.bytes("s")?);
    let answer = predict(n, &pattern, &border, &table, off0, off1, &mut block);
    Some(told(answer, |marks| joined([marks])) + &samples(&block, true))
}

fn choose_case(f: &mut Fields) -> Option<String> {
    let (n, count, reach) = (f.size()?, f.size()?, f.size()?);
    let list = f.list()?;
    let (border, original, table, texture) = (f.bytes("n")?, f.bytes("o")?, f.bytes("t")?, f.bytes("x")?);
    let request = Request {
        n,
        list: &list,
        count,
        border: &border,
        original: &original,
        table: &table,
        reach,
        texture: &texture,
    };
    Some(told(choose(&request), |choice| {
        joined(numbers_of(&choice.record)) + &joined([choice.cost, choice.tried])
    }))
}

fn new(f: &mut Fields) -> Option<String> {
    Some(told(Sheet::new(f.size()?, f.size()?, f.size()?), |sheet| state(&sheet)))
}

/// Records placed in turn, and the sheet composed after that where it is asked for.
fn sheet(f: &mut Fields, composes: bool) -> Option<String> {
    let mut sheet = Sheet { n: f.size()?, width: f.size()?, height: f.size()?, placed: f.size()? };
    let (count, shown) = (f.size()?, f.number()? == 1);
    let (reach, records) = if composes { (f.size()?, f.size()?) } else { (0, 0) };
    let list = f.list()?;
    let (mut lent_samples, table, texture) = (f.bytes("s")?, f.bytes("t")?, f.bytes("x")?);
    let original = if composes { f.bytes("o")? } else { Vec::new() };
    let lent = Lent { list: &list, count, table: &table, texture: &texture };
    let mut text = String::new();
    for record in f.records()? {
        match sheet.place(&mut lent_samples, &lent, &record) {
            Ok(next) => sheet = next,
            Err(number) => text += &format!(" refused {number}"),
        }
    }
    if composes {
        let mut records = vec![RECORD_BEFORE; records];
        let answer =
            sheet.compose(&mut lent_samples, &lent, &Aim { original: &original, reach }, &mut records);
        let written = answer.map_or(0, |(_, written)| written);
        text += &told(answer, |(sheet, written)| state(&sheet) + &joined([written]));
        text += &joined(records[..if shown { written } else { 0 }].iter().flat_map(numbers_of));
        let fields = records.iter().flat_map(numbers_of);
        text += &checksum(fields.flat_map(|field| [(field < 0) as u64, field.unsigned_abs()]));
    } else {
        text += &state(&sheet);
    }
    Some(text + &samples(&lent_samples, shown))
}

/// The answer to a case, which is a call's word and its fields.
fn answer(line: &str) -> Option<String> {
    let (word, rest) = line.split_once(' ')?;
    let mut f = Fields(rest.split(' '));
    let fields = match word {
        "index" => index(&mut f),
        "marks" => marks(&mut f),
        "contour" => contour_case(&mut f),
        "wedgelets" => wedgelets_case(&mut f),
        "sides" => sides(&mut f),
        "predict" => predict_case(&mut f),
        "choose" => choose_case(&mut f),
        "new" => new(&mut f),
        "place" => sheet(&mut f, false),
        "compose" => sheet(&mut f, true),
        _ => None,
    }?;
    f.text().is_none().then(|| word.to_string() + &fields)
}

fn main() {
    let mut text = String::new();
    std::io::stdin().read_to_string(&mut text).unwrap();
    for line in text.lines() {
        match answer(line) {
            Some(answer) => println!("{answer}"),
            None => {
                println!("bad case");
                std::process::exit(1);
            }
        }
    }
}
