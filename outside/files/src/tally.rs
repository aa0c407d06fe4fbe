//! How often each refusal came up, and whether each that a file or a source can give did.

use std::collections::BTreeMap;

/// The kinds of line that a file has.
pub const PLACES: [&str; 8] = ["line 0", "title 1", "sizes", "depth", "value", "title", "record", "past end"];

/// Each refusal of reading that documents 01 and 02 know, with the kind of line that it can stand at.
const OF_READING: [(u32, usize); 19] = [
    (2, 0),
    (9, 1),
    (9, 2),
    (1, 2),
    (8, 2),
    (2, 2),
    (3, 2),
    (9, 3),
    (9, 4),
    (3, 4),
    (9, 5),
    (9, 6),
    (7, 6),
    (21, 6),
    (6, 6),
    (5, 6),
    (4, 6),
    (24, 6),
    (9, 7),
];

/// The answers of writing: 0 where a file is written, else the refusal.
const OF_WRITING: [u32; 12] = [0, 1, 2, 8, 23, 22, 3, 7, 6, 5, 4, 24];

/// What kind of line stands at this number, by the sizes in the file's second line.
pub fn place_of(file: &[u8], line: u32) -> usize {
    if line < 4 {
        return line as usize;
    }
    let second = file.split(|&byte| byte == 10).nth(1).unwrap_or_default();
    let sizes = String::from_utf8_lossy(second);
    let sizes: Vec<u32> = sizes.split(' ').filter_map(|field| field.parse().ok()).collect();
    let (blocks, values) = (sizes[1] / sizes[0] * (sizes[2] / sizes[0]), sizes[3]);
    match line {
        line if line < 4 + values => 4,
        line if line == 4 + values => 5,
        line if line < 5 + values + blocks => 6,
        _ => 7,
    }
}

/// How often something was done, and how often it was refused then.
#[derive(Default)]
pub struct Count {
    made: u64,
    refused: u64,
}

#[derive(Default)]
pub struct Tally {
    reads: BTreeMap<(u32, usize), u64>,
    writes: BTreeMap<u32, u64>,
    pub damages: BTreeMap<&'static str, Count>,
    pub faults: BTreeMap<&'static str, Count>,
    pub files: u64,
    pub sound: u64,
    /// The files accepted of each size, and the refusals at line 0 that only a list of another size earned.
    pub sizes: BTreeMap<u32, u64>,
    pub unused: u64,
    pub shown: u64,
    pub pictures: u64,
}

impl Tally {
    /// Counts a file's answer, with the n in it; what was done to the file has these names.
    pub fn read(&mut self, file: &[u8], n: u32, refusal: u32, line: u32, done: &[&'static str]) {
        self.files += 1;
        if refusal == 0 {
            self.sound += 1;
            *self.sizes.entry(n).or_default() += 1;
        } else {
            *self.reads.entry((refusal, place_of(file, line))).or_default() += 1;
        }
        Tally::note(&mut self.damages, refusal, done);
    }

    pub fn wrote(&mut self, refusal: u32, done: &[&'static str]) {
        *self.writes.entry(refusal).or_default() += 1;
        Tally::note(&mut self.faults, refusal, done);
    }

    fn note(counts: &mut BTreeMap<&'static str, Count>, refusal: u32, done: &[&'static str]) {
        for name in done {
            let count = counts.entry(name).or_default();
            count.made += 1;
            count.refused += (refusal != 0) as u64;
        }
    }

    fn print_counts(title: &str, counts: &BTreeMap<&'static str, Count>) {
        println!("{title}, made and refused, alone or with another:");
        let cells =
            counts.iter().map(|(name, count)| format!("  {name:<27}{:>5}{:>5}", count.made, count.refused));
        for row in cells.collect::<Vec<String>>().chunks(3) {
            println!("{}", row.concat());
        }
    }

    /// The counts as tables.
    pub fn print(&self) {
        println!(
            "{} files, {} of them accepted; refusals in reading, by number and kind of line:",
            self.files, self.sound
        );
        println!("  number{}", PLACES.map(|place| format!("{place:>9}")).concat());
        for number in [9, 1, 8, 2, 3, 7, 21, 6, 5, 4, 24] {
            let cell = |place| match self.reads.get(&(number, place)) {
                Some(count) => format!("{count:>9}"),
                None => format!("{:>9}", "."),
            };
            println!("  {number:>6}{}", (0..8).map(cell).collect::<String>());
        }
        let writes: Vec<String> =
            OF_WRITING.iter().map(|n| format!("{n}: {}", self.writes.get(n).unwrap_or(&0))).collect();
        println!("writing, by number (0: written): {}", writes.join(", "));
        Tally::print_counts("damage to files", &self.damages);
        Tally::print_counts("faults in writing", &self.faults);
        let sizes: Vec<String> = self.sizes.iter().map(|(n, files)| format!("n = {n}: {files}")).collect();
        println!(
            "files accepted by size: {}; refused at line 0 for a list of another size alone: {}",
            sizes.join(", "),
            self.unused
        );
        println!("show ran on {} files, {} of them pictures", self.shown, self.pictures);
    }

    /// What is missing or must not be, in words.
    pub fn missing(&self, damages: usize, faults: usize, least_files: u64, least_shown: u64) -> Vec<String> {
        let mut found = Vec::new();
        for (number, place) in OF_READING {
            if !self.reads.contains_key(&(number, place)) {
                found.push(format!("refusal {number} at {} never came up", PLACES[place]));
            }
        }
        for (number, place) in self.reads.keys().filter(|key| !OF_READING.contains(key)) {
            found.push(format!("refusal {number} at {}: there is none", PLACES[*place]));
        }
        for number in OF_WRITING {
            if !self.writes.contains_key(&number) {
                found.push(format!("in writing {number} never came up"));
            }
        }
        for number in self.writes.keys().filter(|number| !OF_WRITING.contains(number)) {
            found.push(format!("in writing {number} came up: there is none"));
        }
        let of_size = |n: u32| self.sizes.get(&n).copied().unwrap_or(0);
        let enough = [
            ("files of 4 accepted", of_size(4), least_files / 40),
            ("files of 8 accepted", of_size(8), least_files / 40),
            ("files of 16 accepted", of_size(16), least_files / 40),
            ("refusals for a list of another size", self.unused, least_files / 100),
            ("kinds of damage", self.damages.len() as u64, damages as u64),
            ("kinds of fault", self.faults.len() as u64, faults as u64),
            ("files", self.files, least_files),
            ("files accepted", self.sound, least_files / 10),
            ("files shown", self.shown, least_shown),
            ("pictures shown", self.pictures, least_shown / 10),
        ];
        for (what, made, least) in enough {
            if made < least {
                found.push(format!("{made} {what}, and not {least}"));
            }
        }
        found
    }
}
