//! Slices of samples and lists as fields of a case.

use reference::block::Pattern;
use reference::random::Random;
use reference::table;

/// The sizes, in the order in which each section has them.
pub const SIZES: [usize; 3] = [4, 8, 16];

/// A list built is lent in a slice of so many words.
pub const LIST_WORDS: usize = 14160;

/// A slice of samples, and the seed of pseudo-random ones.
#[derive(Clone)]
pub struct Slice {
    pub samples: Vec<u8>,
    seed: Option<u64>,
}

/// The samples given.
pub fn given(samples: &[u8]) -> Slice {
    Slice { samples: samples.to_vec(), seed: None }
}

/// Pseudo-random samples.
pub fn random(seed: usize, length: usize) -> Slice {
    Slice { samples: Random(seed as u64).bytes(length), seed: Some(seed as u64) }
}

/// The table of all values.
pub fn full_table() -> Slice {
    given(&(0..=255).collect::<Vec<u8>>())
}

/// A table of so many values spread over 0 to 255.
pub fn spread_table(count: usize) -> Slice {
    given(&table::spread_table(count))
}

/// Offset pairs about what a table of so many values can use: count - 1, count, 255 and 256 of both signs, each in either place
/// beside 0.
pub fn pairs_about(count: usize) -> Vec<(i32, i32)> {
    let mut pairs = Vec::new();
    for size in [count as i32 - 1, count as i32, 255, 256] {
        for pair in [(-size, 0), (size, 0), (0, -size), (0, size)] {
            if !pairs.contains(&pair) {
                pairs.push(pair);
            }
        }
    }
    pairs
}

/// The counts of the tables with which offsets about the count are tried.
pub const COUNTS: [usize; 4] = [1, 2, 3, 256];

/// The width of the steps, modulo 256, where all samples are one step apart and there are at least three.
fn step_of(samples: &[u8]) -> Option<u8> {
    let step = samples.get(1)?.wrapping_sub(samples[0]);
    let even = samples.windows(2).all(|pair| pair[1].wrapping_sub(pair[0]) == step);
    (even && samples.len() > 2).then_some(step)
}

impl std::fmt::Display for Slice {
    /// The length, and the rule with what it takes: a seed, start and step, or the samples.
    fn fmt(&self, f: &mut std::fmt::Formatter) -> std::fmt::Result {
        write!(f, "{} ", self.samples.len())?;
        if let Some(seed) = self.seed {
            return write!(f, "1 {seed}");
        }
        if let Some(step) = step_of(&self.samples) {
            return write!(f, "2 {} {step}", self.samples[0].wrapping_sub(step));
        }
        let samples: String = self.samples.iter().map(|sample| format!(" {sample}")).collect();
        write!(f, "0{samples}")
    }
}

/// Words as fields.
pub fn words(words: &[u64]) -> String {
    let all: Vec<String> = words.iter().map(|word| format!("x{word:x}")).collect();
    all.join(" ")
}

/// The words of a pattern as fields.
pub fn pattern(pattern: &Pattern) -> String {
    words(pattern)
}

/// The list as built for n, as fields.
pub fn built(n: usize) -> String {
    built_in(n, LIST_WORDS)
}

/// The first words of the list as built for n, as fields.
pub fn built_in(n: usize, length: usize) -> String {
    format!("{n} {length} 0")
}

/// A list of so many words, of which the first are given, as fields.
pub fn listed(length: usize, first: &[u64]) -> String {
    format!("0 {length} {} {}", first.len(), words(first))
}
