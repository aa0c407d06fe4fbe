//! Slices as they are lent to the library, between guard items.

use reference::choice::Record;
use std::sync::atomic::{AtomicUsize, Ordering};

/// The number of guard items on each side of a lent slice.
static MARGIN: AtomicUsize = AtomicUsize::new(16);

/// From here on slices are lent without guards, so that valgrind sees where a slice ends.
pub fn without_guards() {
    MARGIN.store(0, Ordering::Relaxed);
}

/// A lent slice with guard items on both sides.
pub struct Lent<T> {
    items: Box<[T]>,
    margin: usize,
    guard: T,
}

impl<T: Copy + PartialEq> Lent<T> {
    pub fn new(content: &[T], guard: T) -> Lent<T> {
        let margin = MARGIN.load(Ordering::Relaxed);
        let guards = vec![guard; margin];
        Lent { items: [&guards, content, &guards].concat().into_boxed_slice(), margin, guard }
    }

    pub fn len(&self) -> usize {
        self.items.len() - 2 * self.margin
    }

    pub fn is_empty(&self) -> bool {
        self.len() == 0
    }

    pub fn content(&self) -> &[T] {
        &self.items[self.margin..self.margin + self.len()]
    }

    pub fn start(&mut self) -> *mut T {
        self.items[self.margin..].as_mut_ptr()
    }

    /// Whether the slice has exactly this content, and the guard items on both sides are as they were.
    pub fn holds(&self, content: &[T]) -> bool {
        let (before, after) = (&self.items[..self.margin], &self.items[self.margin + self.len()..]);
        self.content() == content && before.iter().chain(after).all(|item| *item == self.guard)
    }
}

/// Records as the library takes them: kind, entry, off0 and off1 of each. A kind or an entry from 2^31 on is negative there, and is refused
/// as it is by the independent implementation.
#[derive(Clone)]
pub struct Fields {
    pub rows: Vec<[i32; 4]>,
}

impl Fields {
    pub fn of(records: &[Record]) -> Fields {
        let row = |r: &Record| [r.kind as i32, r.entry as i32, r.off0, r.off1];
        Fields { rows: records.iter().map(row).collect() }
    }

    /// Numbers that no file holds, all of them different, in so many records.
    pub fn unread(length: usize) -> Fields {
        let row = |i| [1000000 + i, 2000000 + i, 3000000 + i, -4000000 - i];
        Fields { rows: (0..length as i32).map(row).collect() }
    }

    pub fn records(&self) -> Vec<Record> {
        let record = |&[kind, entry, off0, off1]: &[i32; 4]| Record {
            kind: kind as u32,
            entry: entry as u32,
            off0,
            off1,
        };
        self.rows.iter().map(record).collect()
    }

    /// The slice with these records in its first places.
    pub fn with(&self, records: &[Record]) -> Fields {
        let mut fields = self.clone();
        fields.rows[..records.len()].copy_from_slice(&Fields::of(records).rows);
        fields
    }

    /// The slice lent to the library, between guards.
    pub fn lent(&self) -> Lent<[i32; 4]> {
        Lent::new(&self.rows, [0x25A5A5A5, 0x5A5A5A5A, -0x5A5A5A5A, -0x25A5A5A5])
    }
}
