//! An independent implementation of document 01 with the changes that landed (blocks of 16; the outline's threshold from the corners;
//! the offset trial that ends sooner; offsets that a table can't use), in its order and words, by the plainest method.
//! A function that returns a `Result` is a public call: its error is the refusal number of documents 01 and 02,
//! and a refused call leaves every lent buffer as it was.

pub mod block;
pub mod choice;
pub mod edges;
pub mod file;
pub mod levels;
pub mod outline;
pub mod predict;
pub mod random;
pub mod sheet;
pub mod sides;
pub mod table;

/// Refusal 1: n is none of 4, 8 and 16.
pub const SIZE: u32 = 1;
/// Refusal 2: a slice of a wrong length.
pub const LENGTH: u32 = 2;
/// Refusal 3: the table is not 1 to 256 rising values.
pub const TABLE: u32 = 3;
/// Refusal 4: an offset outside −255 .. 255, or a reach above 255.
pub const OFFSET: u32 = 4;
/// Refusal 5: n = 4 and a word used has a bit from 16 up.
pub const WORD: u32 = 5;
/// Refusal 6: kind 0 and entry not below the count.
pub const ENTRY: u32 = 6;
/// Refusal 7: kind not 0 or 1, or kind 1 with entry other than 0.
pub const KIND: u32 = 7;
/// Refusal 8: width or height not allowed.
pub const MEASURES: u32 = 8;
/// Refusal 9: file text of another form.
pub const FORM: u32 = 9;
/// Refusal 10: a choice with count 0 and no texture.
pub const EMPTY_CHOICE: u32 = 10;
/// Refusal 20: in placing or composing, all blocks are already placed.
pub const ALL_PLACED: u32 = 20;
/// Refusal 21: in placing or reading, kind 1 and no texture.
pub const NO_TEXTURE: u32 = 21;
/// Refusal 22: the sheet is to be written out and blocks are missing.
pub const MISSING: u32 = 22;
/// Refusal 23: a state with more blocks placed than the sheet has.
pub const PLACED: u32 = 23;
/// Refusal 24: an offset whose absolute value is not below the table count.
pub const OFFSET_UNUSABLE: u32 = 24;
