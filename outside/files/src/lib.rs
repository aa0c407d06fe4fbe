//! Compares the record file's calls in `libfile_calls.a`, and the program `show`, with the independent implementation, on files
//! that are made from a seed.

pub mod aids;
pub mod cases;
pub mod damage;
pub mod faults;
pub mod fields;
pub mod fixed;
pub mod lent;
pub mod library;
pub mod offsets;
pub mod random;
pub mod reading;
pub mod shown;
pub mod tally;
pub mod writing;
