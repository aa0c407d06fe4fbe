//! Prints the cases that `crates/vectors` and the program `answers` read, one a line; `outside/README.md` has their form.

mod blocks;
mod choices;
mod levels;
mod patterns;
mod sheets;
mod slices;

fn main() {
    patterns::print();
    blocks::print();
    choices::print();
    levels::print();
    sheets::print();
}
