//! Writes the list that the program `replay` reads.

use std::io::Write;

fn main() {
    std::io::stdout().write_all(&compare::stored::list()).expect("standard output");
}
