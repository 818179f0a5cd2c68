//! Carries out a replay text on the proved library.

use proved::ProvedEngine;
use std::io;

fn main() -> io::Result<()> {
    let input = io::stdin();
    let output = io::stdout();
    second::replay::run(&mut ProvedEngine, &mut input.lock(), &mut io::BufWriter::new(output.lock()))
}
