//! The replay program over the second engine: commands in, answers out.

use second::replay::{self, SecondEngine};
use std::io;
use std::process::ExitCode;

fn main() -> ExitCode {
    let (mut input, mut output) = (io::stdin().lock(), io::stdout().lock());
    match replay::run(&mut SecondEngine, &mut input, &mut output) {
        Ok(()) => ExitCode::SUCCESS,
        Err(_) => ExitCode::FAILURE,
    }
}
