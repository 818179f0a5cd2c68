//! Document 01's program `book` over the second engine: lines in, answers out.

use std::io;
use std::process::ExitCode;

fn main() -> ExitCode {
    match second::book_program::run(&mut io::stdin().lock(), &mut io::stdout().lock()) {
        Ok(()) => ExitCode::SUCCESS,
        Err(_) => ExitCode::FAILURE,
    }
}
