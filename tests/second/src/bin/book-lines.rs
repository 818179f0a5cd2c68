//! Prints random request lines on the program's book: book-lines SEED COUNT.

use second::lists::{book_lines, random::Random};
use std::io::{self, Write};
use std::process::ExitCode;

fn main() -> ExitCode {
    let numbers: Option<Vec<u64>> = std::env::args().skip(1).map(|a| a.parse().ok()).collect();
    let Some([seed, count]) = numbers.as_deref() else {
        eprintln!("usage: book-lines SEED COUNT");
        return ExitCode::from(2);
    };
    let random = &mut Random::new(*seed);
    let mut output = io::BufWriter::new(io::stdout().lock());
    for _ in 0..*count {
        if output.write_all(&book_lines::line(random)).is_err() {
            return ExitCode::FAILURE;
        }
    }
    ExitCode::SUCCESS
}
