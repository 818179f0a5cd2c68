//! Prints random replay texts, or with --stats how often they reach each answer.

use second::lists::{self, stats};
use std::io::{self, Write};
use std::process::ExitCode;

fn main() -> ExitCode {
    let arguments: Vec<String> = std::env::args().skip(1).collect();
    let (show_stats, numbers) = match arguments.split_first() {
        Some((flag, rest)) if flag == "--stats" => (true, rest),
        _ => (false, &arguments[..]),
    };
    let numbers: Option<Vec<u64>> = numbers.iter().map(|text| text.parse().ok()).collect();
    let Some([seed, count]) = numbers.as_deref() else {
        eprintln!("usage: lists [--stats] SEED COUNT");
        return ExitCode::from(2);
    };
    let printed = if show_stats {
        print_stats(*seed, *count)
    } else {
        print_lists(*seed, *count)
    };
    match printed {
        Ok(()) => ExitCode::SUCCESS,
        Err(_) => ExitCode::FAILURE,
    }
}

fn print_lists(seed: u64, count: u64) -> io::Result<()> {
    let mut output = io::BufWriter::new(io::stdout().lock());
    for number in 0..count {
        output.write_all(lists::list(seed, number).as_bytes())?;
    }
    output.flush()
}

fn print_stats(seed: u64, count: u64) -> io::Result<()> {
    let mut output = io::stdout().lock();
    for ((word, number, kind), times) in stats::count(seed, count) {
        writeln!(output, "{word:5} {number:2} {times:8}  {kind}")?;
    }
    Ok(())
}
