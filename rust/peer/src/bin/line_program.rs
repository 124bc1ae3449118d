//! Reads lines from standard input and answers them on standard output. With `--early` question 6 of a slice ends at its first no.

use std::env;
use std::io::{self, BufReader, BufWriter};
use std::process::ExitCode;
use std::sync::atomic::Ordering;

use peer::field::EARLY_END;

fn main() -> ExitCode {
    EARLY_END.store(env::args().any(|word| word == "--early"), Ordering::Relaxed);
    let input = BufReader::with_capacity(1 << 16, io::stdin().lock());
    let output = BufWriter::with_capacity(1 << 16, io::stdout().lock());
    match peer::line_program::run(input, output) {
        Ok(()) => ExitCode::SUCCESS,
        Err(error) => {
            eprintln!("{error}");
            ExitCode::FAILURE
        }
    }
}
