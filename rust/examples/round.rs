//! Prints the high and low part of coefficients, given as two arguments or on standard input.

use std::env;
use std::io::{self, BufRead, Write};
use std::process::ExitCode;

use paired_rounding::{parts, Parts};

const USAGE: &str = "\
usage: round SET W      round one coefficient
       round            round every line `SET W` of standard input

SET is 0 or 1, W a coefficient from 0 to 8380416, both in decimal.
Prints `HIGH LOW` for each coefficient, or why it was refused.
Exit code: 0 if all were rounded, 1 if any was refused or malformed or input or output
failed, 2 for wrong arguments.
";

/// Digits only: no sign.
fn number(word: &str) -> Option<u32> {
    if word.bytes().all(|byte| byte.is_ascii_digit()) {
        word.parse().ok()
    } else {
        None
    }
}

/// The answer to the words of one line: `HIGH LOW`, or why there is none.
fn answer(words: &[&str]) -> Result<String, String> {
    let numbers: Vec<Option<u32>> = words.iter().map(|word| number(word)).collect();
    let [Some(set), Some(w)] = numbers[..] else {
        return Err("malformed: not two decimal numbers SET W below 2^32".into());
    };
    let Parts { high, low } = parts(set, w).map_err(|refusal| refusal.to_string())?;
    Ok(format!("{high} {low}"))
}

/// Writes the answer. Was it a good one?
fn write_answer(output: &mut impl Write, words: &[&str]) -> io::Result<bool> {
    let said = answer(words);
    let good = said.is_ok();
    writeln!(output, "{}", said.unwrap_or_else(|why| why))?;
    Ok(good)
}

/// Answers line by line. Was every answer a good one?
fn answer_lines(input: impl BufRead, mut output: impl Write) -> io::Result<bool> {
    let mut all = true;
    for line in input.split(b'\n') {
        // Bytes that are no text become marks that no number has.
        let line = line?;
        let line = String::from_utf8_lossy(&line);
        let words: Vec<&str> = line.split_ascii_whitespace().collect();
        all &= write_answer(&mut output, &words)?;
    }
    output.flush()?;
    Ok(all)
}

fn main() -> ExitCode {
    let arguments: Vec<String> = env::args_os()
        .skip(1)
        .map(|word| word.to_string_lossy().into_owned())
        .collect();
    let words: Vec<&str> = arguments.iter().map(String::as_str).collect();
    let done = match words[..] {
        ["-h" | "--help"] => {
            print!("{USAGE}");
            return ExitCode::SUCCESS;
        }
        [] => answer_lines(io::stdin().lock(), io::BufWriter::new(io::stdout().lock())),
        [_, _] => write_answer(&mut io::stdout(), &words),
        _ => {
            eprint!("{USAGE}");
            return ExitCode::from(2);
        }
    };
    match done {
        Ok(true) => ExitCode::SUCCESS,
        Ok(false) => ExitCode::FAILURE,
        Err(error) => {
            eprintln!("round: {error}");
            ExitCode::FAILURE
        }
    }
}
