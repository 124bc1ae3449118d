//! Compares the messages of random honest runs with those of another program,
//! each run from its draw and from the books of the draw in its place.
//!
//! Arguments: path of the other program, number of runs (default 320). The
//! other program reads and writes the form of the example `transcript`.

use std::env;
use std::error::Error;
use std::io::Write;
use std::process::{Command, ExitCode, Stdio};

use peer::random::{RandomRun, SplitMix64};
use peer::transcript::transcript;

fn main() -> Result<ExitCode, Box<dyn Error>> {
    let mut arguments = env::args().skip(1);
    let program = arguments.next().ok_or("usage: compare PROGRAM [RUNS]")?;
    let runs: u32 = arguments.next().map_or(Ok(320), |text| text.parse())?;

    let mut generator = SplitMix64::new(204);
    let mut differences = 0;
    for number in 0..runs {
        let run = RandomRun::new(
            &mut generator,
            number % 2,
            number / 2 % 2,
            number / 4 % 8 + 1,
        );
        for numbers in [run.numbers(), run.numbers_with_books()] {
            let own = transcript(&numbers)
                .map_err(|refusal| format!("run {number}: refused with {}", refusal.number()))?;
            let words: Vec<String> = numbers.iter().map(u32::to_string).collect();
            let other = ask_program(&program, &words.join(" "))?;
            if own.as_bytes() != other {
                differences += 1;
                eprintln!(
                    "run {number} differs: {:?}, keys {:?}",
                    &numbers[..5],
                    run.keys
                );
                eprintln!("own:\n{own}other:\n{}", String::from_utf8_lossy(&other));
            }
        }
    }
    println!("{runs} runs compared, from the draw and from books; {differences} differ");
    Ok(if differences == 0 {
        ExitCode::SUCCESS
    } else {
        ExitCode::FAILURE
    })
}

fn ask_program(program: &str, input: &str) -> Result<Vec<u8>, Box<dyn Error>> {
    let mut child = Command::new(program)
        .stdin(Stdio::piped())
        .stdout(Stdio::piped())
        .spawn()?;
    // The program reads its whole input before it writes.
    child
        .stdin
        .take()
        .expect("stdin is piped")
        .write_all(input.as_bytes())?;
    Ok(child.wait_with_output()?.stdout)
}
