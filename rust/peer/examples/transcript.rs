//! Reads a run's numbers from standard input, writes its messages, answers
//! and opening counts. See `peer::transcript` for the order of the numbers.

use std::error::Error;
use std::io::{self, Read};

fn main() -> Result<(), Box<dyn Error>> {
    let mut text = String::new();
    io::stdin().read_to_string(&mut text)?;
    let numbers = text
        .split_ascii_whitespace()
        .map(str::parse)
        .collect::<Result<Vec<u32>, _>>()?;
    let messages = peer::transcript::transcript(&numbers)
        .map_err(|refusal| format!("refused with {}", refusal.number()))?;
    print!("{messages}");
    Ok(())
}
