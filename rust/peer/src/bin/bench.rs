//! Times another line program beside the one of this package, which runs in two forms: as it is, and with `--early`, where question 6
//! of a slice ends at its first no.
//!
//! Usage: `bench PROGRAM [LINES] [TURNS] [--each]`, with 20,000 lines and 7
//! turns if not given. All run as child processes on the same input
//! file, in turns, the order changing from turn to turn. Their outputs must be
//! equal; if they differ, or a program fails, the exit code is not 0.
//!
//! Without `--each`: the mix below with LINES, 2 × LINES and 4 × LINES lines,
//! to show time per line, and the peak memory of each program.
//!
//! The mix, for each line, from a generator with a fixed seed:
//! - 45 in 100: a good HIGH line; 45 in 100: a good BOUND line. The set is 0
//!   (half of these written `-`) or 1, N is 1 to 8, all equally likely;
//!   coefficients lie anywhere below q or near an edge; a third of the bounds
//!   is large enough that many verdicts are 1.
//! - 5 in 100: refused, one cause out of set, count, bound and coefficient.
//! - 5 in 100: malformed, among them empty, over-long and nearly good lines.
//!
//! With `--each`: one kind of line at a time, LINES lines of each.

use std::error::Error;
use std::fmt::Write as _;
use std::fs::{self, File};
use std::io::{self, Write};
use std::path::{Path, PathBuf};
use std::process::{Command, ExitCode, ExitStatus, Stdio};
use std::time::Instant;
use std::{env, process, thread};

use peer::field::Q;
use peer::random::SplitMix64;
use peer::settings::MAX_BOUND;

type Failure = Box<dyn Error>;

const SEED: u64 = 20_240_813;

fn main() -> ExitCode {
    match run() {
        Ok(()) => ExitCode::SUCCESS,
        Err(failure) => {
            eprintln!("bench: {failure}");
            ExitCode::FAILURE
        }
    }
}

fn run() -> Result<(), Failure> {
    let (options, plain): (Vec<String>, Vec<String>) =
        env::args().skip(1).partition(|word| word.starts_with("--"));
    let each = match options.as_slice() {
        [] => false,
        [option] if option == "--each" => true,
        _ => return Err("the only option is --each".into()),
    };
    let mut plain = plain.into_iter();
    let other = plain
        .next()
        .ok_or("usage: bench PROGRAM [LINES] [TURNS] [--each]")?;
    let lines: usize = plain.next().map_or(Ok(20_000), |text| text.parse())?;
    let turns: usize = plain.next().map_or(Ok(7), |text| text.parse())?;
    if lines == 0 || turns == 0 {
        return Err("lines and turns must be at least 1".into());
    }
    let peer = env::current_exe()?.with_file_name("line_program");
    let programs = [
        Program { name: "other", path: PathBuf::from(other), early: false },
        Program { name: "peer", path: peer.clone(), early: false },
        Program { name: "peer --early", path: peer, early: true },
    ];
    let files = Files::new()?;

    if each {
        for (name, make) in KINDS {
            println!("{name}:");
            files.write_input(lines, make)?;
            measure(&programs, &files, lines, turns)?;
        }
    } else {
        for factor in [1, 2, 4] {
            println!("mix, {factor} times the lines:");
            let text = files.write_input(factor * lines, mixed_line)?;
            measure(&programs, &files, factor * lines, turns)?;
            for program in &programs {
                match peak_memory(program, text.as_bytes())? {
                    Some(peak) => println!("  {} peak memory {peak}", program.name),
                    None => println!("  {} peak memory not known here", program.name),
                }
            }
        }
    }
    Ok(())
}

/// A line program that is timed.
struct Program {
    name: &'static str,
    path: PathBuf,
    early: bool,
}

impl Program {
    fn command(&self) -> Command {
        let mut command = Command::new(&self.path);
        if self.early {
            command.arg("--early");
        }
        command
    }
}

/// Runs the programs in turns, each first in its turn, and prints their times.
fn measure(
    programs: &[Program; 3],
    files: &Files,
    lines: usize,
    turns: usize,
) -> Result<(), Failure> {
    let mut seconds = [Vec::new(), Vec::new(), Vec::new()];
    for turn in 0..turns {
        let mut outputs = [Vec::new(), Vec::new(), Vec::new()];
        for place in 0..programs.len() {
            let which = (turn + place) % programs.len();
            let (time, output) = files.time(&programs[which])?;
            seconds[which].push(time);
            outputs[which] = output;
        }
        print!("  turn {}:", turn + 1);
        for (program, times) in programs.iter().zip(&seconds) {
            print!(" {} {:.4} s;", program.name, times[turn]);
        }
        println!();
        compare(&outputs[0], &outputs[1], lines)?;
        compare(&outputs[0], &outputs[2], lines)?;
    }
    for times in &mut seconds {
        times.sort_by(f64::total_cmp);
    }
    let best = seconds.each_ref().map(|times| times[0]);
    let median = seconds.each_ref().map(|times| median(times));
    for (word, [other, peer, early]) in [("best", best), ("median", median)] {
        let per_line = |time: f64| 1e6 * time / lines as f64;
        println!(
            "  {word}: other {:.2} µs/line, peer {:.2} µs/line, ratio {:.3}; peer --early {:.2} µs/line, ratio {:.3}",
            per_line(other),
            per_line(peer),
            other / peer,
            per_line(early),
            other / early
        );
    }
    Ok(())
}

/// The median of a sorted list.
fn median(times: &[f64]) -> f64 {
    let middle = times.len() / 2;
    if times.len() % 2 == 1 {
        times[middle]
    } else {
        (times[middle - 1] + times[middle]) / 2.0
    }
}

/// Checks that both outputs are equal and have a line for each input line.
fn compare(other: &[u8], peer: &[u8], lines: usize) -> Result<(), Failure> {
    if other != peer {
        let pairs = other
            .split(|&b| b == b'\n')
            .zip(peer.split(|&b| b == b'\n'));
        for (a, b) in pairs.filter(|(a, b)| a != b).take(5) {
            let [a, b] = [a, b].map(String::from_utf8_lossy);
            eprintln!("other: {a}\npeer:  {b}");
        }
        return Err("the outputs differ".into());
    }
    let found = peer.iter().filter(|&&b| b == b'\n').count();
    if found != lines {
        return Err(format!("{found} output lines for {lines} input lines").into());
    }
    Ok(())
}

/// The input and output files of the runs, removed at the end.
struct Files {
    directory: PathBuf,
}

impl Files {
    fn new() -> io::Result<Files> {
        let directory = env::temp_dir().join(format!("peer-bench-{}", process::id()));
        fs::create_dir(&directory)?;
        Ok(Files { directory })
    }

    fn input(&self) -> PathBuf {
        self.directory.join("input")
    }

    /// Makes an input, writes it to its file and gives it back.
    fn write_input(&self, lines: usize, make: LineMaker) -> io::Result<String> {
        let mut generator = SplitMix64::new(SEED);
        let mut text = String::new();
        for _ in 0..lines {
            make(&mut generator, &mut text);
            text.push('\n');
        }
        fs::write(self.input(), &text)?;
        Ok(text)
    }

    /// Runs a program on the input; its seconds and its whole output.
    fn time(&self, program: &Program) -> Result<(f64, Vec<u8>), Failure> {
        let path = self.directory.join("output");
        let input = File::open(self.input())?;
        let output = File::create(&path)?;
        let start = Instant::now();
        let status = program
            .command()
            .stdin(input)
            .stdout(output)
            .status()
            .map_err(|error| format!("{}: {error}", program.path.display()))?;
        let seconds = start.elapsed().as_secs_f64();
        check_status(&program.path, status)?;
        Ok((seconds, fs::read(path)?))
    }
}

impl Drop for Files {
    fn drop(&mut self) {
        // Nothing is lost if a temporary file stays.
        let _ = fs::remove_dir_all(&self.directory);
    }
}

fn check_status(program: &Path, status: ExitStatus) -> Result<(), Failure> {
    if status.success() {
        Ok(())
    } else {
        Err(format!("{}: {status}", program.display()).into())
    }
}

/// Peak resident memory of a program, where the system tells it.
///
/// The input goes through a pipe that stays open, so that the program is still
/// there to be asked when it has read all but a pipe's last filling.
fn peak_memory(program: &Program, input: &[u8]) -> Result<Option<String>, Failure> {
    let mut child = program
        .command()
        .stdin(Stdio::piped())
        .stdout(Stdio::piped())
        .spawn()?;
    let mut stdin = child.stdin.take().ok_or("no pipe to the program")?;
    let mut stdout = child.stdout.take().ok_or("no pipe from the program")?;
    let reader = thread::spawn(move || io::copy(&mut stdout, &mut io::sink()));
    let written = stdin.write_all(input);
    let status = fs::read_to_string(format!("/proc/{}/status", child.id()));
    drop(stdin);
    check_status(&program.path, child.wait()?)?;
    written?;
    reader.join().map_err(|_| "the reading thread failed")??;
    Ok(status.ok().and_then(|text| {
        let line = text.lines().find_map(|line| line.strip_prefix("VmHWM:"))?;
        Some(line.trim().to_string())
    }))
}

type LineMaker = fn(&mut SplitMix64, &mut String);

const KINDS: [(&str, LineMaker); 6] = [
    ("HIGH, set 0, N = 1", |g, text| high_line(g, text, 0, 1)),
    ("HIGH, set 0, N = 8", |g, text| high_line(g, text, 0, 8)),
    ("BOUND, set 0, N = 1", |g, text| bound_line(g, text, 0, 1)),
    ("BOUND, set 0, N = 8", |g, text| bound_line(g, text, 0, 8)),
    ("refused only", refused_line),
    ("malformed only", malformed_line),
];

fn mixed_line(generator: &mut SplitMix64, text: &mut String) {
    match generator.below(100) {
        0..45 => {
            let (set, count) = set_and_count(generator);
            high_line(generator, text, set, count);
        }
        45..90 => {
            let (set, count) = set_and_count(generator);
            bound_line(generator, text, set, count);
        }
        90..95 => refused_line(generator, text),
        _ => malformed_line(generator, text),
    }
}

fn set_and_count(generator: &mut SplitMix64) -> (u32, u32) {
    (generator.below(2), generator.between(1, 8))
}

fn high_line(generator: &mut SplitMix64, text: &mut String, set: u32, count: u32) {
    start_line(generator, text, 'H', set, 0);
    for _ in 0..count {
        push_number(text, generator.coefficient(set, 0));
    }
}

fn bound_line(generator: &mut SplitMix64, text: &mut String, set: u32, count: u32) {
    let bound = match generator.below(3) {
        0 => generator.between(MAX_BOUND - 10_000, MAX_BOUND),
        1 => generator.between(1, 1 << 19),
        _ => generator.between(1, MAX_BOUND),
    };
    start_line(generator, text, 'B', set, bound);
    for _ in 0..count {
        push_number(text, generator.coefficient(set, bound));
    }
}

fn start_line(generator: &mut SplitMix64, text: &mut String, letter: char, set: u32, bound: u32) {
    text.push(letter);
    if set == 0 && generator.below(2) == 0 {
        text.push_str(" -");
    } else {
        push_number(text, set);
    }
    push_number(text, bound);
}

fn push_number(text: &mut String, number: u32) {
    write!(text, " {number}").expect("a string takes all");
}

fn refused_line(generator: &mut SplitMix64, text: &mut String) {
    let (set, count) = set_and_count(generator);
    let large = generator.between(Q, u32::MAX - 1);
    match generator.below(6) {
        0 => {
            start_line(generator, text, 'H', set + 2, 0);
            push_number(text, large % Q);
        }
        1 => high_line(generator, text, set, 0),
        2 => high_line(generator, text, set, 8 + count),
        3 => {
            start_line(generator, text, 'H', set, 1);
            push_number(text, 0);
        }
        4 => {
            let bound = [0, MAX_BOUND + 1][generator.below(2) as usize];
            start_line(generator, text, 'B', set, bound);
            push_number(text, 0);
        }
        _ => {
            high_line(generator, text, set, count - 1);
            push_number(text, large);
        }
    }
}

fn malformed_line(generator: &mut SplitMix64, text: &mut String) {
    let start = text.len();
    let (set, count) = set_and_count(generator);
    match generator.below(8) {
        0 => {}
        1 => text.push('H'),
        2 => text.push_str("h 0 0 1"),
        3 => {
            high_line(generator, text, set, count);
            text.push(' ');
        }
        4 => {
            bound_line(generator, text, set, count);
            text.push('\r');
        }
        5 => {
            high_line(generator, text, set, count);
            text.push_str(" 4294967296");
        }
        6 => {
            bound_line(generator, text, set, count);
            text.push_str(" x");
        }
        _ => {
            while text.len() - start <= 1_024 {
                high_line(generator, text, set, count);
            }
        }
    }
}
