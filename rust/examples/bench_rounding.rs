//! Times the library beside plain Rust over every coefficient of both sets.
//! Run it with `--release`. An argument sets the number of passes.

use std::env;
use std::hint::black_box;
use std::process::ExitCode;
use std::time::Instant;

use paired_rounding::{high_part, low_part, parts, Parts, Refusal, Q};

const PASSES: usize = 7;
const CALLS: f64 = 2.0 * Q as f64;
const ALPHA: [u32; 2] = [190_464, 523_776];

/// High parts count so often in the sum of a pass over both parts: more than any low part.
const WEIGHT: i64 = 1 << 20;

fn step(set: u32, w: u32) -> Result<u32, Refusal> {
    let alpha = *ALPHA.get(set as usize).ok_or(Refusal::SideSetOrKind)?;
    if w < Q {
        Ok(alpha)
    } else {
        Err(Refusal::NotBelowQ)
    }
}

fn plain_high(set: u32, w: u32) -> Result<u32, Refusal> {
    let alpha = step(set, w)?;
    let shifted = (w + alpha / 2 - 1) % Q;
    Ok(if shifted == Q - 1 { 0 } else { shifted / alpha })
}

/// FIPS 204's w mod± α.
fn centred(w: i32, alpha: i32) -> i32 {
    let low = w % alpha;
    if low > alpha / 2 {
        low - alpha
    } else {
        low
    }
}

fn plain_low(set: u32, w: u32) -> Result<i32, Refusal> {
    let alpha = step(set, w)? as i32;
    let w = w as i32;
    let low = centred(w, alpha);
    Ok(if w - low == Q as i32 - 1 {
        low - 1
    } else {
        low
    })
}

/// FIPS 204's Decompose.
fn plain_parts(set: u32, w: u32) -> Result<Parts, Refusal> {
    let alpha = step(set, w)? as i32;
    let w = w as i32;
    let low = centred(w, alpha);
    Ok(if w - low == Q as i32 - 1 {
        Parts {
            high: 0,
            low: low - 1,
        }
    } else {
        Parts {
            high: ((w - low) / alpha) as u32,
            low,
        }
    })
}

/// Both parts as the library works them out: one quotient, by a constant.
fn quotient<const ALPHA: i32>(w: i32) -> Parts {
    let sum = w + (ALPHA / 2 - 1);
    if sum >= Q as i32 - 1 {
        return Parts {
            high: 0,
            low: w - Q as i32,
        };
    }
    let high = sum / ALPHA;
    Parts {
        high: high as u32,
        low: w - high * ALPHA,
    }
}

fn constant_parts(set: u32, w: u32) -> Result<Parts, Refusal> {
    step(set, w)?;
    Ok(match set {
        0 => quotient::<190_464>(w as i32),
        _ => quotient::<523_776>(w as i32),
    })
}

/// The same, not compiled into its caller, as the library is not.
#[inline(never)]
fn called_parts(set: u32, w: u32) -> Result<Parts, Refusal> {
    constant_parts(set, w)
}

/// The sum over all coefficients of both sets, and the nanoseconds per call.
fn pass(part: impl Fn(u32, u32) -> i64) -> (i64, f64) {
    let start = Instant::now();
    let mut sum = 0;
    for set in 0..2 {
        for w in 0..Q {
            // A weight by place, so that exchanged results change the sum.
            sum += part(black_box(set), black_box(w)) * i64::from(w & 0xFF);
        }
    }
    let sum = black_box(sum);
    (sum, start.elapsed().as_nanos() as f64 / CALLS)
}

/// Alternates the two and prints their times. Were all sums equal?
fn compare(
    name: &str,
    passes: usize,
    library: impl Fn(u32, u32) -> i64,
    plain: impl Fn(u32, u32) -> i64,
) -> bool {
    let mut times = [Vec::new(), Vec::new()];
    for _ in 0..passes {
        let (sum, time) = pass(&library);
        let (plain_sum, plain_time) = pass(&plain);
        if sum != plain_sum {
            eprintln!("{name}: the sums differ: library {sum}, plain Rust {plain_sum}");
            return false;
        }
        times[0].push(time);
        times[1].push(plain_time);
    }
    for list in &mut times {
        list.sort_by(f64::total_cmp);
    }
    let [ours, theirs] = times;
    for (label, place) in [("best", 0), ("median", passes / 2)] {
        println!(
            "{name:<30} {label:<8} {:>10.2} {:>12.2} {:>8.2}",
            ours[place],
            theirs[place],
            ours[place] / theirs[place]
        );
    }
    true
}

fn main() -> ExitCode {
    let passes = match env::args().nth(1).map(|word| word.parse()) {
        None => PASSES,
        Some(Ok(passes)) if passes > 0 => passes,
        Some(_) => {
            eprintln!("usage: bench_rounding [PASSES]");
            return ExitCode::from(2);
        }
    };
    if cfg!(debug_assertions) {
        eprintln!("built without optimization: the times mean little, use --release");
    }
    println!("{passes} passes over {CALLS} calls each, nanoseconds per call");
    println!(
        "{:<30} {:<8} {:>10} {:>12} {:>8}",
        "call", "pass", "library", "plain Rust", "ratio"
    );
    let value = |part: Result<u32, Refusal>| part.map_or(-1, i64::from);
    let signed = |part: Result<i32, Refusal>| part.map_or(i64::MIN >> 32, i64::from);
    let both = |parts: Result<Parts, Refusal>| {
        parts.map_or(-1, |parts| {
            i64::from(parts.high) * WEIGHT + i64::from(parts.low)
        })
    };
    let library = |set, w| both(parts(set, w));
    let equal = compare("parts", passes, library, |set, w| both(plain_parts(set, w)))
        && compare(
            "parts, constant steps, called",
            passes,
            library,
            |set, w| both(called_parts(set, w)),
        )
        && compare(
            "parts, constant steps, inlined",
            passes,
            library,
            |set, w| both(constant_parts(set, w)),
        )
        && compare(
            "high_part",
            passes,
            |set, w| value(high_part(set, w)),
            |set, w| value(plain_high(set, w)),
        )
        && compare(
            "low_part",
            passes,
            |set, w| signed(low_part(set, w)),
            |set, w| signed(plain_low(set, w)),
        );
    if equal {
        println!("sums equal in every pass");
        ExitCode::SUCCESS
    } else {
        ExitCode::FAILURE
    }
}
