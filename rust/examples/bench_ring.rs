//! Times the library's products of polynomials beside plain Rust programs for the same products.
//! Run it with `--release`. An argument sets the number of passes.

use std::env;
use std::hint::black_box;
use std::process::ExitCode;
use std::time::Instant;

use paired_rounding::{
    ring_product, ring_product_transformed, ring_transform, Refusal, Q, RING_SIZE,
};

const PASSES: usize = 15;

/// Calls of a pass.
const CALLS: usize = 2_000;

/// Rows of a shared polynomial on one side.
const ROWS: usize = 9;

/// Different rows that the calls of a pass go through.
const POOL: usize = 64;

const Q64: u64 = Q as u64;

type Row = [u32; RING_SIZE];

// ---- Factors

const fn multiply(a: u32, b: u32) -> u32 {
    (a as u64 * b as u64 % Q64) as u32
}

/// Entry i is 1,753 to the power of i with its eight bits reversed, times a scale.
const fn factors(scale: u32) -> Row {
    let mut list = [0; RING_SIZE];
    let mut exponent = 0u8;
    let mut power = scale;
    loop {
        list[exponent.reverse_bits() as usize] = power;
        if exponent == u8::MAX {
            return list;
        }
        power = multiply(power, 1_753);
        exponent += 1;
    }
}

static FACTORS: Row = factors(1);

/// 1/256 modulo q.
const SHRINK: u32 = 8_347_681;

// ---- Plain programs: FIPS 204's algorithms 41 and 42, three ways

/// The three steps of a product, on numbers of any size that the steps agree on.
trait Plain {
    const NAME: &'static str;

    /// NTT of numbers below q, in place.
    fn forward(w: &mut Row);

    /// A number that `forward` has left, reduced to below q.
    fn reduced(number: u32) -> u32;

    /// Number by number into the second, then the inverse NTT, in place; the results are below q.
    fn back(u: &Row, w: &mut Row);
}

/// Runs a layer: for each block its factor, and each of its pairs of numbers.
#[inline(always)]
fn layer(
    w: &mut Row,
    half: usize,
    factor: impl Fn(usize) -> u32,
    pair: impl Fn(u32, &mut u32, &mut u32),
) {
    for (number, block) in w.chunks_exact_mut(2 * half).enumerate() {
        let z = factor(number);
        let (low, high) = block.split_at_mut(half);
        for (x, y) in low.iter_mut().zip(high) {
            pair(z, x, y);
        }
    }
}

/// The layers of the forward transform, with the pair's step.
#[inline(always)]
fn forward_layers(w: &mut Row, factors: &Row, pair: impl Fn(u32, &mut u32, &mut u32)) {
    let mut half = RING_SIZE / 2;
    while half > 0 {
        let blocks = RING_SIZE / 2 / half;
        layer(w, half, |number| factors[blocks + number], &pair);
        half /= 2;
    }
}

/// The layers of the inverse, with the pair's step, which is also told how many numbers have been
/// added up so far. The step multiplies by the factor's negative.
#[inline(always)]
fn inverse_layers(w: &mut Row, factors: &Row, pair: impl Fn(u32, u32, &mut u32, &mut u32)) {
    let mut half = 1;
    while half < RING_SIZE {
        let blocks = RING_SIZE / 2 / half;
        let added = half as u32;
        layer(
            w,
            half,
            |number| Q - factors[2 * blocks - 1 - number],
            |z, x, y| pair(added, z, x, y),
        );
        half *= 2;
    }
}

/// Every sum, difference and product reduced.
struct Straightforward;

/// A number below 2 q, reduced.
#[inline(always)]
fn once_less(number: u32) -> u32 {
    if number >= Q {
        number - Q
    } else {
        number
    }
}

impl Plain for Straightforward {
    const NAME: &'static str = "straightforward";

    fn forward(w: &mut Row) {
        forward_layers(w, &FACTORS, |z, x, y| {
            let t = multiply(z, *y);
            *y = once_less(*x + Q - t);
            *x = once_less(*x + t);
        });
    }

    fn reduced(number: u32) -> u32 {
        number
    }

    fn back(u: &Row, w: &mut Row) {
        for (x, y) in u.iter().zip(w.iter_mut()) {
            *y = multiply(*x, *y);
        }
        inverse_layers(w, &FACTORS, |_, z, x, y| {
            let difference = once_less(*x + Q - *y);
            *x = once_less(*x + *y);
            *y = multiply(z, difference);
        });
        for x in w.iter_mut() {
            *x = multiply(SHRINK, *x);
        }
    }
}

/// Products reduced, sums and differences not. Forward the numbers stay below 9 q. In the inverse
/// they stay below 256 q, which is below 2^31: a sum of `added` numbers below q is below added × q,
/// and a difference is raised by as much.
struct Lazy;

impl Plain for Lazy {
    const NAME: &'static str = "lazy";

    fn forward(w: &mut Row) {
        forward_layers(w, &FACTORS, |z, x, y| {
            let t = multiply(z, *y);
            *y = *x + Q - t;
            *x += t;
        });
    }

    fn reduced(number: u32) -> u32 {
        number % Q
    }

    fn back(u: &Row, w: &mut Row) {
        for (x, y) in u.iter().zip(w.iter_mut()) {
            *y = multiply(*x, *y);
        }
        inverse_layers(w, &FACTORS, |added, z, x, y| {
            let difference = *x + added * Q - *y;
            *x += *y;
            *y = multiply(z, difference);
        });
        for x in w.iter_mut() {
            *x = multiply(SHRINK, *x);
        }
    }
}

/// Products divided by 2^32 modulo q in place of reduced by division, the factors raised by 2^32
/// before; sums and differences as in `Lazy`. A product stays below 2 q: forward the numbers stay
/// below 17 q, and in the inverse below 512 q, which is below 2^32.
struct Montgomery;

/// 2^32 modulo q.
const SCALE: u32 = ((1u64 << 32) % Q64) as u32;

static SCALED_FACTORS: Row = factors(SCALE);

/// 1/256 times 2^64: the product number by number is divided by 2^32, and so is the last one.
const SCALED_SHRINK: u32 = multiply(multiply(SHRINK, SCALE), SCALE);

/// −1/q modulo 2^32.
const NEGATIVE_INVERSE: u32 = 4_236_238_847;
const _: () = assert!(Q.wrapping_mul(NEGATIVE_INVERSE) == u32::MAX);

/// a × b / 2^32 modulo q, below 2 q where a × b is below 2^32 × q.
#[inline(always)]
fn montgomery(a: u32, b: u32) -> u32 {
    let product = u64::from(a) * u64::from(b);
    let multiple = (product as u32).wrapping_mul(NEGATIVE_INVERSE);
    ((product + u64::from(multiple) * Q64) >> 32) as u32
}

impl Plain for Montgomery {
    const NAME: &'static str = "montgomery";

    fn forward(w: &mut Row) {
        forward_layers(w, &SCALED_FACTORS, |z, x, y| {
            let t = montgomery(z, *y);
            *y = *x + 2 * Q - t;
            *x += t;
        });
    }

    fn reduced(number: u32) -> u32 {
        number % Q
    }

    fn back(u: &Row, w: &mut Row) {
        for (x, y) in u.iter().zip(w.iter_mut()) {
            *y = montgomery(*x, *y);
        }
        inverse_layers(w, &SCALED_FACTORS, |added, z, x, y| {
            let difference = *x + 2 * added * Q - *y;
            *x += *y;
            *y = montgomery(z, difference);
        });
        for x in w.iter_mut() {
            *x = once_less(montgomery(SCALED_SHRINK, *x));
        }
    }
}

// ---- The same calls as the library's, not compiled into their callers, as the library is not

fn row_of(numbers: &[u32]) -> Result<&Row, Refusal> {
    numbers.try_into().map_err(|_| Refusal::Length)
}

fn out_of(numbers: &mut [u32]) -> Result<&mut Row, Refusal> {
    numbers.try_into().map_err(|_| Refusal::Length)
}

/// Are all numbers below q? There is no early end, so that the compiler takes several at a time.
fn ask_below_q(row: &Row) -> Result<(), Refusal> {
    if row.iter().fold(true, |good, &number| good & (number < Q)) {
        Ok(())
    } else {
        Err(Refusal::NotBelowQ)
    }
}

#[inline(never)]
fn plain_product<P: Plain>(public: &[u32], row: &[u32], out: &mut [u32]) -> Result<(), Refusal> {
    let (public, row, out) = (row_of(public)?, row_of(row)?, out_of(out)?);
    ask_below_q(public)?;
    ask_below_q(row)?;
    let mut left = *public;
    P::forward(&mut left);
    *out = *row;
    P::forward(out);
    P::back(&left, out);
    Ok(())
}

#[inline(never)]
fn plain_transform<P: Plain>(public: &[u32], out: &mut [u32]) -> Result<(), Refusal> {
    let (public, out) = (row_of(public)?, out_of(out)?);
    ask_below_q(public)?;
    *out = *public;
    P::forward(out);
    for number in out.iter_mut() {
        *number = P::reduced(*number);
    }
    Ok(())
}

#[inline(never)]
fn plain_product_transformed<P: Plain>(
    transformed: &[u32],
    row: &[u32],
    out: &mut [u32],
) -> Result<(), Refusal> {
    let (transformed, row, out) = (row_of(transformed)?, row_of(row)?, out_of(out)?);
    ask_below_q(transformed)?;
    ask_below_q(row)?;
    *out = *row;
    P::forward(out);
    P::back(transformed, out);
    Ok(())
}

type Product = fn(&[u32], &[u32], &mut [u32]) -> Result<(), Refusal>;
type Transform = fn(&[u32], &mut [u32]) -> Result<(), Refusal>;

struct Program {
    name: &'static str,
    product: Product,
    transform: Transform,
    product_transformed: Product,
}

fn plain<P: Plain>() -> Program {
    Program {
        name: P::NAME,
        product: plain_product::<P>,
        transform: plain_transform::<P>,
        product_transformed: plain_product_transformed::<P>,
    }
}

/// The library first.
fn programs() -> Vec<Program> {
    vec![
        Program {
            name: "library",
            product: ring_product,
            transform: ring_transform,
            product_transformed: ring_product_transformed,
        },
        plain::<Straightforward>(),
        plain::<Lazy>(),
        plain::<Montgomery>(),
    ]
}

// ---- Equal results

/// What the three calls leave in an output that held 9s, with their answers.
fn results(program: &Program, public: &[u32], row: &[u32]) -> Vec<(Result<(), Refusal>, Row)> {
    let of = |call: &dyn Fn(&mut Row) -> Result<(), Refusal>| {
        let mut out = [9; RING_SIZE];
        (call(&mut out), out)
    };
    vec![
        of(&|out| (program.product)(public, row, out)),
        of(&|out| (program.transform)(public, out)),
        of(&|out| (program.product_transformed)(public, row, out)),
    ]
}

/// Do all programs give the same, of every pair of rows and of what is to be refused?
fn all_equal(programs: &[Program], pool: &[Row]) -> bool {
    let mut rows: Vec<Vec<u32>> = pool.iter().map(|row| row.to_vec()).collect();
    rows.push(vec![0; RING_SIZE]);
    rows.push(vec![Q - 1; RING_SIZE]);
    rows.push(vec![1; RING_SIZE - 1]);
    rows.push(vec![Q; RING_SIZE + 1]);
    for place in [0, RING_SIZE - 1] {
        for (number, others) in [(1, 0), (Q - 1, 0), (Q, 1)] {
            let mut row = vec![others; RING_SIZE];
            row[place] = number;
            rows.push(row);
        }
    }
    for public in &rows {
        for row in &rows {
            let expected = results(&programs[0], public, row);
            for program in &programs[1..] {
                if results(program, public, row) != expected {
                    eprintln!("{} gives something else than the library", program.name);
                    return false;
                }
            }
        }
    }
    true
}

// ---- Times

struct Bench {
    passes: usize,
    programs: Vec<Program>,
    pool: Vec<Row>,
}

impl Bench {
    fn row(&self, i: usize) -> &Row {
        black_box(&self.pool[i % POOL])
    }

    /// Microseconds a call, and a sum over what came out; nothing if a call was refused.
    fn pass(
        &self,
        calls: usize,
        call: impl Fn(usize, &mut Row) -> Result<(), Refusal>,
    ) -> Option<(f64, u64)> {
        let mut out = [0; RING_SIZE];
        let mut sum = 0;
        let start = Instant::now();
        for i in 0..calls {
            call(i, &mut out).ok()?;
            // One number of each result, so that the check takes hardly any time.
            sum += u64::from(black_box(&out)[i % RING_SIZE]) * (1 + i as u64 % 0xFF);
        }
        let micros = start.elapsed().as_nanos() as f64 / 1_000.0;
        Some((micros / calls as f64, sum))
    }

    /// One kind of call by all programs in turns, and a line for each. Were all sums equal?
    fn compare(
        &self,
        name: &str,
        calls: usize,
        call: impl Fn(&Program, usize, &mut Row) -> Result<(), Refusal>,
    ) -> bool {
        let mut times: Vec<Vec<f64>> = vec![Vec::new(); self.programs.len()];
        for _ in 0..self.passes {
            let mut sums = Vec::new();
            for (program, list) in self.programs.iter().zip(&mut times) {
                let Some((time, sum)) = self.pass(calls, |i, out| call(program, i, out)) else {
                    eprintln!("{name}: {} refused a call", program.name);
                    return false;
                };
                list.push(time);
                sums.push(sum);
            }
            if sums.iter().any(|&sum| sum != sums[0]) {
                eprintln!("{name}: the sums differ: {sums:?}");
                return false;
            }
        }
        for list in &mut times {
            list.sort_by(f64::total_cmp);
        }
        let middle = self.passes / 2;
        for (program, list) in self.programs.iter().zip(&times) {
            println!(
                "{name:<26} {:<16} {:>8.2} {:>6.2} {:>8.2} {:>6.2}",
                program.name,
                list[0],
                times[0][0] / list[0],
                list[middle],
                times[0][middle] / list[middle],
            );
        }
        true
    }

    fn run(&self) -> bool {
        let polynomials = CALLS / ROWS;
        self.compare("ring_product", CALLS, |program, i, out| {
            (program.product)(self.row(i), self.row(7 * i + 3), out)
        }) && self.compare("ring_product_transformed", CALLS, |program, i, out| {
            (program.product_transformed)(self.row(i), self.row(7 * i + 3), out)
        }) && self.compare("ring_transform", CALLS, |program, i, out| {
            (program.transform)(self.row(i), out)
        }) && self.compare(
            "nine rows, nine products",
            polynomials,
            |program, i, out| {
                let public = self.row(i);
                (0..ROWS).try_for_each(|r| (program.product)(public, self.row(7 * i + r), out))
            },
        ) && self.compare(
            "nine rows, one transform",
            polynomials,
            |program, i, out| {
                let mut public = [0; RING_SIZE];
                (program.transform)(self.row(i), &mut public)?;
                (0..ROWS).try_for_each(|r| {
                    (program.product_transformed)(&public, self.row(7 * i + r), out)
                })
            },
        )
    }
}

/// The generator splitmix64.
fn next(state: &mut u64) -> u64 {
    *state = state.wrapping_add(0x9E37_79B9_7F4A_7C15);
    let mut z = *state;
    z = (z ^ (z >> 30)).wrapping_mul(0xBF58_476D_1CE4_E5B9);
    z = (z ^ (z >> 27)).wrapping_mul(0x94D0_49BB_1331_11EB);
    z ^ (z >> 31)
}

fn main() -> ExitCode {
    let passes = match env::args().nth(1).map(|word| word.parse()) {
        None => PASSES,
        Some(Ok(passes)) if passes > 0 => passes,
        Some(_) => {
            eprintln!("usage: bench_ring [PASSES]");
            return ExitCode::from(2);
        }
    };
    if cfg!(debug_assertions) {
        eprintln!("built without optimization: the times mean little, use --release");
    }
    let mut state = 1;
    let bench = Bench {
        passes,
        programs: programs(),
        pool: (0..POOL)
            .map(|_| std::array::from_fn(|_| (next(&mut state) % Q64) as u32))
            .collect(),
    };
    if !all_equal(&bench.programs, &bench.pool) {
        return ExitCode::FAILURE;
    }
    println!("{passes} passes over {CALLS} calls each, microseconds a call;");
    println!("with nine rows, a call is a whole shared polynomial on one side");
    println!("ratio: the library's time divided by the program's");
    println!(
        "{:<26} {:<16} {:>8} {:>6} {:>8} {:>6}",
        "call", "program", "best", "ratio", "median", "ratio"
    );
    if bench.run() {
        println!("results equal");
        ExitCode::SUCCESS
    } else {
        ExitCode::FAILURE
    }
}
