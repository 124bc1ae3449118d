//! The library's products of polynomials against a schoolbook product and against a transform of
//! another structure than FIPS 204's.

use paired_rounding::{
    ring_product, ring_product_transformed, ring_transform, Refusal, Q, RING_SIZE,
};

/// q at the width of the sums here.
const Q64: u64 = 8_380_417;

/// A root of unity of order 512, from FIPS 204.
const PSI: u64 = 1_753;

type Row = [u32; RING_SIZE];

// ---- Numbers

/// The generator splitmix64.
struct Generator {
    state: u64,
}

impl Generator {
    fn next(&mut self) -> u64 {
        self.state = self.state.wrapping_add(0x9E37_79B9_7F4A_7C15);
        let mut z = self.state;
        z = (z ^ (z >> 30)).wrapping_mul(0xBF58_476D_1CE4_E5B9);
        z = (z ^ (z >> 27)).wrapping_mul(0x94D0_49BB_1331_11EB);
        z ^ (z >> 31)
    }

    /// A number below the limit.
    fn below(&mut self, limit: u64) -> u32 {
        (self.next() % limit) as u32
    }

    fn uniform_row(&mut self) -> Row {
        std::array::from_fn(|_| self.below(Q64))
    }

    /// Half of the rows uniform, the others of few numbers that are not 0, of numbers near 0 and q,
    /// or of numbers up to q − 1 that are all near it.
    fn row(&mut self) -> Row {
        match self.below(6) {
            0 => {
                let mut row = [0; RING_SIZE];
                for _ in 0..4 {
                    row[self.below(256) as usize] = self.below(Q64);
                }
                row
            }
            1 => std::array::from_fn(|_| (Q - 4 + self.below(9)) % Q),
            2 => std::array::from_fn(|_| Q - 1 - self.below(3)),
            _ => self.uniform_row(),
        }
    }

    /// Any numbers: what an output may hold before a call.
    fn any_row(&mut self) -> Row {
        std::array::from_fn(|_| self.next() as u32)
    }
}

fn power(base: u64, exponent: u64) -> u64 {
    (0..exponent).fold(1, |product, _| product * base % Q64)
}

/// The number whose product with this one is 1 modulo q, by Fermat.
fn inverse_of(number: u64) -> u64 {
    let (mut result, mut square, mut rest) = (1, number, Q64 - 2);
    while rest > 0 {
        if rest % 2 == 1 {
            result = result * square % Q64;
        }
        square = square * square % Q64;
        rest /= 2;
    }
    assert_eq!(result * number % Q64, 1);
    result
}

// ---- The schoolbook product

fn schoolbook(a: &Row, b: &Row) -> Row {
    // 256 terms below 2^46 each: a sum stays within 2^54.
    let mut sums = [0i64; RING_SIZE];
    for i in 0..RING_SIZE {
        for j in 0..RING_SIZE {
            let term = i64::from(a[i]) * i64::from(b[j]);
            if i + j < RING_SIZE {
                sums[i + j] += term;
            } else {
                sums[i + j - RING_SIZE] -= term;
            }
        }
    }
    sums.map(|sum| sum.rem_euclid(i64::from(Q)) as u32)
}

// ---- A transform of another structure: the numbers weighted by powers of psi, then a cyclic
// transform by halves of even and odd places, all in natural order

/// The values at 1, root, root^2, .. of the polynomial with these coefficients. The order of the
/// root is their count, a power of 2.
fn cyclic(numbers: &[u64], root: u64) -> Vec<u64> {
    if numbers.len() == 1 {
        return numbers.to_vec();
    }
    let every_second =
        |from| -> Vec<u64> { numbers.iter().skip(from).step_by(2).copied().collect() };
    let square = root * root % Q64;
    let even = cyclic(&every_second(0), square);
    let odd = cyclic(&every_second(1), square);
    let half = even.len();
    let mut values = vec![0; 2 * half];
    let mut power = 1;
    for i in 0..half {
        let term = power * odd[i] % Q64;
        values[i] = (even[i] + term) % Q64;
        values[i + half] = (even[i] + Q64 - term) % Q64;
        power = power * root % Q64;
    }
    values
}

/// Number i times factor^i.
fn weighted(numbers: impl IntoIterator<Item = u64>, factor: u64) -> Vec<u64> {
    let mut power = 1;
    let mut out = Vec::new();
    for number in numbers {
        out.push(number * power % Q64);
        power = power * factor % Q64;
    }
    out
}

struct Natural {
    psi_inverse: u64,
    size_inverse: u64,
}

impl Natural {
    fn new() -> Self {
        assert_eq!(power(PSI, 256), Q64 - 1);
        Natural {
            psi_inverse: inverse_of(PSI),
            size_inverse: inverse_of(256),
        }
    }

    /// The values at psi, psi^3, psi^5, ..
    fn values(&self, row: &Row) -> Vec<u64> {
        cyclic(
            &weighted(row.iter().copied().map(u64::from), PSI),
            PSI * PSI % Q64,
        )
    }

    /// The polynomial with these values.
    fn polynomial(&self, values: &[u64]) -> Row {
        let root = self.psi_inverse * self.psi_inverse % Q64;
        let numbers = weighted(cyclic(values, root), self.psi_inverse);
        std::array::from_fn(|i| (numbers[i] * self.size_inverse % Q64) as u32)
    }

    fn product(&self, a: &Row, b: &Row) -> Row {
        let pairs = self.values(a).into_iter().zip(self.values(b));
        self.polynomial(&pairs.map(|(x, y)| x * y % Q64).collect::<Vec<u64>>())
    }
}

// ---- The library

/// Numbers around an output, which no call may touch.
const MARGIN: usize = 3;

/// The product by the library in both ways, into outputs that held any numbers.
fn by_library(generator: &mut Generator, a: &Row, b: &Row) -> Row {
    let mut long: Vec<u32> = (0..2 * MARGIN + RING_SIZE)
        .map(|_| generator.next() as u32)
        .collect();
    let before = long.clone();
    let inner = MARGIN..MARGIN + RING_SIZE;
    assert_eq!(ring_product(a, b, &mut long[inner.clone()]), Ok(()));
    assert_eq!(long[..inner.start], before[..inner.start]);
    assert_eq!(long[inner.end..], before[inner.end..]);

    let mut transformed = generator.any_row();
    assert_eq!(ring_transform(a, &mut transformed), Ok(()));
    let mut out = generator.any_row();
    assert_eq!(ring_product_transformed(&transformed, b, &mut out), Ok(()));
    assert_eq!(out[..], long[inner]);
    out
}

fn unit(place: usize, number: u32) -> Row {
    let mut row = [0; RING_SIZE];
    row[place] = number;
    row
}

fn edge_rows() -> Vec<Row> {
    let mut rows = vec![[0; RING_SIZE], [1; RING_SIZE], [Q - 1; RING_SIZE]];
    for place in [0, 1, 127, 128, 255] {
        rows.push(unit(place, 1));
        rows.push(unit(place, Q - 1));
    }
    rows
}

#[test]
fn random_products_are_those_of_another_transform() {
    let natural = Natural::new();
    let mut generator = Generator { state: 1 };
    for i in 0..10_000 {
        let (a, b) = (generator.row(), generator.row());
        let product = by_library(&mut generator, &a, &b);
        assert_eq!(product, natural.product(&a, &b), "product {i}");
    }
}

#[test]
fn random_products_are_those_of_the_schoolbook() {
    let mut generator = Generator { state: 2 };
    for i in 0..2_000 {
        let (a, b) = (generator.row(), generator.row());
        let product = by_library(&mut generator, &a, &b);
        assert_eq!(product, schoolbook(&a, &b), "product {i}");
    }
}

#[test]
fn products_of_edge_rows() {
    let natural = Natural::new();
    let mut generator = Generator { state: 3 };
    let rows = edge_rows();
    for (i, a) in rows.iter().enumerate() {
        for (j, b) in rows.iter().enumerate() {
            let product = by_library(&mut generator, a, b);
            assert_eq!(product, schoolbook(a, b), "edge rows {i} and {j}");
            assert_eq!(product, natural.product(a, b), "edge rows {i} and {j}");
        }
    }
}

#[test]
fn known_products() {
    let mut generator = Generator { state: 4 };
    // X^255 × X is X^256, which is −1; X^128 squared likewise; 1 changes nothing.
    assert_eq!(
        by_library(&mut generator, &unit(255, 1), &unit(1, 1)),
        unit(0, Q - 1)
    );
    assert_eq!(
        by_library(&mut generator, &unit(128, 1), &unit(128, 1)),
        unit(0, Q - 1)
    );
    assert_eq!(
        by_library(&mut generator, &unit(255, 1), &unit(255, 1)),
        unit(254, Q - 1)
    );
    assert_eq!(
        by_library(&mut generator, &unit(127, 2), &unit(128, 3)),
        unit(255, 6)
    );
    let row = generator.uniform_row();
    assert_eq!(by_library(&mut generator, &unit(0, 1), &row), row);
    assert_eq!(by_library(&mut generator, &row, &unit(0, 1)), row);
}

#[test]
fn the_transform_gives_values() {
    let mut generator = Generator { state: 5 };
    let mut rows = edge_rows();
    rows.extend((0..100).map(|_| generator.row()));
    for (number, row) in rows.iter().enumerate() {
        let mut out = generator.any_row();
        assert_eq!(ring_transform(row, &mut out), Ok(()));
        for place in 0..=u8::MAX {
            let point = power(PSI, 2 * u64::from(place.reverse_bits()) + 1);
            let value = row
                .iter()
                .rev()
                .fold(0, |sum, &number| (sum * point + u64::from(number)) % Q64);
            let entry = u64::from(out[usize::from(place)]);
            assert_eq!(entry, value, "row {number}, entry {place}");
        }
    }
}

/// Every row of numbers below q is the transform of some polynomial.
#[test]
fn products_of_given_values() {
    let natural = Natural::new();
    let mut generator = Generator { state: 6 };
    let mut rows = edge_rows();
    rows.extend((0..500).map(|_| generator.row()));
    for transformed in rows {
        let values: Vec<u64> = (0..=u8::MAX)
            .map(|place| u64::from(transformed[usize::from(place.reverse_bits())]))
            .collect();
        let public = natural.polynomial(&values);
        let mut out = generator.any_row();
        assert_eq!(ring_transform(&public, &mut out), Ok(()));
        assert_eq!(out, transformed);
        let row = generator.row();
        assert_eq!(
            ring_product_transformed(&transformed, &row, &mut out),
            Ok(())
        );
        assert_eq!(out, natural.product(&public, &row));
    }
}

// ---- Shared polynomials

/// Rows of a shared polynomial on one side: the share, then the parts under eight keys.
const ROWS: usize = 9;

fn times(key: u32, row: &Row) -> Row {
    row.map(|number| (u64::from(key) * u64::from(number) % Q64) as u32)
}

#[test]
fn products_of_shares_and_parts_join() {
    let mut generator = Generator { state: 7 };
    for round in 0..60 {
        let (public, secret) = (generator.row(), generator.row());
        let product = schoolbook(&public, &secret);
        let mut transformed = [0; RING_SIZE];
        assert_eq!(ring_transform(&public, &mut transformed), Ok(()));
        for row in 0..ROWS {
            // The share's sum is 1 × secret.
            let key = match (row, generator.below(4)) {
                (0, _) => 1,
                (_, 0) => Q - 1,
                _ => 1 + generator.below(Q64 - 1),
            };
            let server = generator.row();
            let whole = times(key, &secret);
            let phone: Row = std::array::from_fn(|i| (whole[i] + Q - server[i]) % Q);
            let results = [server, phone].map(|own| {
                let mut out = generator.any_row();
                assert_eq!(
                    ring_product_transformed(&transformed, &own, &mut out),
                    Ok(())
                );
                let mut again = generator.any_row();
                assert_eq!(ring_product(&public, &own, &mut again), Ok(()));
                assert_eq!(out, again);
                out
            });
            let joined: Row = std::array::from_fn(|i| (results[0][i] + results[1][i]) % Q);
            assert_eq!(joined, times(key, &product), "round {round}, row {row}");
        }
    }
}

// ---- Refusals

const BAD_LENGTHS: [usize; 5] = [0, 1, 255, 257, 512];

/// Numbers of the factors in turn: good ones, q, the last number.
const FILLINGS: [u32; 3] = [5, Q, u32::MAX];

/// Both products refuse these slices, and leave the output as it was.
fn assert_products_refused(public: &[u32], row: &[u32], out: &mut [u32], refusal: Refusal) {
    let before = out.to_vec();
    let lengths = [public.len(), row.len(), out.len()];
    assert_eq!(ring_product(public, row, out), Err(refusal), "{lengths:?}");
    assert_eq!(out, before, "{lengths:?}");
    let answer = ring_product_transformed(public, row, out);
    assert_eq!(answer, Err(refusal), "{lengths:?}");
    assert_eq!(out, before, "{lengths:?}");
}

fn assert_transform_refused(public: &[u32], out: &mut [u32], refusal: Refusal) {
    let before = out.to_vec();
    let lengths = [public.len(), out.len()];
    assert_eq!(ring_transform(public, out), Err(refusal), "{lengths:?}");
    assert_eq!(out, before, "{lengths:?}");
}

#[test]
fn other_lengths_are_refused_with_5_before_6() {
    let mut generator = Generator { state: 8 };
    let with_good: Vec<usize> = BAD_LENGTHS.into_iter().chain([RING_SIZE]).collect();
    let mut count = 0;
    for &first in &with_good {
        for &last in &with_good {
            let mut out: Vec<u32> = (0..last).map(|_| generator.next() as u32).collect();
            for filling in FILLINGS {
                let public = vec![filling; first];
                if (first, last) != (RING_SIZE, RING_SIZE) {
                    assert_transform_refused(&public, &mut out, Refusal::Length);
                    count += 1;
                }
                for &second in &with_good {
                    if [first, second, last] == [RING_SIZE; 3] {
                        continue;
                    }
                    for other in FILLINGS {
                        let row = vec![other; second];
                        assert_products_refused(&public, &row, &mut out, Refusal::Length);
                        count += 1;
                    }
                }
            }
        }
    }
    assert_eq!(count, 3 * 35 + 9 * 215);
    assert_eq!(Refusal::Length.number(), 5);
}

#[test]
fn numbers_not_below_q_are_refused_with_6() {
    let mut generator = Generator { state: 9 };
    let good = generator.uniform_row();
    for number in [Q, Q + 1, 1 << 23, 2 * Q, 1 << 31, u32::MAX] {
        for place in [0, 1, 127, 128, 254, 255] {
            let mut bad = generator.uniform_row();
            bad[place] = number;
            for out in [&mut generator.any_row(), &mut [0; RING_SIZE]] {
                assert_products_refused(&bad, &good, out, Refusal::NotBelowQ);
                assert_products_refused(&good, &bad, out, Refusal::NotBelowQ);
                assert_products_refused(&bad, &bad, out, Refusal::NotBelowQ);
                assert_transform_refused(&bad, out, Refusal::NotBelowQ);
            }
        }
    }
    assert_eq!(Refusal::NotBelowQ.number(), 6);
}

/// What the output holds before a call is asked nothing of.
#[test]
fn an_output_of_any_numbers_is_written() {
    let mut generator = Generator { state: 10 };
    let (a, b) = (generator.uniform_row(), generator.uniform_row());
    let product = schoolbook(&a, &b);
    for number in [0, Q - 1, Q, u32::MAX] {
        let mut out = [number; RING_SIZE];
        assert_eq!(ring_product(&a, &b, &mut out), Ok(()));
        assert_eq!(out, product);
    }
}
