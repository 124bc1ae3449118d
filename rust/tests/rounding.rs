//! The library against FIPS 204's Decompose and document 01's formula, on every coefficient.

use paired_rounding::{high_part, low_part, parts, Parts, Refusal};

const Q: u32 = 8_380_417;

/// Step α by set, from document 01's table.
const ALPHA: [u32; 2] = [190_464, 523_776];

/// Parts s by set, from the same table.
const PARTS: [u32; 2] = [44, 16];

/// γ2 by set, from FIPS 204's table of parameters: (q − 1)/88 and (q − 1)/32.
const GAMMA2: [i64; 2] = [(Q as i64 - 1) / 88, (Q as i64 - 1) / 32];

/// FIPS 204, m mod± a: the number congruent to m modulo a, above −⌈a/2⌉ and at most ⌊a/2⌋.
fn centred_mod(m: i64, a: i64) -> i64 {
    let least = m.rem_euclid(a);
    if least <= a / 2 {
        least
    } else {
        least - a
    }
}

/// FIPS 204, Algorithm 36, Decompose: (r1, r0).
fn decompose(r: i64, gamma2: i64) -> (i64, i64) {
    let q = i64::from(Q);
    let r_plus = r.rem_euclid(q);
    let r0 = centred_mod(r_plus, 2 * gamma2);
    if r_plus - r0 == q - 1 {
        (0, r0 - 1)
    } else {
        ((r_plus - r0) / (2 * gamma2), r0)
    }
}

/// Document 01: w′ = (w + α/2 − 1) mod q; 0 if w′ = q − 1, else w′ divided by α, rounded down.
fn high_by_formula(alpha: u32, w: u32) -> u32 {
    let shifted = (w + alpha / 2 - 1) % Q;
    if shifted == Q - 1 {
        0
    } else {
        shifted / alpha
    }
}

fn compare_all(set: u32) {
    let alpha = ALPHA[set as usize];
    let gamma2 = GAMMA2[set as usize];
    assert_eq!(i64::from(alpha), 2 * gamma2);
    for w in 0..Q {
        let Parts { high, low } = parts(set, w).unwrap();
        assert_eq!(high_part(set, w), Ok(high), "set {set}, w {w}");
        assert_eq!(low_part(set, w), Ok(low), "set {set}, w {w}");
        let fips = decompose(i64::from(w), gamma2);
        assert_eq!((i64::from(high), i64::from(low)), fips, "set {set}, w {w}");
        assert_eq!(high, high_by_formula(alpha, w), "set {set}, w {w}");
        let joined = i64::from(high) * i64::from(alpha) + i64::from(low);
        assert_eq!(
            joined.rem_euclid(i64::from(Q)),
            i64::from(w),
            "set {set}, w {w}"
        );
        assert!(high < PARTS[set as usize], "set {set}, w {w}");
        assert!(low.unsigned_abs() <= alpha / 2, "set {set}, w {w}");
    }
}

#[test]
fn every_coefficient_of_set_0() {
    compare_all(0);
}

#[test]
fn every_coefficient_of_set_1() {
    compare_all(1);
}

#[test]
fn known_results() {
    // Set, w, high and low part.
    let known = [
        (0, 95_232, 0, 95_232),
        (0, 95_233, 1, -95_231),
        (0, 8_285_184, 43, 95_232),
        (0, 8_285_185, 0, -95_232),
        (0, Q - 1, 0, -1),
        (1, 261_888, 0, 261_888),
        (1, 261_889, 1, -261_887),
        (1, 8_118_528, 15, 261_888),
        (1, 8_118_529, 0, -261_888),
    ];
    for (set, w, high, low) in known {
        assert_eq!(parts(set, w), Ok(Parts { high, low }), "set {set}, w {w}");
    }
}

const BAD_SETS: [u32; 6] = [2, 3, 4, 1 << 16, 1 << 31, u32::MAX];
const BAD_COEFFICIENTS: [u32; 8] = [
    Q,
    Q + 1,
    (1 << 23) - 1,
    1 << 23,
    2 * Q,
    i32::MAX as u32,
    1 << 31,
    u32::MAX,
];

fn assert_refused(set: u32, w: u32, refusal: Refusal) {
    assert_eq!(parts(set, w), Err(refusal), "set {set}, w {w}");
    assert_eq!(high_part(set, w), Err(refusal), "set {set}, w {w}");
    assert_eq!(low_part(set, w), Err(refusal), "set {set}, w {w}");
}

#[test]
fn a_bad_set_is_refused_with_1() {
    for set in BAD_SETS {
        for w in [0, 1, 95_233, Q - 1] {
            assert_refused(set, w, Refusal::SideSetOrKind);
        }
    }
}

#[test]
fn a_bad_coefficient_is_refused_with_6() {
    for set in [0, 1] {
        for w in BAD_COEFFICIENTS {
            assert_refused(set, w, Refusal::NotBelowQ);
        }
        // From q to 2^24, then in steps up to the last number.
        for w in (Q..1 << 24).chain((1 << 24..=u32::MAX).step_by(4_099)) {
            assert_refused(set, w, Refusal::NotBelowQ);
        }
    }
}

#[test]
fn of_two_bad_numbers_the_set_is_asked_first() {
    for set in BAD_SETS {
        for w in BAD_COEFFICIENTS {
            assert_refused(set, w, Refusal::SideSetOrKind);
        }
    }
    assert_eq!(Refusal::SideSetOrKind.number(), 1);
    assert_eq!(Refusal::NotBelowQ.number(), 6);
}
