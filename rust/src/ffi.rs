//! The C functions of the proved library libphone. All unsafe code of this crate is here.

use crate::Expected;

/// What the calls for one part each give of a coefficient.
#[repr(C)]
pub struct PartsCode {
    pub high: i64,
    pub low: i64,
}

mod c {
    use super::PartsCode;

    extern "C" {
        pub fn high_part(set: u32, w: u32) -> i64;
        pub fn low_part(set: u32, w: u32) -> i64;
        pub fn high_and_low(set: u32, w: u32) -> PartsCode;
        pub fn message_form(
            side: u32,
            set: u32,
            kind: u32,
            n: u32,
            bound: u32,
            round: u32,
            serial: u32,
            message: *const u8,
            length: usize,
        ) -> u32;
        pub fn ring_product(
            public: *const u32,
            public_length: usize,
            row: *const u32,
            row_length: usize,
            out: *mut u32,
            out_length: usize,
        ) -> u32;
        pub fn ring_transform(
            public: *const u32,
            public_length: usize,
            out: *mut u32,
            out_length: usize,
        ) -> u32;
        pub fn ring_product_transformed(
            transformed: *const u32,
            transformed_length: usize,
            row: *const u32,
            row_length: usize,
            out: *mut u32,
            out_length: usize,
        ) -> u32;
    }
}

#[inline]
pub fn high_part(set: u32, w: u32) -> i64 {
    // SAFETY: takes and returns numbers only, and is proved to answer for every set and w.
    unsafe { c::high_part(set, w) }
}

#[inline]
pub fn low_part(set: u32, w: u32) -> i64 {
    // SAFETY: takes and returns numbers only, and is proved to answer for every set and w.
    unsafe { c::low_part(set, w) }
}

#[inline]
pub fn high_and_low(set: u32, w: u32) -> PartsCode {
    // SAFETY: takes and returns numbers only, and is proved to answer for every set and w. The struct
    // has the same fields in the same order on both sides, laid out as C does it.
    unsafe { c::high_and_low(set, w) }
}

pub fn message_form(expected: &Expected, message: &[u8]) -> u32 {
    // SAFETY: pointer and length are those of one slice, lent for the whole call; the function only
    // reads it, keeps no pointer, and is proved to answer for all numbers and every slice.
    unsafe {
        c::message_form(
            expected.side,
            expected.set,
            expected.kind,
            expected.n,
            expected.bound,
            expected.round,
            expected.serial,
            message.as_ptr(),
            message.len(),
        )
    }
}

pub fn ring_product(public: &[u32], row: &[u32], out: &mut [u32]) -> u32 {
    // SAFETY: each pointer and length are those of one slice, lent for the whole call; the function
    // reads the first two and writes within `out`, which overlaps neither, keeps no pointer, and is
    // proved to answer for slices of every length and content.
    unsafe {
        c::ring_product(
            public.as_ptr(),
            public.len(),
            row.as_ptr(),
            row.len(),
            out.as_mut_ptr(),
            out.len(),
        )
    }
}

pub fn ring_transform(public: &[u32], out: &mut [u32]) -> u32 {
    // SAFETY: as for `ring_product`.
    unsafe { c::ring_transform(public.as_ptr(), public.len(), out.as_mut_ptr(), out.len()) }
}

pub fn ring_product_transformed(transformed: &[u32], row: &[u32], out: &mut [u32]) -> u32 {
    // SAFETY: as for `ring_product`.
    unsafe {
        c::ring_product_transformed(
            transformed.as_ptr(),
            transformed.len(),
            row.as_ptr(),
            row.len(),
            out.as_mut_ptr(),
            out.len(),
        )
    }
}
