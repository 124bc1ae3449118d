use crate::{done_from, ffi, Refusal};

/// How many numbers a row has: the coefficients of a polynomial, that of X^0 first.
pub const RING_SIZE: usize = 256;

/// The product of two polynomials modulo [`Q`](crate::Q) and X^256 + 1, into `out`.
///
/// X^256 is −1: what a product has at X^256 and above comes back 256 places lower, with its sign
/// changed. A call multiplies one row of [`RING_SIZE`] numbers.
///
/// A shared polynomial has nine rows on each side: the share, the four parts under the server's
/// keys, the four under the phone's. A side multiplies each of its rows by the same public
/// polynomial. The results of both sides, added number by number modulo q, are the product of the
/// public polynomial and the secret one, and each key times this product, so that they are shares
/// and parts of the product. As the public polynomial is the same nine times, it is transformed
/// once with [`ring_transform`], and the rows go to [`ring_product_transformed`].
///
/// # Errors
///
/// [`Refusal::Length`] if a slice has not exactly [`RING_SIZE`] numbers; else
/// [`Refusal::NotBelowQ`] if a number of `public` or `row` is not below q. Then `out` is unchanged.
///
/// # Examples
///
/// ```
/// use paired_rounding::{ring_product, Refusal, Q, RING_SIZE};
///
/// // (X^255 + 2) × 3X is 3 X^256 + 6X, and X^256 is −1.
/// let mut public = [0; RING_SIZE];
/// (public[255], public[0]) = (1, 2);
/// let mut row = [0; RING_SIZE];
/// row[1] = 3;
/// let mut product = [0; RING_SIZE];
/// (product[0], product[1]) = (Q - 3, 6);
///
/// let mut out = [0; RING_SIZE];
/// assert_eq!(ring_product(&public, &row, &mut out), Ok(()));
/// assert_eq!(out, product);
///
/// // A refusal writes nothing.
/// row[9] = Q;
/// assert_eq!(ring_product(&public, &row, &mut out), Err(Refusal::NotBelowQ));
/// assert_eq!(ring_product(&public, &row[1..], &mut out), Err(Refusal::Length));
/// assert_eq!(out, product);
/// ```
pub fn ring_product(public: &[u32], row: &[u32], out: &mut [u32]) -> Result<(), Refusal> {
    done_from(ffi::ring_product(public, row, out))
}

/// The transform of a public polynomial, NTT of FIPS 204 (Algorithm 41), into `out`, for
/// [`ring_product_transformed`].
///
/// Entry i is the polynomial's value at 1,753 to the power 2 r + 1 modulo q, r being i with its
/// eight bits reversed. The entries of ML-DSA's matrix Â have this form already.
///
/// # Errors
///
/// [`Refusal::Length`] if a slice has not exactly [`RING_SIZE`] numbers; else
/// [`Refusal::NotBelowQ`] if a number of `public` is not below q. Then `out` is unchanged.
///
/// # Examples
///
/// ```
/// use paired_rounding::{ring_transform, Refusal, Q, RING_SIZE};
///
/// // The values of X: 1,753, then the same to the power 257, which is its negative.
/// let mut x = [0; RING_SIZE];
/// x[1] = 1;
/// let mut values = [0; RING_SIZE];
/// assert_eq!(ring_transform(&x, &mut values), Ok(()));
/// assert_eq!(values[..2], [1_753, Q - 1_753]);
///
/// // A constant has the same value everywhere.
/// let mut constant = [0; RING_SIZE];
/// constant[0] = 7;
/// assert_eq!(ring_transform(&constant, &mut values), Ok(()));
/// assert_eq!(values, [7; RING_SIZE]);
///
/// constant[0] = Q;
/// assert_eq!(ring_transform(&constant, &mut values), Err(Refusal::NotBelowQ));
/// assert_eq!(ring_transform(&constant, &mut values[1..]), Err(Refusal::Length));
/// assert_eq!(values, [7; RING_SIZE]);
/// ```
pub fn ring_transform(public: &[u32], out: &mut [u32]) -> Result<(), Refusal> {
    done_from(ffi::ring_transform(public, out))
}

/// The product of a transformed public polynomial and a row, into `out`: where `transformed` is
/// what [`ring_transform`] gives of a polynomial, the same as [`ring_product`] of that polynomial.
///
/// The nine rows of a shared polynomial take 19 transforms this way, and 27 by [`ring_product`].
///
/// # Errors
///
/// [`Refusal::Length`] if a slice has not exactly [`RING_SIZE`] numbers; else
/// [`Refusal::NotBelowQ`] if a number of `transformed` or `row` is not below q. Then `out` is
/// unchanged.
///
/// # Examples
///
/// The public polynomial X − 1 times a shared one, all of whose coefficients are 5: the rows of both
/// sides are multiplied one by one, and the results join to the product and to each key times it.
///
/// ```
/// use paired_rounding::{ring_product_transformed, ring_transform, Refusal, Q, RING_SIZE};
///
/// # fn main() -> Result<(), Refusal> {
/// // 1 for the share, then the server's four keys, then the phone's.
/// let keys: [u32; 9] = [1, 2, 3, 4, 5, 6, 7, 8, 9];
/// // The server's rows are any numbers; the phone's are what is missing to key × 5.
/// let server = [[100; RING_SIZE]; 9];
/// let phone = keys.map(|key| [(Q + key * 5 - 100) % Q; RING_SIZE]);
///
/// let mut public = [0; RING_SIZE];
/// (public[0], public[1]) = (Q - 1, 1);
/// let mut transformed = [0; RING_SIZE];
/// ring_transform(&public, &mut transformed)?;
///
/// // X × 5X^n cancels −5X^(n+1); there remain 5 X^256, which is −5, and the −5 of X^0.
/// let mut product = [0; RING_SIZE];
/// product[0] = Q - 10;
/// for (row, key) in keys.into_iter().enumerate() {
///     let mut ours = [0; RING_SIZE];
///     ring_product_transformed(&transformed, &server[row], &mut ours)?;
///     let mut theirs = [0; RING_SIZE];
///     ring_product_transformed(&transformed, &phone[row], &mut theirs)?;
///     for place in 0..RING_SIZE {
///         let joined = (ours[place] + theirs[place]) % Q;
///         assert_eq!(joined, key * product[place] % Q);
///     }
/// }
/// # Ok(())
/// # }
/// ```
pub fn ring_product_transformed(
    transformed: &[u32],
    row: &[u32],
    out: &mut [u32],
) -> Result<(), Refusal> {
    done_from(ffi::ring_product_transformed(transformed, row, out))
}
