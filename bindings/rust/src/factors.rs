//! Factors of a matrix: column after column in, as the Rust original has them out.
use crate::{
    factorize_gram_schmidt_q_len, factorize_gram_schmidt_r_len, factorize_gram_schmidt_scratch_len, ffi, numbers_of, numbers_of_mut,
    refusal::answered, row_mut, svd_jacobi_into, svd_jacobi_scratch_len, svd_jacobi_u_len, svd_jacobi_values, svd_jacobi_vt_len, Complex, Refusal,
    Sweeps,
};

/// A = U S V†, with k = min(m, n), as [`svd_jacobi`] gives it. Where `quiet` is false the work was given up after 100 sweeps, and the
/// factors are what these left.
///
/// ```
/// use zegrafult::{svd_jacobi, Complex};
///
/// // 3 by 2, column-major: U is 3 by 2, V† 2 by 2
/// let svd = svd_jacobi(&[0.0, 2.0, 0.0, 0.0, 0.0, 1.0].map(Complex::real), 3, 2)?;
/// assert_eq!((svd.u.len(), svd.s.len(), svd.vt.len()), (6, 2, 4));
/// assert_eq!((svd.u[1], svd.s[0], svd.vt[0]), (Complex::real(1.0), 2.0, Complex::real(1.0)));
/// # Ok::<(), zegrafult::Refusal>(())
/// ```
#[derive(Clone, Debug, PartialEq)]
pub struct Svd {
    /// U, m by k, column-major.
    pub u: Vec<Complex>,
    /// The k singular values, falling.
    pub s: Vec<f64>,
    /// V†, k by n, row-major.
    pub vt: Vec<Complex>,
    /// How many sweeps were begun, the quiet one included.
    pub sweeps: usize,
    /// Whether the last sweep turned no pair.
    pub quiet: bool,
    /// How many pairs were turned in all.
    pub turned: usize,
}

/// The SVD of a matrix of m by n cells, column-major, by one-sided Jacobi: 100 sweeps at most. Refused by 1, 6, 7, 9.
///
/// ```
/// use zegrafult::{svd_jacobi, Complex};
///
/// let svd = svd_jacobi(&[3.0, 0.0, 0.0, 4.0].map(Complex::real), 2, 2)?;
/// assert_eq!(svd.s, [4.0, 3.0]);
/// assert_eq!((svd.sweeps, svd.quiet), (1, true));
/// # Ok::<(), zegrafult::Refusal>(())
/// ```
pub fn svd_jacobi(a: &[Complex], m: usize, n: usize) -> Result<Svd, Refusal> {
    let mut u = vec![Complex::default(); svd_jacobi_u_len(m, n)];
    let mut s = vec![0.0; svd_jacobi_values(m, n)];
    let mut vt = vec![Complex::default(); svd_jacobi_vt_len(m, n)];
    let mut scratch = vec![0.0; svd_jacobi_scratch_len(m, n)];
    let Sweeps { sweeps, quiet, turned } = svd_jacobi_into(a, m, n, &mut u, &mut s, &mut vt, &mut scratch)?;
    Ok(Svd { u, s, vt, sweeps, quiet, turned })
}

/// A = Q R with orthonormal columns of Q, as many as the rank, as [`factorize_gram_schmidt`] gives it.
///
/// ```
/// use zegrafult::{factorize_gram_schmidt, Complex};
///
/// let qr = factorize_gram_schmidt(&[0.0, 2.0, 5.0, 0.0].map(Complex::real), 2, 2)?;
/// assert_eq!(qr.rank, 2);
/// assert_eq!(qr.q, [0.0, 1.0, 1.0, 0.0].map(Complex::real));
/// assert_eq!(qr.r, [2.0, 0.0, 0.0, 5.0].map(Complex::real));
/// # Ok::<(), zegrafult::Refusal>(())
/// ```
#[derive(Clone, Debug, PartialEq)]
pub struct ThinQr {
    /// How many columns are independent.
    pub rank: usize,
    /// Q, rows by min(rows, cols), column-major; +0.0 past the rank.
    pub q: Vec<Complex>,
    /// R, min(rows, cols) by cols, row-major; +0.0 past the rank.
    pub r: Vec<Complex>,
}

/// The thin QR of a matrix of rows by cols cells, column-major, by modified Gram-Schmidt. Refused by 1, 6, 7, 9.
///
/// ```
/// use zegrafult::{factorize_gram_schmidt, Complex};
///
/// let qr = factorize_gram_schmidt(&[2.0, 0.0, 4.0, 0.0].map(Complex::real), 2, 2)?;
/// assert_eq!(qr.rank, 1);
/// # Ok::<(), zegrafult::Refusal>(())
/// ```
pub fn factorize_gram_schmidt(a: &[Complex], rows: usize, cols: usize) -> Result<ThinQr, Refusal> {
    let mut q = vec![Complex::default(); factorize_gram_schmidt_q_len(rows, cols)];
    let mut r = vec![Complex::default(); factorize_gram_schmidt_r_len(rows, cols)];
    let mut scratch = vec![0.0; factorize_gram_schmidt_scratch_len(rows, cols)];
    let rank = factorize_gram_schmidt_into(a, rows, cols, &mut q, &mut r, &mut scratch)?;
    Ok(ThinQr { rank, q, r })
}

/// [`factorize_gram_schmidt`] into lent buffers: the rank. A buffer that is too short is refused by 6 with its number: a 0, q 1, r 2,
/// scratch 3.
///
/// ```
/// use zegrafult::*;
///
/// let a = [2.0, 0.0, 4.0, 0.0].map(Complex::real);
/// let mut q = vec![Complex::default(); factorize_gram_schmidt_q_len(2, 2)];
/// let mut r = vec![Complex::default(); factorize_gram_schmidt_r_len(2, 2)];
/// let mut scratch = vec![0.0; factorize_gram_schmidt_scratch_len(2, 2)];
/// assert_eq!(factorize_gram_schmidt_into(&a, 2, 2, &mut q, &mut r, &mut scratch), Ok(1));
/// assert_eq!((q[0], r[0], r[1]), (Complex::real(1.0), Complex::real(2.0), Complex::real(4.0)));
/// assert_eq!(factorize_gram_schmidt_into(&a, 2, 2, &mut q, &mut r[1..], &mut scratch), Err(Refusal::Length(2)));
/// ```
pub fn factorize_gram_schmidt_into(
    a: &[Complex],
    rows: usize,
    cols: usize,
    q: &mut [Complex],
    r: &mut [Complex],
    scratch: &mut [f64],
) -> Result<usize, Refusal> {
    let (mut place, mut rank) = (0, 0);
    let (a, a_len) = numbers_of(a);
    let ((q, q_len), (r, r_len)) = (numbers_of_mut(q), numbers_of_mut(r));
    let (scratch, scratch_len) = row_mut(scratch);
    // SAFETY: each pointer is to a borrowed slice of the length behind it; what is written overlaps nothing else that is lent.
    let number = unsafe {
        ffi::zg_factorize_gram_schmidt(
            a, a_len, rows, cols, q, q_len, r, r_len, scratch, scratch_len, &mut place, &mut rank,
        )
    };
    answered(number, place, rank)
}

/// What [`countersign`] found: that all holds, or the first test that fails, with its first failing cell.
///
/// ```
/// use zegrafult::{countersign, Complex, Finding};
///
/// let one = [Complex::real(1.0)];
/// assert_eq!(countersign(&one, 1, 1, &one, &[1.0], &one, 0), Ok(Finding::Yes));
/// assert_eq!(countersign(&one, 1, 1, &one, &[0.5], &one, 0), Ok(Finding::Product(0)));
/// ```
#[derive(Clone, Copy, Debug, PartialEq, Eq, Hash)]
pub enum Finding {
    /// All holds.
    Yes,
    /// The product misses this cell of A, column-major.
    Product(usize),
    /// U†U misses the identity at this cell, k by k.
    Left(usize),
    /// V†V misses the identity at this cell, k by k.
    Right(usize),
    /// This value of S is below zero or above the one before it.
    Values(usize),
}

/// Whether a is U·S·V† within the tolerance in each part, both sets of vectors are orthonormal within it, and S
/// never rises and never goes below zero. a is m by n, column-major; u m by k, column-major; vt k by n, row-major;
/// k = min(m, n), at most 16. Every number is a whole number of 2^-18 of magnitude at most 1. The tolerance is a
/// whole number of 2^-54. All sums are exact.
///
/// ```
/// use zegrafult::{countersign, Complex, Finding};
///
/// let a = [0.5, 0.0, 0.0, 0.25].map(Complex::real);
/// let unit = [1.0, 0.0, 0.0, 1.0].map(Complex::real);
/// assert_eq!(countersign(&a, 2, 2, &unit, &[0.5, 0.25], &unit, 0)?, Finding::Yes);
/// assert_eq!(countersign(&a, 2, 2, &unit, &[0.5, 0.5], &unit, 1)?, Finding::Product(3));
/// assert_eq!(countersign(&a, 2, 2, &unit, &[0.5, 0.1], &unit, 0), Err(zegrafult::Refusal::OffGrid(1)));
/// # Ok::<(), zegrafult::Refusal>(())
/// ```
pub fn countersign(
    a: &[Complex],
    m: usize,
    n: usize,
    u: &[Complex],
    s: &[f64],
    vt: &[Complex],
    tolerance: u64,
) -> Result<Finding, Refusal> {
    let (mut place, mut yes, mut test, mut cell) = (0, false, 0, 0);
    let (a, a_len) = numbers_of(a);
    let (u, u_len) = numbers_of(u);
    let (vt, vt_len) = numbers_of(vt);
    // SAFETY: each pointer is to a borrowed slice of the length behind it; what is written overlaps nothing else that is lent.
    let number = unsafe {
        ffi::zg_countersign(
            a,
            a_len,
            m,
            n,
            u,
            u_len,
            s.as_ptr(),
            s.len(),
            vt,
            vt_len,
            tolerance,
            &mut place,
            &mut yes,
            &mut test,
            &mut cell,
        )
    };
    let finding = match (yes, test) {
        (true, _) => Finding::Yes,
        (false, 1) => Finding::Product(cell),
        (false, 2) => Finding::Left(cell),
        (false, 3) => Finding::Right(cell),
        (false, _) => Finding::Values(cell),
    };
    answered(number, place, finding)
}
