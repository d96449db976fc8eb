//! The two largest calls on lent buffers, so that a host which calls them often allocates once; and how long these must be. The others
//! stand beside the calls that allocate, and their lengths in `sizes`.
use crate::{area, ffi, numbers_of, numbers_of_mut, power, refusal::answered, Complex, Refusal};

/// The largest cap that counts.
///
/// ```
/// use zegrafult::{row_offsets, CAP};
///
/// assert_eq!(row_offsets(&[0], 12, CAP), row_offsets(&[0], 12, usize::MAX));
/// ```
pub const CAP: usize = 13;
/// The most qubits of a register.
///
/// ```
/// use zegrafult::{validate_qubit_set, Refusal, QUBITS};
///
/// assert_eq!(validate_qubit_set(&[0], QUBITS), Ok(()));
/// assert_eq!(validate_qubit_set(&[0], QUBITS + 1), Err(Refusal::Size));
/// ```
pub const QUBITS: usize = 12;

/// The sweeps of a factorisation: how many were begun, the quiet one included, whether the last turned no pair, and how many pairs were
/// turned in all.
///
/// ```
/// use zegrafult::{hermitian_eigenvalues_into, Complex, Sweeps};
///
/// let (mut out, mut scratch) = ([0.0], [0.0; 2]);
/// let found = hermitian_eigenvalues_into(&[Complex::real(5.0)], 1, &mut out, &mut scratch);
/// assert_eq!(found, Ok(Sweeps { sweeps: 1, quiet: true, turned: 0 }));
/// ```
#[derive(Clone, Copy, Debug, PartialEq, Eq)]
pub struct Sweeps {
    /// How many were begun.
    pub sweeps: usize,
    /// Whether the last turned no pair.
    pub quiet: bool,
    /// How many pairs were turned.
    pub turned: usize,
}

/// k = min(m, n) where a matrix may be m by n, else 0: the values of [`svd_jacobi_into`]; U has m·k cells, V† k·n.
///
/// ```
/// assert_eq!(zegrafult::svd_jacobi_values(4, 2), 2);
/// ```
pub fn svd_jacobi_values(m: usize, n: usize) -> usize {
    if area(m, n) == 0 {
        0
    } else {
        m.min(n)
    }
}

/// The numbers of scratch of [`svd_jacobi_into`].
///
/// ```
/// assert_eq!(zegrafult::svd_jacobi_scratch_len(4, 2), 52);
/// ```
pub fn svd_jacobi_scratch_len(m: usize, n: usize) -> usize {
    6 * area(m, n) + 2 * svd_jacobi_values(m, n)
}

/// [`crate::svd_jacobi`] into lent buffers: U m by k, column-major, S falling, V† k by n, row-major. Buffers may be longer than needed;
/// what is past the need is not touched. A buffer that is too short is refused by 6 with its number: a 0, u 1, s 2, vt 3, scratch 4.
///
/// ```
/// use zegrafult::{svd_jacobi_into, svd_jacobi_scratch_len, Complex};
///
/// let a = [3.0, 0.0, 0.0, 4.0].map(Complex::real);
/// let (mut u, mut s, mut vt) = ([Complex::default(); 4], [0.0; 2], [Complex::default(); 4]);
/// let mut scratch = vec![0.0; svd_jacobi_scratch_len(2, 2)];
/// let sweeps = svd_jacobi_into(&a, 2, 2, &mut u, &mut s, &mut vt, &mut scratch)?;
/// assert_eq!((s, sweeps.quiet), ([4.0, 3.0], true));
/// let short = svd_jacobi_into(&a, 2, 2, &mut u, &mut s, &mut vt, &mut scratch[1..]).unwrap_err();
/// assert_eq!(short, zegrafult::Refusal::Length(4));
/// # Ok::<(), zegrafult::Refusal>(())
/// ```
pub fn svd_jacobi_into(
    a: &[Complex],
    m: usize,
    n: usize,
    u: &mut [Complex],
    s: &mut [f64],
    vt: &mut [Complex],
    scratch: &mut [f64],
) -> Result<Sweeps, Refusal> {
    let (mut place, mut sweeps, mut quiet, mut turned) = (0, 0, false, 0);
    let (a, a_len) = numbers_of(a);
    let (u, u_len) = numbers_of_mut(u);
    let (vt, vt_len) = numbers_of_mut(vt);
    let (s, s_len) = (s.as_mut_ptr(), s.len());
    let (scratch, scratch_len) = (scratch.as_mut_ptr(), scratch.len());
    // SAFETY: each pointer is to a borrowed slice of the length behind it; what is written overlaps nothing else that is lent.
    let number = unsafe {
        ffi::zg_svd_jacobi(
            a, a_len, m, n, u, u_len, s, s_len, vt, vt_len, scratch, scratch_len, &mut place, &mut sweeps, &mut quiet, &mut turned,
        )
    };
    answered(number, place, Sweeps { sweeps, quiet, turned })
}

/// The numbers of the output of [`dense_schmidt_values_into`] for k listed qubits of n.
///
/// ```
/// assert_eq!(zegrafult::dense_schmidt_values_out_len(4, 3), 2);
/// ```
pub fn dense_schmidt_values_out_len(n: usize, k: usize) -> usize {
    power(k.min(n.saturating_sub(k)))
}

/// The numbers of scratch of [`dense_schmidt_values_into`] for k listed qubits of n.
///
/// ```
/// assert_eq!(zegrafult::dense_schmidt_values_scratch_len(4, 3), 132);
/// ```
pub fn dense_schmidt_values_scratch_len(n: usize, k: usize) -> usize {
    8 * power(n) + 2 * dense_schmidt_values_out_len(n, k)
}

/// [`crate::dense_schmidt_values`] into lent buffers: how many values are left, which stand first in `out`, and the sweeps. A buffer that is
/// too short is refused by 6 with its number: state 0, list 1, out 2, scratch 3.
///
/// ```
/// use zegrafult::{dense_schmidt_values_into, dense_schmidt_values_out_len, dense_schmidt_values_scratch_len, Complex, CAP};
///
/// let state = [1.0, 0.0, 0.0, 1.0].map(Complex::real);
/// let mut out = vec![0.0; dense_schmidt_values_out_len(2, 1)];
/// let mut scratch = vec![0.0; dense_schmidt_values_scratch_len(2, 1)];
/// let (count, sweeps, _exact) = dense_schmidt_values_into(&state, 2, &[0], CAP, &mut out, &mut scratch)?;
/// assert_eq!((count, out[0] == out[1], sweeps.sweeps), (2, true, 1));
/// let short = dense_schmidt_values_into(&state, 2, &[0], CAP, &mut out[1..], &mut scratch).unwrap_err();
/// assert_eq!(short, zegrafult::Refusal::Length(2));
/// # Ok::<(), zegrafult::Refusal>(())
/// ```
pub fn dense_schmidt_values_into(
    state: &[Complex],
    n: usize,
    list: &[usize],
    cap: usize,
    out: &mut [f64],
    scratch: &mut [f64],
) -> Result<(usize, Sweeps, bool), Refusal> {
    let (mut place, mut count, mut sweeps, mut quiet, mut turned, mut exact) = (0, 0, 0, false, 0, false);
    let (state, state_len) = numbers_of(state);
    let (list, list_len) = (list.as_ptr(), list.len());
    let (out, out_len) = (out.as_mut_ptr(), out.len());
    let (scratch, scratch_len) = (scratch.as_mut_ptr(), scratch.len());
    // SAFETY: each pointer is to a borrowed slice of the length behind it; what is written overlaps nothing else that is lent.
    let number = unsafe {
        ffi::zg_dense_schmidt_values(
            state, state_len, n, list, list_len, cap, out, out_len, scratch, scratch_len, &mut place, &mut count, &mut sweeps,
            &mut quiet, &mut turned, &mut exact,
        )
    };
    answered(number, place, (count, Sweeps { sweeps, quiet, turned }, exact))
}
