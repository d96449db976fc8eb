//! Density matrices: square, row-major.
use crate::{
    dense_reduced_density_out_len, dense_reduced_density_scratch_len, density_from_cut_out_len, ffi, numbers_of, numbers_of_mut, refusal::answered,
    row, row_mut, Complex, Refusal,
};

/// The unscaled reduced density matrix of the listed qubits, 2^k by 2^k. A zero state and the whole register are
/// accepted.
///
/// ```
/// use zegrafult::{dense_reduced_density, Complex};
///
/// let state: Vec<Complex> = [3.0, 0.0, 0.0, 4.0].map(Complex::real).into();
/// let rho = dense_reduced_density(&state, 2, &[0], 13)?;
/// assert_eq!(rho.iter().map(|z| z.re).collect::<Vec<_>>(), [9.0, 0.0, 0.0, 16.0]);
/// # Ok::<(), zegrafult::Refusal>(())
/// ```
pub fn dense_reduced_density(
    state: &[Complex],
    n: usize,
    list: &[usize],
    cap: usize,
) -> Result<Vec<Complex>, Refusal> {
    let mut out = vec![Complex::default(); dense_reduced_density_out_len(list.len())];
    let mut scratch = vec![0.0; dense_reduced_density_scratch_len(list.len())];
    dense_reduced_density_into(state, n, list, cap, &mut out, &mut scratch)?;
    Ok(out)
}

/// [`dense_reduced_density`] into lent buffers. A buffer that is too short is refused by 6 with its number: state 0, list 1, out 2,
/// scratch 3.
///
/// ```
/// use zegrafult::*;
///
/// let state = [3.0, 0.0, 0.0, 4.0].map(Complex::real);
/// let mut out = vec![Complex::default(); dense_reduced_density_out_len(1)];
/// let mut scratch = vec![0.0; dense_reduced_density_scratch_len(1)];
/// dense_reduced_density_into(&state, 2, &[0], CAP, &mut out, &mut scratch)?;
/// assert_eq!(out, dense_reduced_density(&state, 2, &[0], CAP)?);
/// assert_eq!(dense_reduced_density_into(&state, 2, &[0], CAP, &mut out, &mut scratch[1..]), Err(Refusal::Length(3)));
/// # Ok::<(), Refusal>(())
/// ```
pub fn dense_reduced_density_into(
    state: &[Complex],
    n: usize,
    list: &[usize],
    cap: usize,
    out: &mut [Complex],
    scratch: &mut [f64],
) -> Result<(), Refusal> {
    let mut place = 0;
    let (state, state_len) = numbers_of(state);
    let (list, list_len) = row(list);
    let (out, out_len) = numbers_of_mut(out);
    let (scratch, scratch_len) = row_mut(scratch);
    // SAFETY: each pointer is to a borrowed slice of the length behind it; what is written overlaps nothing else that is lent.
    let number = unsafe {
        ffi::zg_dense_reduced_density(
            state, state_len, n, list, list_len, cap, out, out_len, scratch, scratch_len, &mut place,
        )
    };
    answered(number, place, ())
}

/// The same matrix, bit for bit, from the cut matrix that [`crate::cut_matrix`] gives for this list.
///
/// ```
/// use zegrafult::{cut_matrix, dense_reduced_density, density_from_cut, Complex};
///
/// let state: Vec<Complex> = (0..8).map(|i| Complex::new(i as f64, 1.0)).collect();
/// let cut = cut_matrix(&state, 3, &[2, 0], 13)?;
/// assert_eq!(density_from_cut(&cut.cells, 3, &[2, 0], 13)?, dense_reduced_density(&state, 3, &[2, 0], 13)?);
/// # Ok::<(), zegrafult::Refusal>(())
/// ```
pub fn density_from_cut(matrix: &[Complex], n: usize, list: &[usize], cap: usize) -> Result<Vec<Complex>, Refusal> {
    let mut out = vec![Complex::default(); density_from_cut_out_len(list.len())];
    density_from_cut_into(matrix, n, list, cap, &mut out)?;
    Ok(out)
}

/// [`density_from_cut`] into a lent buffer. One that is too short is refused by 6 with its number: matrix 0, list 1, out 2.
///
/// ```
/// use zegrafult::*;
///
/// let state = [3.0, 0.0, 0.0, 4.0].map(Complex::real);
/// let cut = cut_matrix(&state, 2, &[0], CAP)?;
/// let mut out = vec![Complex::default(); density_from_cut_out_len(1)];
/// density_from_cut_into(&cut.cells, 2, &[0], CAP, &mut out)?;
/// assert_eq!(out, dense_reduced_density(&state, 2, &[0], CAP)?);
/// # Ok::<(), Refusal>(())
/// ```
pub fn density_from_cut_into(
    matrix: &[Complex],
    n: usize,
    list: &[usize],
    cap: usize,
    out: &mut [Complex],
) -> Result<(), Refusal> {
    let mut place = 0;
    let (matrix, matrix_len) = numbers_of(matrix);
    let (list, list_len) = row(list);
    let (out, out_len) = numbers_of_mut(out);
    // SAFETY: each pointer is to a borrowed slice of the length behind it; what is written overlaps nothing else that is lent.
    let number = unsafe { ffi::zg_density_from_cut(matrix, matrix_len, n, list, list_len, cap, out, out_len, &mut place) };
    answered(number, place, ())
}

/// Whether the density and the one from the cut matrix alone have the same bits: yes for every state that is not refused.
///
/// ```
/// use zegrafult::{pages_agree, Complex};
///
/// let state: Vec<Complex> = (0..8).map(|i| Complex::new(i as f64, -1.0)).collect();
/// assert_eq!(pages_agree(&state, 3, &[2, 0], 13), Ok(true));
/// ```
pub fn pages_agree(state: &[Complex], n: usize, list: &[usize], cap: usize) -> Result<bool, Refusal> {
    let (mut place, mut yes) = (0, false);
    let (s, s_len) = numbers_of(state);
    // SAFETY: each pointer is to a borrowed slice of the length behind it; what is written overlaps nothing else that is lent.
    let number = unsafe { ffi::zg_pages_agree(s, s_len, n, list.as_ptr(), list.len(), cap, &mut place, &mut yes) };
    answered(number, place, yes)
}

/// The upper half becomes the conjugate of the lower.
///
/// ```
/// use zegrafult::{mirror_lower_triangle, Complex};
///
/// let mut rho = [Complex::real(1.0), Complex::real(9.0), Complex::new(2.0, 3.0), Complex::real(4.0)];
/// mirror_lower_triangle(&mut rho, 2)?;
/// assert_eq!(rho[1], Complex::new(2.0, -3.0));
/// # Ok::<(), zegrafult::Refusal>(())
/// ```
pub fn mirror_lower_triangle(rho: &mut [Complex], dim: usize) -> Result<(), Refusal> {
    let mut place = 0;
    let (r, r_len) = numbers_of_mut(rho);
    // SAFETY: each pointer is to a borrowed slice of the length behind it; what is written overlaps nothing else that is lent.
    let number = unsafe { ffi::zg_mirror_lower_triangle(r, r_len, dim, &mut place) };
    answered(number, place, ())
}

/// Each cell times 1/trace. A zero trace gives 8, a result that is not finite 9; the matrix is then as it was.
///
/// ```
/// use zegrafult::{normalize_trace, Complex, Refusal};
///
/// let mut rho = [1.0, 0.0, 0.0, 3.0].map(Complex::real);
/// normalize_trace(&mut rho, 2)?;
/// assert_eq!(rho, [0.25, 0.0, 0.0, 0.75].map(Complex::real));
/// assert_eq!(normalize_trace(&mut [Complex::default()], 1), Err(Refusal::NoWeight));
/// # Ok::<(), Refusal>(())
/// ```
pub fn normalize_trace(rho: &mut [Complex], dim: usize) -> Result<(), Refusal> {
    let mut place = 0;
    let (r, r_len) = numbers_of_mut(rho);
    // SAFETY: each pointer is to a borrowed slice of the length behind it; what is written overlaps nothing else that is lent.
    let number = unsafe { ffi::zg_normalize_trace(r, r_len, dim, &mut place) };
    answered(number, place, ())
}

/// Each cell times the factor's cell at the bits that stand at the positions.
///
/// ```
/// use zegrafult::{multiply_block_factor, Complex};
///
/// let mut rho = [1.0, 1.0, 1.0, 1.0].map(Complex::real);
/// multiply_block_factor(&mut rho, 2, &[0], &[1.0, 0.5, 0.5, 1.0].map(Complex::real), 2)?;
/// assert_eq!(rho, [1.0, 0.5, 0.5, 1.0].map(Complex::real));
/// # Ok::<(), zegrafult::Refusal>(())
/// ```
pub fn multiply_block_factor(
    rho: &mut [Complex],
    dim: usize,
    positions: &[usize],
    factor: &[Complex],
    side: usize,
) -> Result<(), Refusal> {
    let mut place = 0;
    let (r, r_len) = numbers_of_mut(rho);
    let (f, f_len) = numbers_of(factor);
    // SAFETY: each pointer is to a borrowed slice of the length behind it; what is written overlaps nothing else that is lent.
    let number = unsafe {
        ffi::zg_multiply_block_factor(r, r_len, dim, positions.as_ptr(), positions.len(), f, f_len, side, &mut place)
    };
    answered(number, place, ())
}
