//! Schmidt values and spectra.
use crate::{
    cut_profile_cuts, cut_profile_header_len, cut_profile_marks_len, cut_profile_scratch_len, cut_profile_values_len, dense_schmidt_values_into,
    dense_schmidt_values_out_len, dense_schmidt_values_scratch_len, entropy_band_bands_len, entropy_band_scratch_len, ffi,
    finish_schmidt_values_out_len, hermitian_eigen_scratch_len, hermitian_eigen_values_len, hermitian_eigen_vectors_len,
    hermitian_eigenvalues_out_len, hermitian_eigenvalues_scratch_len, numbers_of, numbers_of_mut, refusal::answered, row, row_mut,
    schmidt_values_from_density_out_len, schmidt_values_from_density_scratch_len, Complex, Refusal, Sweeps,
};

/// Values and the sweeps that gave them. Where `quiet` is false the work was given up at its cap, and the values are what the sweeps left.
///
/// ```
/// use zegrafult::{hermitian_eigenvalues, Complex, Swept};
///
/// let found = hermitian_eigenvalues(&[Complex::real(5.0)], 1)?;
/// assert_eq!(found, Swept { values: vec![5.0], sweeps: 1, quiet: true, turned: 0 });
/// # Ok::<(), zegrafult::Refusal>(())
/// ```
#[derive(Clone, Debug, PartialEq)]
pub struct Swept {
    /// The values.
    pub values: Vec<f64>,
    /// How many sweeps were begun, the quiet one included.
    pub sweeps: usize,
    /// Whether the last sweep turned no pair.
    pub quiet: bool,
    /// How many pairs were turned in all.
    pub turned: usize,
}

/// The values of a cut, the sweeps that gave them as in [`Swept`], and whether every root on the way came out even.
///
/// ```
/// use zegrafult::{dense_schmidt_values, Complex};
///
/// let found = dense_schmidt_values(&[0.5, 0.5, 0.5, -0.5].map(Complex::real), 2, &[0], 13)?;
/// assert_eq!((found.values.len(), found.quiet), (2, true));
/// # Ok::<(), zegrafult::Refusal>(())
/// ```
#[derive(Clone, Debug, PartialEq)]
pub struct CutValues {
    /// The values, falling.
    pub values: Vec<f64>,
    /// How many sweeps were begun, the quiet one included.
    pub sweeps: usize,
    /// Whether the last sweep turned no pair.
    pub quiet: bool,
    /// How many pairs were turned in all.
    pub turned: usize,
    /// Whether the root of every column's norm, of those that the floor drops too, and the root of the final scale came out even.
    pub exact: bool,
}

/// The Schmidt values of the cut between the listed qubits and the rest, falling, their squares summing to 1: the
/// singular values of [`crate::cut_matrix`], finished as by [`finish_schmidt_values`]. At most 100 sweeps.
///
/// ```
/// use zegrafult::{dense_schmidt_values, Complex, Refusal};
///
/// let state = [3.0, 0.0, 0.0, 4.0].map(Complex::real);
/// assert_eq!(dense_schmidt_values(&state, 2, &[1], 13)?.values, [0.8, 0.6000000000000001]);
/// assert_eq!(dense_schmidt_values(&[Complex::default(); 4], 2, &[1], 13), Err(Refusal::NoWeight));
/// # Ok::<(), Refusal>(())
/// ```
pub fn dense_schmidt_values(state: &[Complex], n: usize, list: &[usize], cap: usize) -> Result<CutValues, Refusal> {
    let mut out = vec![0.0; dense_schmidt_values_out_len(n, list.len())];
    let mut scratch = vec![0.0; dense_schmidt_values_scratch_len(n, list.len())];
    let (count, Sweeps { sweeps, quiet, turned }, exact) = dense_schmidt_values_into(state, n, list, cap, &mut out, &mut scratch)?;
    out.truncate(count);
    Ok(CutValues { values: out, sweeps, quiet, turned, exact })
}

/// All cuts of a chain on one page, cut j the qubits 0..j against the rest, as [`cut_profile`] gives it.
///
/// ```
/// use zegrafult::{cut_profile, dense_schmidt_values, Complex};
///
/// let state: Vec<Complex> = (0..8).map(|i| Complex::new(i as f64, 1.0)).collect();
/// let page = cut_profile(&state, 3, 13)?;
/// assert_eq!(page.cuts[1], dense_schmidt_values(&state, 3, &[0, 1], 13)?);
/// # Ok::<(), zegrafult::Refusal>(())
/// ```
#[derive(Clone, Debug, PartialEq)]
pub struct Profile {
    /// The kept values of each cut, and what goes with them, as [`dense_schmidt_values`] has them for the list 0..j.
    pub cuts: Vec<CutValues>,
    /// The largest value of each cut, which is its first.
    pub largest: Vec<f64>,
    /// The rank of each cut: how many values it keeps.
    pub ranks: Vec<usize>,
}

/// The page of the n - 1 cuts of a state. One cut's refusal is the page's, the lowest j first; a register of one qubit is refused
/// by 5.
///
/// ```
/// use zegrafult::{cut_profile, Complex};
/// let half = Complex { re: 1.0, im: 0.0 };
/// let none = Complex { re: 0.0, im: 0.0 };
/// let page = cut_profile(&[half, none, none, none, none, none, none, half], 3, 13)?;
/// assert_eq!(page.ranks, [2, 2]);
/// assert_eq!(page.largest, [page.cuts[0].values[0], page.cuts[1].values[0]]);
/// # Ok::<(), zegrafult::Refusal>(())
/// ```
pub fn cut_profile(state: &[Complex], n: usize, cap: usize) -> Result<Profile, Refusal> {
    let cuts = cut_profile_cuts(n);
    let (mut header, mut values) = (vec![0; cut_profile_header_len(n)], vec![0.0; cut_profile_values_len(n)]);
    let (mut largest, mut ranks, mut marks) = (vec![0.0; cuts], vec![0; cuts], vec![0; cut_profile_marks_len(n)]);
    let mut scratch = vec![0.0; cut_profile_scratch_len(n)];
    cut_profile_into(state, n, cap, &mut header, &mut values, &mut largest, &mut ranks, &mut marks, &mut scratch)?;
    let cut = |j: usize| CutValues {
        values: values[header[2 * j + 1]..][..header[2 * j]].to_vec(),
        sweeps: marks[4 * j],
        quiet: marks[4 * j + 1] == 1,
        turned: marks[4 * j + 2],
        exact: marks[4 * j + 3] == 1,
    };
    Ok(Profile { cuts: (0..cuts).map(cut).collect(), largest, ranks })
}

/// [`cut_profile`] into lent buffers. Of cut j, header\[2j\] is the count of values and header\[2j + 1\] where they begin in `values`;
/// largest\[j\] is the first of them, ranks\[j\] their count; marks\[4j\] and the three behind it are the sweeps begun, 1 where the last was
/// quiet, the turned pairs, 1 where every root came out even. A buffer that is too short is refused by 6 with its number, from state 0
/// to scratch 6.
///
/// ```
/// use zegrafult::*;
///
/// let state = [1.0, 0.0, 0.0, 1.0].map(Complex::real);
/// let (mut header, mut values) = (vec![0; cut_profile_header_len(2)], vec![0.0; cut_profile_values_len(2)]);
/// let (mut largest, mut ranks, mut marks) = ([0.0], [0], vec![0; cut_profile_marks_len(2)]);
/// let mut scratch = vec![0.0; cut_profile_scratch_len(2)];
/// cut_profile_into(&state, 2, CAP, &mut header, &mut values, &mut largest, &mut ranks, &mut marks, &mut scratch)?;
/// assert_eq!((header, ranks, largest[0] == values[0]), (vec![2, 0], [2], true));
/// # Ok::<(), Refusal>(())
/// ```
#[allow(clippy::too_many_arguments)]
pub fn cut_profile_into(
    state: &[Complex],
    n: usize,
    cap: usize,
    header: &mut [usize],
    values: &mut [f64],
    largest: &mut [f64],
    ranks: &mut [usize],
    marks: &mut [usize],
    scratch: &mut [f64],
) -> Result<(), Refusal> {
    let mut place = 0;
    let (state, state_len) = numbers_of(state);
    let ((header, header_len), (values, values_len), (largest, largest_len)) = (row_mut(header), row_mut(values), row_mut(largest));
    let ((ranks, ranks_len), (marks, marks_len), (scratch, scratch_len)) = (row_mut(ranks), row_mut(marks), row_mut(scratch));
    // SAFETY: each pointer is to a borrowed slice of the length behind it; what is written overlaps nothing else that is lent.
    let number = unsafe {
        ffi::zg_cut_profile(
            state, state_len, n, cap, header, header_len, values, values_len, largest, largest_len, ranks, ranks_len, marks, marks_len,
            scratch, scratch_len, &mut place,
        )
    };
    answered(number, place, ())
}

/// A weight of an entropy's band, and its ends: 2^lo·w^4096 ≤ W^4096 ≤ 2^hi·w^4096, W the sum of the weights.
///
/// ```
/// use zegrafult::{entropy_band, Band, Complex};
///
/// let found = entropy_band(&[0.5, 0.5, 0.5, -0.5].map(Complex::real), 2, &[0], 13)?;
/// assert_eq!(found.bands[0], Band { weight: found.bands[1].weight, lo: 4096, hi: 4096 });
/// # Ok::<(), zegrafult::Refusal>(())
/// ```
#[derive(Clone, Copy, Debug, PartialEq, Eq)]
pub struct Band {
    /// w, the floor of the value's exact square times 2^24.
    pub weight: usize,
    /// The lower end, in 4096ths of a bit.
    pub lo: usize,
    /// The upper end.
    pub hi: usize,
}

/// The entropy of a cut as a band, as [`entropy_band`] gives it. In bits it lies from `low` / `whole` to `high` / `whole`.
///
/// ```
/// use zegrafult::{entropy_band, Complex};
///
/// let product = entropy_band(&[1.0, 0.0, 0.0, 0.0].map(Complex::real), 2, &[0], 13)?;
/// assert_eq!((product.bands.len(), product.low, product.high), (1, 0, 0));
/// # Ok::<(), zegrafult::Refusal>(())
/// ```
#[derive(Clone, Debug, PartialEq, Eq)]
pub struct Entropy {
    /// The weights left, falling.
    pub bands: Vec<Band>,
    /// The sum of w·lo.
    pub low: u64,
    /// The sum of w·hi.
    pub high: u64,
    /// 4096·W.
    pub whole: u64,
    /// How many sweeps were begun, the quiet one included.
    pub sweeps: usize,
    /// Whether the last sweep turned no pair.
    pub quiet: bool,
    /// How many pairs were turned in all.
    pub turned: usize,
}

/// What [`entropy_band_into`] hands back beside the bands.
///
/// ```
/// use zegrafult::*;
///
/// let state = [1.0, 0.0, 0.0, 0.0].map(Complex::real);
/// let (mut bands, mut scratch) = ([0; 6], vec![0.0; entropy_band_scratch_len(2, 1)]);
/// let sums = entropy_band_into(&state, 2, &[0], CAP, &mut bands, &mut scratch)?;
/// assert_eq!((sums.count, sums.low, sums.high, sums.whole), (1, 0, 0, 4096 << 24));
/// # Ok::<(), Refusal>(())
/// ```
#[derive(Clone, Copy, Debug, PartialEq, Eq)]
pub struct EntropySums {
    /// How many weights are left.
    pub count: usize,
    /// The sum of w·lo.
    pub low: u64,
    /// The sum of w·hi.
    pub high: u64,
    /// 4096·W.
    pub whole: u64,
    /// The sweeps of the SVD.
    pub sweeps: Sweeps,
}

/// The entropy of the cut's Schmidt values as whole numbers; a weight is the floor of a value's exact square times 2^24.
///
/// ```
/// use zegrafult::{entropy_band, Complex};
/// let half = Complex { re: 0.5, im: 0.0 };
/// let found = entropy_band(&[half, half, half, Complex { re: -0.5, im: 0.0 }], 2, &[0], 13)?;
/// assert_eq!((found.low, found.high), (found.whole, found.whole)); // one bit
/// # Ok::<(), zegrafult::Refusal>(())
/// ```
pub fn entropy_band(state: &[Complex], n: usize, list: &[usize], cap: usize) -> Result<Entropy, Refusal> {
    let mut cells = vec![0usize; entropy_band_bands_len(n, list.len())];
    let mut scratch = vec![0.0; entropy_band_scratch_len(n, list.len())];
    let EntropySums { count, low, high, whole, sweeps: Sweeps { sweeps, quiet, turned } } =
        entropy_band_into(state, n, list, cap, &mut cells, &mut scratch)?;
    let bands = cells.chunks(3).take(count).map(|c| Band { weight: c[0], lo: c[1], hi: c[2] }).collect();
    Ok(Entropy { bands, low, high, whole, sweeps, quiet, turned })
}

/// [`entropy_band`] into lent buffers: `bands` has w, lo and hi of each weight left, falling. A buffer that is too short is refused by 6
/// with its number: state 0, list 1, bands 2, scratch 3.
///
/// ```
/// use zegrafult::*;
///
/// let state = [0.5, 0.5, 0.5, -0.5].map(Complex::real);
/// let mut bands = vec![0; entropy_band_bands_len(2, 1)];
/// let mut scratch = vec![0.0; entropy_band_scratch_len(2, 1)];
/// let sums = entropy_band_into(&state, 2, &[0], CAP, &mut bands, &mut scratch)?;
/// assert_eq!((sums.count, sums.low), (2, sums.whole)); // one bit
/// assert_eq!((bands[1], bands[2]), (4096, 4096));
/// # Ok::<(), Refusal>(())
/// ```
pub fn entropy_band_into(
    state: &[Complex],
    n: usize,
    list: &[usize],
    cap: usize,
    bands: &mut [usize],
    scratch: &mut [f64],
) -> Result<EntropySums, Refusal> {
    let (mut place, mut count, mut sweeps, mut quiet, mut turned) = (0, 0, 0, false, 0);
    let (mut low, mut high, mut whole) = (0, 0, 0);
    let (state, state_len) = numbers_of(state);
    let (list, list_len) = row(list);
    let ((bands, bands_len), (scratch, scratch_len)) = (row_mut(bands), row_mut(scratch));
    // SAFETY: each pointer is to a borrowed slice of the length behind it; what is written overlaps nothing else that is lent.
    let number = unsafe {
        ffi::zg_entropy_band(
            state, state_len, n, list, list_len, cap, bands, bands_len, scratch, scratch_len, &mut place, &mut count, &mut low,
            &mut high, &mut whole, &mut sweeps, &mut quiet, &mut turned,
        )
    };
    answered(number, place, EntropySums { count, low, high, whole, sweeps: Sweeps { sweeps, quiet, turned } })
}

/// Sorted downward, cut at the floor, scaled to unit length.
///
/// ```
/// assert_eq!(zegrafult::finish_schmidt_values(&[3.0, 4.0, 0.0])?, [0.8, 0.6000000000000001]);
/// # Ok::<(), zegrafult::Refusal>(())
/// ```
pub fn finish_schmidt_values(values: &[f64]) -> Result<Vec<f64>, Refusal> {
    let mut out = vec![0.0; finish_schmidt_values_out_len(values.len())];
    let count = finish_schmidt_values_into(values, &mut out)?;
    out.truncate(count);
    Ok(out)
}

/// [`finish_schmidt_values`] into a lent buffer: how many are left, which stand first in `out`. One that is too short is refused by 6
/// with its number: values 0, out 1.
///
/// ```
/// let mut out = [0.0; 3];
/// assert_eq!(zegrafult::finish_schmidt_values_into(&[3.0, 4.0, 0.0], &mut out), Ok(2));
/// assert_eq!(out, [0.8, 0.6000000000000001, 0.0]);
/// ```
pub fn finish_schmidt_values_into(values: &[f64], out: &mut [f64]) -> Result<usize, Refusal> {
    let (mut place, mut count) = (0, 0);
    let ((values, values_len), (out, out_len)) = (row(values), row_mut(out));
    // SAFETY: each pointer is to a borrowed slice of the length behind it; what is written overlaps nothing else that is lent.
    let number = unsafe { ffi::zg_finish_schmidt_values(values, values_len, out, out_len, &mut place, &mut count) };
    answered(number, place, count)
}

/// The eigenvalues of a Hermitian matrix of side 1 to 64, as the sweeps, at most 60, leave them on the diagonal.
///
/// ```
/// use zegrafult::{hermitian_eigenvalues, Complex};
///
/// let found = hermitian_eigenvalues(&[2.0, 0.0, 0.0, 5.0].map(Complex::real), 2)?;
/// assert_eq!(found.values, [2.0, 5.0]);
/// assert_eq!((found.sweeps, found.quiet), (1, true));
/// # Ok::<(), zegrafult::Refusal>(())
/// ```
pub fn hermitian_eigenvalues(a: &[Complex], dim: usize) -> Result<Swept, Refusal> {
    let mut values = vec![0.0; hermitian_eigenvalues_out_len(dim)];
    let mut scratch = vec![0.0; hermitian_eigenvalues_scratch_len(dim)];
    let Sweeps { sweeps, quiet, turned } = hermitian_eigenvalues_into(a, dim, &mut values, &mut scratch)?;
    Ok(Swept { values, sweeps, quiet, turned })
}

/// [`hermitian_eigenvalues`] into lent buffers. A buffer that is too short is refused by 6 with its number: a 0, out 1, scratch 2.
///
/// ```
/// use zegrafult::*;
///
/// let a = [2.0, 0.0, 0.0, 5.0].map(Complex::real);
/// let (mut out, mut scratch) = ([0.0; 2], vec![0.0; hermitian_eigenvalues_scratch_len(2)]);
/// hermitian_eigenvalues_into(&a, 2, &mut out, &mut scratch)?;
/// assert_eq!(out, [2.0, 5.0]);
/// assert_eq!(hermitian_eigenvalues_into(&a, 2, &mut out[1..], &mut scratch), Err(Refusal::Length(1)));
/// # Ok::<(), Refusal>(())
/// ```
pub fn hermitian_eigenvalues_into(a: &[Complex], dim: usize, out: &mut [f64], scratch: &mut [f64]) -> Result<Sweeps, Refusal> {
    let (mut place, mut sweeps, mut quiet, mut turned) = (0, 0, false, 0);
    let (a, a_len) = numbers_of(a);
    let ((out, out_len), (scratch, scratch_len)) = (row_mut(out), row_mut(scratch));
    // SAFETY: each pointer is to a borrowed slice of the length behind it; what is written overlaps nothing else that is lent.
    let number = unsafe {
        ffi::zg_hermitian_eigenvalues(
            a, a_len, dim, out, out_len, scratch, scratch_len, &mut place, &mut sweeps, &mut quiet, &mut turned,
        )
    };
    answered(number, place, Sweeps { sweeps, quiet, turned })
}

/// A's eigenvalues and eigenvectors, as [`hermitian_eigen`] gives them.
///
/// ```
/// use zegrafult::{hermitian_eigen, Complex};
///
/// let eigen = hermitian_eigen(&[0.0, 1.0, 1.0, 0.0].map(Complex::real), 2)?;
/// let vector = &eigen.vectors[2..4]; // of the second value
/// assert!((eigen.values[1] - 1.0).abs() < 1e-12 && (vector[0].re - vector[1].re).abs() < 1e-12);
/// # Ok::<(), zegrafult::Refusal>(())
/// ```
#[derive(Clone, Debug, PartialEq)]
pub struct Eigen {
    /// The eigenvalues, rising.
    pub values: Vec<f64>,
    /// The eigenvectors, one to a column of `dim` cells, column after column.
    pub vectors: Vec<Complex>,
    /// How many sweeps were begun, the quiet one included.
    pub sweeps: usize,
    /// Whether the last sweep turned no pair.
    pub quiet: bool,
    /// How many pairs were turned in all.
    pub turned: usize,
}

/// The eigenvalues and eigenvectors of a Hermitian matrix of side 1 to 64, column-major.
///
/// ```
/// use zegrafult::{hermitian_eigen, Complex};
///
/// let eigen = hermitian_eigen(&[2.0, 0.0, 0.0, -5.0].map(Complex::real), 2)?;
/// assert_eq!(eigen.values, [-5.0, 2.0]);
/// assert_eq!(eigen.vectors, [0.0, 1.0, 1.0, 0.0].map(Complex::real));
/// # Ok::<(), zegrafult::Refusal>(())
/// ```
pub fn hermitian_eigen(matrix: &[Complex], dim: usize) -> Result<Eigen, Refusal> {
    let mut values = vec![0.0; hermitian_eigen_values_len(dim)];
    let mut vectors = vec![Complex::default(); hermitian_eigen_vectors_len(dim)];
    let mut scratch = vec![0.0; hermitian_eigen_scratch_len(dim)];
    let Sweeps { sweeps, quiet, turned } = hermitian_eigen_into(matrix, dim, &mut values, &mut vectors, &mut scratch)?;
    Ok(Eigen { values, vectors, sweeps, quiet, turned })
}

/// [`hermitian_eigen`] into lent buffers. A buffer that is too short is refused by 6 with its number: matrix 0, values 1, vectors 2,
/// scratch 3.
///
/// ```
/// use zegrafult::*;
///
/// let matrix = [2.0, 0.0, 0.0, -5.0].map(Complex::real);
/// let (mut values, mut vectors) = ([0.0; 2], [Complex::default(); 4]);
/// let mut scratch = vec![0.0; hermitian_eigen_scratch_len(2)];
/// hermitian_eigen_into(&matrix, 2, &mut values, &mut vectors, &mut scratch)?;
/// assert_eq!(values, [-5.0, 2.0]);
/// # Ok::<(), Refusal>(())
/// ```
pub fn hermitian_eigen_into(
    matrix: &[Complex],
    dim: usize,
    values: &mut [f64],
    vectors: &mut [Complex],
    scratch: &mut [f64],
) -> Result<Sweeps, Refusal> {
    let (mut place, mut sweeps, mut quiet, mut turned) = (0, 0, false, 0);
    let (matrix, matrix_len) = numbers_of(matrix);
    let ((values, values_len), (vectors, vectors_len)) = (row_mut(values), numbers_of_mut(vectors));
    let (scratch, scratch_len) = row_mut(scratch);
    // SAFETY: each pointer is to a borrowed slice of the length behind it; what is written overlaps nothing else that is lent.
    let number = unsafe {
        ffi::zg_hermitian_eigen(
            matrix, matrix_len, dim, values, values_len, vectors, vectors_len, scratch, scratch_len, &mut place, &mut sweeps, &mut quiet,
            &mut turned,
        )
    };
    answered(number, place, Sweeps { sweeps, quiet, turned })
}

/// The Schmidt values that a density matrix gives. At most 60 sweeps.
///
/// ```
/// use zegrafult::{schmidt_values_from_density, Complex};
///
/// let found = schmidt_values_from_density(&[9.0, 0.0, 0.0, 16.0].map(Complex::real), 2)?;
/// assert_eq!(found.values, [0.8, 0.6000000000000001]);
/// # Ok::<(), zegrafult::Refusal>(())
/// ```
pub fn schmidt_values_from_density(rho: &[Complex], dim: usize) -> Result<Swept, Refusal> {
    let mut values = vec![0.0; schmidt_values_from_density_out_len(dim)];
    let mut scratch = vec![0.0; schmidt_values_from_density_scratch_len(dim)];
    let (count, Sweeps { sweeps, quiet, turned }) = schmidt_values_from_density_into(rho, dim, &mut values, &mut scratch)?;
    values.truncate(count);
    Ok(Swept { values, sweeps, quiet, turned })
}

/// [`schmidt_values_from_density`] into lent buffers: how many values are left, which stand first in `out`, and the sweeps. A buffer
/// that is too short is refused by 6 with its number: rho 0, out 1, scratch 2.
///
/// ```
/// use zegrafult::*;
///
/// let rho = [9.0, 0.0, 0.0, 16.0].map(Complex::real);
/// let (mut out, mut scratch) = ([0.0; 2], vec![0.0; schmidt_values_from_density_scratch_len(2)]);
/// let (count, _sweeps) = schmidt_values_from_density_into(&rho, 2, &mut out, &mut scratch)?;
/// assert_eq!((count, out[0]), (2, 0.8));
/// # Ok::<(), Refusal>(())
/// ```
pub fn schmidt_values_from_density_into(
    rho: &[Complex],
    dim: usize,
    out: &mut [f64],
    scratch: &mut [f64],
) -> Result<(usize, Sweeps), Refusal> {
    let (mut place, mut count, mut sweeps, mut quiet, mut turned) = (0, 0, 0, false, 0);
    let (rho, rho_len) = numbers_of(rho);
    let ((out, out_len), (scratch, scratch_len)) = (row_mut(out), row_mut(scratch));
    // SAFETY: each pointer is to a borrowed slice of the length behind it; what is written overlaps nothing else that is lent.
    let number = unsafe {
        ffi::zg_schmidt_values_from_density(
            rho, rho_len, dim, out, out_len, scratch, scratch_len, &mut place, &mut count, &mut sweeps, &mut quiet, &mut turned,
        )
    };
    answered(number, place, (count, Sweeps { sweeps, quiet, turned }))
}
