//! A state taken apart into a chain of sites.
use crate::{
    chain_of_sites_bonds_len, chain_of_sites_marks_len, chain_of_sites_matrix_len, chain_of_sites_scratch_len, chain_of_sites_sites_len, ffi,
    numbers_of, numbers_of_mut, refusal::answered, row_mut, Complex, Refusal,
};

/// A site of a chain: cell (alpha, i, beta), with alpha below `bond_left`, the qubit's bit i and beta below `bond_right`, is
/// cell alpha·2·bond_right + i·bond_right + beta.
///
/// ```
/// use zegrafult::{chain_of_sites, Complex};
///
/// // one qubit: its site is its state
/// let state = [0.6, 0.8].map(Complex::real);
/// let site = &chain_of_sites(&state, 1, 1e-12, 64)?.sites[0];
/// assert_eq!((site.bond_left, site.bond_right, &site.cells[..]), (1, 1, &state[..]));
/// # Ok::<(), zegrafult::Refusal>(())
/// ```
#[derive(Clone, Debug, PartialEq)]
pub struct Site {
    /// The bond to the site before, 1 at the first.
    pub bond_left: usize,
    /// The bond to the site behind, 1 at the last.
    pub bond_right: usize,
    /// The 2·bond_left·bond_right cells.
    pub cells: Vec<Complex>,
}

impl Site {
    /// The cell (alpha, i, beta), where there is one.
    ///
    /// ```
    /// use zegrafult::{Complex, Site};
    ///
    /// let site = Site { bond_left: 1, bond_right: 2, cells: [1.0, 2.0, 3.0, 4.0].map(Complex::real).to_vec() };
    /// assert_eq!(site.cell(0, 1, 0), Some(Complex::real(3.0)));
    /// assert_eq!(site.cell(1, 0, 0), None);
    /// ```
    pub fn cell(&self, alpha: usize, i: usize, beta: usize) -> Option<Complex> {
        let inside = alpha < self.bond_left && i < 2 && beta < self.bond_right;
        inside.then(|| self.cells[(2 * alpha + i) * self.bond_right + beta])
    }
}

/// How the sweeps of a cut's SVD went, as in [`crate::Svd`].
///
/// ```
/// use zegrafult::{chain_of_sites, Complex};
///
/// let chain = chain_of_sites(&[1.0, 0.0, 0.0, 1.0].map(Complex::real), 2, 1e-12, 64)?;
/// assert_eq!((chain.marks[0].sweeps, chain.marks[0].quiet, chain.marks[0].turned), (1, true, 0));
/// # Ok::<(), zegrafult::Refusal>(())
/// ```
#[derive(Clone, Copy, Debug, PartialEq, Eq)]
pub struct Mark {
    /// How many were begun.
    pub sweeps: usize,
    /// Whether the last turned no pair.
    pub quiet: bool,
    /// How many pairs were turned.
    pub turned: usize,
}

/// The sites of a state, one a qubit, as [`chain_of_sites`] gives them. Each but the last is an isometry where no kept value is zero; the
/// last holds the weight.
///
/// ```
/// use zegrafult::{chain_of_sites, Complex};
///
/// let chain = chain_of_sites(&[1.0, 0.0, 0.0, 1.0].map(Complex::real), 2, 1e-12, 64)?;
/// assert_eq!((chain.sites.len(), chain.marks.len(), chain.dropped), (2, 1, 0));
/// # Ok::<(), zegrafult::Refusal>(())
/// ```
#[derive(Clone, Debug, PartialEq)]
pub struct Chain {
    /// The sites, qubit 0's first.
    pub sites: Vec<Site>,
    /// How many cuts dropped a value above the resolution.
    pub dropped: usize,
    /// How each cut's SVD went.
    pub marks: Vec<Mark>,
}

/// Takes a state of n qubits apart from the left: at each cut the SVD, the values above `epsilon` times the largest, at least one
/// and at most `limit` of them, the site out of U, and S·V† carried on. No component may be above 2^190.
///
/// ```
/// use zegrafult::{chain_of_sites, Complex, Refusal};
///
/// // three qubits, all 0 or all 1
/// let mut state = vec![Complex::default(); 8];
/// state[0] = Complex::real(0.6);
/// state[7] = Complex::real(0.8);
/// let chain = chain_of_sites(&state, 3, 1e-12, 64)?;
/// let shapes: Vec<_> = chain.sites.iter().map(|site| (site.bond_left, site.bond_right)).collect();
/// assert_eq!(shapes, [(1, 2), (2, 2), (2, 1)]);
/// assert_eq!(chain.dropped, 0);
/// assert_eq!(chain_of_sites(&state, 3, 1e-12, 1)?.dropped, 1);
/// assert_eq!(chain_of_sites(&state, 3, 1e-12, 0), Err(Refusal::Size));
/// # Ok::<(), zegrafult::Refusal>(())
/// ```
pub fn chain_of_sites(state: &[Complex], n: usize, epsilon: f64, limit: usize) -> Result<Chain, Refusal> {
    let mut sites = vec![Complex::default(); chain_of_sites_sites_len(n, limit)];
    let [mut bonds, mut starts] = [0; 2].map(|_| vec![0usize; chain_of_sites_bonds_len(n)]);
    let mut marks = vec![0usize; chain_of_sites_marks_len(n)];
    let [mut matrix, mut u, mut vt] = [0; 3].map(|_| vec![0.0f64; chain_of_sites_matrix_len(n)]);
    let mut scratch = vec![0.0f64; chain_of_sites_scratch_len(n)];
    let dropped = chain_of_sites_into(
        state, n, epsilon, limit, &mut sites, &mut bonds, &mut starts, &mut marks, &mut matrix, &mut u, &mut vt, &mut scratch,
    )?;
    let site = |j: usize| Site {
        bond_left: bonds[j],
        bond_right: bonds[j + 1],
        cells: sites[starts[j]..starts[j + 1]].to_vec(),
    };
    let mark = |m: &[usize]| Mark { sweeps: m[0], quiet: m[1] == 1, turned: m[2] };
    Ok(Chain { sites: (0..n).map(site).collect(), dropped, marks: marks.chunks_exact(3).map(mark).collect() })
}

/// [`chain_of_sites`] into lent buffers, and how many cuts dropped a value above the resolution. Site j has the shape (bonds\[j\], 2,
/// bonds\[j + 1\]) and stands at cells starts\[j\] to starts\[j + 1\] of `sites`; three marks for each cut: sweeps, 1 where the last was
/// quiet, turned pairs. A buffer that is too short is refused by 6 with its number, from state 0 to scratch 8.
///
/// ```
/// use zegrafult::*;
///
/// let state = [1.0, 0.0, 0.0, 1.0].map(Complex::real);
/// let mut sites = vec![Complex::default(); chain_of_sites_sites_len(2, 64)];
/// let (mut bonds, mut starts) = ([0; 3], [0; 3]);
/// let mut marks = vec![0; chain_of_sites_marks_len(2)];
/// let (mut matrix, mut u, mut vt) = ([0.0; 8], [0.0; 8], [0.0; 8]);
/// let mut scratch = vec![0.0; chain_of_sites_scratch_len(2)];
/// let dropped = chain_of_sites_into(
///     &state, 2, 1e-12, 64, &mut sites, &mut bonds, &mut starts, &mut marks, &mut matrix, &mut u, &mut vt, &mut scratch,
/// )?;
/// assert_eq!((dropped, bonds, starts), (0, [1, 2, 1], [0, 4, 8]));
/// # Ok::<(), Refusal>(())
/// ```
#[allow(clippy::too_many_arguments)]
pub fn chain_of_sites_into(
    state: &[Complex],
    n: usize,
    epsilon: f64,
    limit: usize,
    sites: &mut [Complex],
    bonds: &mut [usize],
    starts: &mut [usize],
    marks: &mut [usize],
    matrix: &mut [f64],
    u: &mut [f64],
    vt: &mut [f64],
    scratch: &mut [f64],
) -> Result<usize, Refusal> {
    let (mut place, mut dropped) = (0, 0);
    let (state, state_len) = numbers_of(state);
    let (sites, sites_len) = numbers_of_mut(sites);
    let ((bonds, bonds_len), (starts, starts_len), (marks, marks_len)) = (row_mut(bonds), row_mut(starts), row_mut(marks));
    let ((matrix, matrix_len), (u, u_len), (vt, vt_len)) = (row_mut(matrix), row_mut(u), row_mut(vt));
    let (scratch, scratch_len) = row_mut(scratch);
    // SAFETY: each pointer is to a borrowed slice of the length behind it; what is written overlaps nothing else that is lent.
    let number = unsafe {
        ffi::zg_chain_of_sites(
            state, state_len, n, epsilon, limit, sites, sites_len, bonds, bonds_len, starts, starts_len, marks, marks_len, matrix,
            matrix_len, u, u_len, vt, vt_len, scratch, scratch_len, &mut place, &mut dropped,
        )
    };
    answered(number, place, dropped)
}
