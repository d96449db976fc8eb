//! How long the lent buffers of the `_into` calls must be, in elements of the slice: cells for `&mut [Complex]`, numbers for the
//! rest. For sizes that the library does not take a length is 0 and nothing wraps around: the call then refuses by 1 before it looks.
use crate::{area, power, svd_jacobi_values as thin, QUBITS};

/// The most cells of a matrix or a site.
///
/// ```
/// use zegrafult::{svd_jacobi, Complex, Refusal, CELLS};
///
/// assert_eq!(svd_jacobi(&vec![Complex::default(); CELLS + 1], CELLS + 1, 1), Err(Refusal::Size));
/// ```
pub const CELLS: usize = 4096;
/// The largest side of a square matrix.
///
/// ```
/// assert_eq!(zegrafult::SIDE * zegrafult::SIDE, zegrafult::CELLS);
/// ```
pub const SIDE: usize = 64;

/// The smaller of k and n − k, the side of a cut.
fn side(n: usize, k: usize) -> usize {
    k.min(n.saturating_sub(k))
}

/// n where the library takes that many qubits, else 0.
fn taken(n: usize) -> usize {
    if n <= QUBITS {
        n
    } else {
        0
    }
}

/// A row of public functions, each with what it is, its arguments, its length, and one example.
macro_rules! lengths {
    ($($(#[$doc:meta])* $name:ident($($argument:ident),*) = $length:expr, ($($given:literal),*) is $value:literal;)*) => {$(
        $(#[$doc])*
        ///
        #[doc = concat!("```\nassert_eq!(zegrafult::", stringify!($name), "(", stringify!($($given),*), "), ", stringify!($value), ");\n```")]
        pub fn $name($($argument: usize),*) -> usize {
            $length
        }
    )*};
}

lengths! {
    /// The offsets of [`row_offsets_into`](crate::row_offsets_into) for k listed qubits.
    row_offsets_out_len(k) = power(k), (2) is 4;
    /// The others of [`smaller_side_into`](crate::smaller_side_into) for k listed qubits of n; 0 where the list is the smaller side.
    smaller_side_others_len(n, k) = if k <= taken(n) && n - k < k { n - k } else { 0 }, (4, 3) is 1;
    /// The cells of [`cut_matrix_into`](crate::cut_matrix_into), as many as the state has.
    cut_matrix_out_len(n) = power(n), (3) is 8;

    /// The cells of [`dense_reduced_density_into`](crate::dense_reduced_density_into) for k listed qubits.
    dense_reduced_density_out_len(k) = area(power(k), power(k)), (2) is 16;
    /// The numbers of scratch of [`dense_reduced_density_into`](crate::dense_reduced_density_into) for k listed qubits.
    dense_reduced_density_scratch_len(k) = 2 * power(k), (2) is 8;
    /// The cells of [`density_from_cut_into`](crate::density_from_cut_into) for k listed qubits.
    density_from_cut_out_len(k) = area(power(k), power(k)), (1) is 4;

    /// The cells of U in [`svd_jacobi_into`](crate::svd_jacobi_into); of its values [`svd_jacobi_values`](crate::svd_jacobi_values) tells.
    svd_jacobi_u_len(m, n) = if thin(m, n) == 0 { 0 } else { m * thin(m, n) }, (4, 2) is 8;
    /// The cells of V† in [`svd_jacobi_into`](crate::svd_jacobi_into).
    svd_jacobi_vt_len(m, n) = if thin(m, n) == 0 { 0 } else { thin(m, n) * n }, (4, 2) is 4;
    /// The cells of Q in [`factorize_gram_schmidt_into`](crate::factorize_gram_schmidt_into).
    factorize_gram_schmidt_q_len(rows, cols) = if thin(rows, cols) == 0 { 0 } else { rows * thin(rows, cols) }, (4, 2) is 8;
    /// The cells of R in [`factorize_gram_schmidt_into`](crate::factorize_gram_schmidt_into).
    factorize_gram_schmidt_r_len(rows, cols) = if thin(rows, cols) == 0 { 0 } else { thin(rows, cols) * cols }, (4, 2) is 4;
    /// The numbers of scratch of [`factorize_gram_schmidt_into`](crate::factorize_gram_schmidt_into).
    factorize_gram_schmidt_scratch_len(rows, cols) = if area(rows, cols) == 0 { 0 } else { 2 * rows }, (4, 2) is 8;

    /// The values of [`finish_schmidt_values_into`](crate::finish_schmidt_values_into): as many as are handed in.
    finish_schmidt_values_out_len(values) = if values <= SIDE { values } else { 0 }, (3) is 3;
    /// The values of [`hermitian_eigenvalues_into`](crate::hermitian_eigenvalues_into).
    hermitian_eigenvalues_out_len(dim) = thin(dim, dim), (3) is 3;
    /// The numbers of scratch of [`hermitian_eigenvalues_into`](crate::hermitian_eigenvalues_into).
    hermitian_eigenvalues_scratch_len(dim) = 2 * area(dim, dim), (3) is 18;
    /// The values of [`hermitian_eigen_into`](crate::hermitian_eigen_into).
    hermitian_eigen_values_len(dim) = thin(dim, dim), (3) is 3;
    /// The cells of the vectors of [`hermitian_eigen_into`](crate::hermitian_eigen_into).
    hermitian_eigen_vectors_len(dim) = area(dim, dim), (3) is 9;
    /// The numbers of scratch of [`hermitian_eigen_into`](crate::hermitian_eigen_into).
    hermitian_eigen_scratch_len(dim) = 6 * area(dim, dim) + 2 * thin(dim, dim), (3) is 60;
    /// The values of [`schmidt_values_from_density_into`](crate::schmidt_values_from_density_into).
    schmidt_values_from_density_out_len(dim) = thin(dim, dim), (4) is 4;
    /// The numbers of scratch of [`schmidt_values_from_density_into`](crate::schmidt_values_from_density_into).
    schmidt_values_from_density_scratch_len(dim) = 2 * area(dim, dim), (4) is 32;
    /// The numbers of the bands of [`entropy_band_into`](crate::entropy_band_into), three for each weight, for k listed qubits of n.
    entropy_band_bands_len(n, k) = 3 * power(side(n, k)), (4, 1) is 6;
    /// The numbers of scratch of [`entropy_band_into`](crate::entropy_band_into) for k listed qubits of n.
    entropy_band_scratch_len(n, k) = 8 * power(n) + 2 * power(side(n, k)), (4, 1) is 132;

    /// The cuts of [`cut_profile_into`](crate::cut_profile_into), so the numbers of `largest` and `ranks`.
    cut_profile_cuts(n) = taken(n).saturating_sub(1), (4) is 3;
    /// The numbers of the header of [`cut_profile_into`](crate::cut_profile_into), two for each cut.
    cut_profile_header_len(n) = 2 * cut_profile_cuts(n), (4) is 6;
    /// The values of [`cut_profile_into`](crate::cut_profile_into), of all cuts together.
    cut_profile_values_len(n) = (1..=cut_profile_cuts(n)).map(|k| power(side(n, k))).sum(), (4) is 8;
    /// The numbers of the marks of [`cut_profile_into`](crate::cut_profile_into), four for each cut.
    cut_profile_marks_len(n) = 4 * cut_profile_cuts(n), (4) is 12;
    /// The numbers of scratch of [`cut_profile_into`](crate::cut_profile_into).
    cut_profile_scratch_len(n) = if power(n) == 0 { 0 } else { 8 * power(n) + 2 * power(n / 2) }, (4) is 136;

    /// The cells of [`fill_isometry_site_data_into`](crate::fill_isometry_site_data_into).
    fill_isometry_site_data_out_len(bond_left, chi) = area(area(2, bond_left), chi), (2, 3) is 12;
    /// The cells of [`fill_scaled_u_site_data_into`](crate::fill_scaled_u_site_data_into).
    fill_scaled_u_site_data_out_len(bond_left, chi) = area(area(2, bond_left), chi), (2, 3) is 12;
    /// The cells of [`fill_vt_site_data_into`](crate::fill_vt_site_data_into).
    fill_vt_site_data_out_len(chi, physical_dim, bond_right) = area(area(chi, physical_dim), bond_right), (3, 2, 2) is 12;
    /// The cells of [`fill_scaled_vt_data_into`](crate::fill_scaled_vt_data_into).
    fill_scaled_vt_data_out_len(chi, physical_dim, bond_right) = area(area(chi, physical_dim), bond_right), (3, 2, 2) is 12;

    /// The cells that the sites of [`chain_of_sites_into`](crate::chain_of_sites_into) can take at this limit.
    chain_of_sites_sites_len(n, limit) = {
        let bond = |j: usize| if j == 0 || j == n { 1 } else { limit.min(power(side(n, j))) };
        (0..taken(n)).map(|j| 2 * bond(j) * bond(j + 1)).sum()
    }, (3, 64) is 16;
    /// The bonds, and the starts, of [`chain_of_sites_into`](crate::chain_of_sites_into): one more than sites.
    chain_of_sites_bonds_len(n) = if power(n) == 0 { 0 } else { n + 1 }, (3) is 4;
    /// The numbers of the marks of [`chain_of_sites_into`](crate::chain_of_sites_into), three for each cut.
    chain_of_sites_marks_len(n) = 3 * taken(n).saturating_sub(1), (3) is 6;
    /// The numbers of the matrix of [`chain_of_sites_into`](crate::chain_of_sites_into), of its U and of its V†.
    chain_of_sites_matrix_len(n) = 2 * power(n), (3) is 16;
    /// The numbers of scratch of [`chain_of_sites_into`](crate::chain_of_sites_into).
    chain_of_sites_scratch_len(n) = if power(n) == 0 { 0 } else { 6 * power(n) + 2 * power(n / 2) }, (3) is 52;
}
