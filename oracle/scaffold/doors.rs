// Plain functions over the published calls. Each part is put at the end of the file that it names, as a module inside
// it, and so sees what is private there.

//// svd
use super::*;

/// What the build has for a call of `norm`.
pub fn norm(z: Complex64) -> f64 {
    z.norm()
}

pub fn svd_jacobi(a: &[Complex64], m: usize, n: usize) -> SvdResult {
    super::svd_jacobi(a, m, n)
}

/// q, r and the rank. The buffers are as long as the shape asks; what lies past the rank is what the call left there.
pub fn factorize_gram_schmidt(a: &[Complex64], rows: usize, cols: usize) -> (Vec<Complex64>, Vec<Complex64>, usize) {
    let mut thin = ThinQr::default();
    thin.factorize_gram_schmidt(a, rows, cols);
    (thin.q, thin.r, thin.rank)
}

pub fn cut_rank(bond_left: usize, bond_mid: usize, bond_right: usize) -> u128 {
    super::cut_rank(bond_left, bond_mid, bond_right)
}

pub fn widest_block_cut(bond_left: usize, bond_right: usize, n: usize) -> u128 {
    super::widest_block_cut(bond_left, bond_right, n)
}

pub fn discards_resolvable_weight(values: &[f64], chi: usize) -> bool {
    super::discards_resolvable_weight(values, chi)
}

pub fn truncated_svd_rank(values: &[f64], epsilon: f64, max_bond_dim: usize) -> usize {
    super::truncated_svd_rank(values, epsilon, max_bond_dim)
}

pub fn fill_isometry_site_data(columns: &[Complex64], stride: usize, bond_left: usize, chi: usize) -> Vec<Complex64> {
    let mut out = Vec::new();
    super::fill_isometry_site_data(&mut out, columns, stride, bond_left, chi);
    out
}

fn factors(u: &[Complex64], u_rows: usize, s: &[f64], vt: &[Complex64], vt_cols: usize) -> SvdResult {
    SvdResult { u: u.to_vec(), u_rows, s: s.to_vec(), vt: vt.to_vec(), vt_cols }
}

pub fn fill_scaled_u_site_data(u: &[Complex64], s: &[f64], stride: usize, bond_left: usize, chi: usize) -> Vec<Complex64> {
    let mut out = Vec::new();
    super::fill_scaled_u_site_data(&mut out, &factors(u, stride, s, &[], 0), bond_left, chi);
    out
}

pub fn fill_vt_site_data(vt: &[Complex64], row_len: usize, chi: usize, physical_dim: usize, bond_right: usize) -> Vec<Complex64> {
    let mut out = Vec::new();
    super::fill_vt_site_data(&mut out, &factors(&[], 0, &[], vt, row_len), chi, physical_dim, bond_right);
    out
}

pub fn fill_scaled_vt_data(s: &[f64], vt: &[Complex64], row_len: usize, chi: usize, physical_dim: usize, bond_right: usize) -> Vec<Complex64> {
    let mut out = Vec::new();
    super::fill_scaled_vt_data(&mut out, &factors(&[], 0, s, vt, row_len), chi, physical_dim, bond_right);
    out
}

/// The fills over factors as they are, as the Rust's own walks call them.
pub fn isometry_site(factors: &SvdResult, bond_left: usize, chi: usize) -> Vec<Complex64> {
    let mut out = Vec::new();
    super::fill_isometry_site_data(&mut out, &factors.u, factors.u_rows, bond_left, chi);
    out
}

pub fn carried_on(factors: &SvdResult, chi: usize) -> Vec<Complex64> {
    let mut out = Vec::new();
    super::fill_scaled_vt_data(&mut out, factors, chi, factors.vt_cols, 1);
    out
}

//// schmidt
use super::*;

pub fn validate_qubit_set(list: &[usize], n: usize) -> Result<()> {
    super::validate_qubit_set(list, n)
}

pub fn validate_subsystem(list: &[usize], n: usize) -> Result<()> {
    super::validate_subsystem(list, n)
}

pub fn finish_schmidt_values(values: &[f64]) -> Vec<f64> {
    super::finish_schmidt_values(values.to_vec())
}

pub fn schmidt_values_from_density(rho: &[Complex64], dim: usize) -> Vec<f64> {
    super::schmidt_values_from_density(rho, dim)
}

pub fn hermitian_eigenvalues(a: &[Complex64], dim: usize) -> Vec<f64> {
    super::hermitian_eigenvalues(a, dim)
}

pub fn dense_schmidt_values(state: &[Complex64], n: usize, list: &[usize], cap: usize) -> Result<Vec<f64>> {
    super::dense_schmidt_values("harness", state, n, list, &ResolvedLimits::export(cap))
}

//// reduced_density
use super::*;

pub fn row_offsets(list: &[usize]) -> Vec<usize> {
    super::row_offsets(list)
}

pub fn traced_base(e: usize, ascending: &[usize]) -> usize {
    super::traced_base(e, ascending)
}

pub fn reduced_density_side(k: usize, cap: usize) -> Result<usize> {
    super::reduced_density_side("harness", k, &ResolvedLimits::export(cap))
}

pub fn dense_reduced_density(state: &[Complex64], n: usize, list: &[usize]) -> Vec<Complex64> {
    super::dense_reduced_density(state, n, list)
}

pub fn mirror_lower_triangle(rho: &mut [Complex64], dim: usize) {
    super::mirror_lower_triangle(rho, dim)
}

pub fn normalize_trace(rho: &mut [Complex64], dim: usize) {
    super::normalize_trace(rho, dim)
}

pub fn multiply_block_factor(rho: &mut [Complex64], dim: usize, positions: &[usize], factor: &[Complex64], side: usize) {
    super::multiply_block_factor(rho, dim, positions, factor, side)
}

//// spectral
use super::*;

pub fn hermitian_eigen(matrix: &[Complex64], dim: usize) -> (Vec<f64>, Vec<Complex64>) {
    super::hermitian_eigen(matrix, dim)
}
