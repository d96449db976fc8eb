//! Input that cannot be used: the refusal has its number, its place and a sentence.
use zegrafult::*;

fn state(reals: &[f64]) -> Vec<Complex> {
    reals.iter().map(|&re| Complex::real(re)).collect()
}

fn refused<T: std::fmt::Debug>(result: Result<T, Refusal>) -> (u32, usize) {
    let refusal = result.unwrap_err();
    assert!(refusal.sentence().ends_with('.') && refusal.to_string().starts_with("refused "));
    (refusal.number(), refusal.place())
}

#[test]
fn lists() {
    assert_eq!(refused(validate_subsystem(&[1, 1], 2)), (3, 1));
    assert_eq!(refused(validate_subsystem(&[5, 1], 2)), (2, 0));
    assert_eq!(refused(validate_subsystem(&[0, 1], 2)), (5, 0));
    assert_eq!(refused(validate_subsystem(&[], 2)), (4, 0));
    assert_eq!(validate_qubit_set(&[0, 1], 2), Ok(()));
    assert_eq!(refused(validate_qubit_set(&[0], usize::MAX)), (1, 0));
    assert_eq!(refused(row_offsets(&[0; 100], 3, 13)), (1, 0));
    assert_eq!(traced_base(1, &[2, 0], 3, 13), Ok(2));
    assert_eq!(refused(traced_base(2, &[2, 0], 3, 13)), (1, 0));
}

#[test]
fn a_wrong_length() {
    assert_eq!(refused(cut_matrix(&state(&[1.0; 3]), 2, &[0], 13)), (6, 0));
    assert_eq!(refused(dense_schmidt_values(&state(&[1.0; 5]), 2, &[0], 13)), (6, 0));
    assert_eq!(refused(dense_reduced_density(&state(&[1.0; 2]), 2, &[0], 13)), (6, 0));
    assert_eq!(refused(svd_jacobi(&state(&[1.0; 5]), 2, 2)), (6, 0));
}

#[test]
fn a_nan() {
    let bad = state(&[1.0, 0.0, f64::NAN, 0.0]);
    assert_eq!(refused(cut_matrix(&bad, 2, &[0], 13)), (7, 2));
    assert_eq!(refused(dense_schmidt_values(&bad, 2, &[0], 13)), (7, 2));
    assert_eq!(refused(dense_reduced_density(&bad, 2, &[0], 13)), (7, 2));
    assert_eq!(refused(svd_jacobi(&bad, 2, 2)), (7, 2));
    assert_eq!(refused(hermitian_eigenvalues(&bad, 2)), (7, 2));
    assert_eq!(refused(hermitian_eigen(&bad, 2)), (7, 2));
    assert_eq!(refused(pages_agree(&bad, 2, &[0], 13)), (7, 2));
    assert_eq!(refused(finish_schmidt_values(&[1.0, f64::INFINITY])), (7, 1));
}

#[test]
fn a_zero_state() {
    let zero = state(&[0.0; 4]);
    assert_eq!(refused(dense_schmidt_values(&zero, 2, &[0], 13)), (8, 0));
    assert_eq!(dense_reduced_density(&zero, 2, &[0], 13), Ok(zero.clone()));
    assert_eq!(refused(normalize_trace(&mut zero.clone(), 2)), (8, 0));
    assert_eq!(refused(finish_schmidt_values(&[])), (8, 0));
}

#[test]
fn a_trace_too_small() {
    let mut rho = state(&[f64::from_bits(1)]);
    assert_eq!(refused(normalize_trace(&mut rho, 1)), (9, 0));
    assert_eq!(rho[0].re.to_bits(), 1);
}

#[test]
fn sizes() {
    assert_eq!(refused(svd_jacobi(&[], 0, 1)), (1, 0));
    assert_eq!(refused(svd_jacobi(&[], usize::MAX, 2)), (1, 0));
    assert_eq!(refused(factorize_gram_schmidt(&[], 65, 64)), (1, 0));
    assert_eq!(refused(dense_schmidt_values(&[], 13, &[0], 13)), (1, 0));
    assert_eq!(refused(dense_schmidt_values(&[], usize::MAX, &[0], 13)), (1, 0));
    assert_eq!(refused(hermitian_eigenvalues(&[], 65)), (1, 0));
    assert_eq!(refused(hermitian_eigen(&[], 65)), (1, 0));
    assert_eq!(refused(hermitian_eigen(&[], 0)), (1, 0));
    assert_eq!(refused(pages_agree(&[], 12, &[0; 7], 13)), (1, 0));
    assert_eq!(refused(cut_rank(4097, 1, 1)), (1, 0));
    assert_eq!(refused(fill_isometry_site_data(&[], 1, 1, 1)), (1, 0));
}

#[test]
fn the_papers_file() {
    let mut amplitudes = vec![0.0; 16];
    for i in [0, 5, 10, 15] {
        amplitudes[i] = 1.0;
    }
    let found = dense_schmidt_values(&state(&amplitudes), 4, &[0, 1], 10);
    assert_eq!(found, Ok(CutValues { values: vec![0.5; 4], sweeps: 1, quiet: true, turned: 0, exact: true }));
    assert_eq!(smaller_side(&[0, 1], 4, 10), Ok(vec![0, 1]));
}
