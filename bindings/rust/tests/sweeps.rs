//! How many sweeps were begun, whether the last was quiet, and how many pairs were turned.
use zegrafult::*;

fn reals(values: &[f64]) -> Vec<Complex> {
    values.iter().map(|&re| Complex::real(re)).collect()
}

/// Six equal columns of three ones: a pair still turns in the hundredth sweep.
#[test]
fn ones_three_by_six() {
    let svd = svd_jacobi(&reals(&[1.0; 18]), 3, 6).unwrap();
    assert_eq!((svd.sweeps, svd.quiet, svd.turned), (100, false, 101));
}

#[test]
fn a_single_column_is_quiet_at_once() {
    for (m, n) in [(1, 1), (5, 1), (1, 5)] {
        let svd = svd_jacobi(&reals(&[2.0; 5][..m * n]), m, n).unwrap();
        assert_eq!((svd.sweeps, svd.quiet, svd.turned), (1, true, 0));
    }
    let found = hermitian_eigenvalues(&reals(&[3.0]), 1).unwrap();
    assert_eq!(found, Swept { values: vec![3.0], sweeps: 1, quiet: true, turned: 0 });
    let found = schmidt_values_from_density(&reals(&[4.0]), 1).unwrap();
    assert_eq!(found, Swept { values: vec![1.0], sweeps: 1, quiet: true, turned: 0 });
    let eigen = hermitian_eigen(&reals(&[3.0]), 1).unwrap();
    assert_eq!((eigen.sweeps, eigen.quiet), (1, true));
}

/// A tiny cell beside -1 and 0 turns in each of the 60 sweeps of the eigenvalues.
#[test]
fn eigenvalues_give_up_after_sixty() {
    let found = hermitian_eigenvalues(&reals(&[-1.0, 1e-170, 1e-170, 0.0]), 2).unwrap();
    assert_eq!((found.sweeps, found.quiet, found.turned), (60, false, 60));
    let found = schmidt_values_from_density(&reals(&[1.0, 1.0, -1.0, -1.0]), 2).unwrap();
    assert_eq!((found.sweeps, found.quiet, found.turned), (60, false, 60));
}

/// All states of four qubits with amplitudes 0 and 1, cut in half: a quarter gives up, always after 100 sweeps. No sweep turns more
/// than the six pairs of four columns, and a quiet last one turns none.
#[test]
fn whole_states() {
    let mut gave_up = 0;
    for code in 1..1u32 << 16 {
        let state: Vec<f64> = (0..16).map(|at| f64::from(code >> at & 1)).collect();
        let found = dense_schmidt_values(&reals(&state), 4, &[0, 1], 13).unwrap();
        assert!(if found.quiet { (1..=15).contains(&found.sweeps) } else { found.sweeps == 100 }, "{state:?}");
        assert!(found.turned <= 6 * (found.sweeps - usize::from(found.quiet)), "{state:?}");
        gave_up += usize::from(!found.quiet);
    }
    assert_eq!(gave_up, 16384);
}
