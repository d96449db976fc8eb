//! Behaviours of the Rust that the port must match and a reader would not guess, each with an input that shows it.

use harness::cases::power;
use num_complex::Complex64;
use published::backend::{mps::svd::door as published_svd, schmidt::door as published_schmidt};
use replaced::backend::{mps::svd::door as svd, reduced_density::door as density, schmidt::door as schmidt};

fn real(values: &[f64]) -> Vec<Complex64> {
    values.iter().map(|&value| Complex64::new(value, 0.0)).collect()
}

fn scaled(values: &[f64], exponent: i32) -> Vec<Complex64> {
    values.iter().map(|&value| Complex64::new(value * power(exponent), 0.0)).collect()
}

fn bits(values: &[f64]) -> Vec<u64> {
    values.iter().map(|value| value.to_bits()).collect()
}

/// The Schmidt values as published, and by the build with the modulus replaced.
fn schmidt_bits(state: &[Complex64], n: usize, list: &[usize]) -> [Vec<u64>; 2] {
    let published = published_schmidt::dense_schmidt_values(state, n, list, 13).unwrap();
    let replaced = schmidt::dense_schmidt_values(state, n, list, 13).unwrap();
    [published, replaced].map(|values| bits(&values))
}

/// The eigenvalues of two by two, which both builds must have, and the count of sweeps.
fn eigenvalues(cells: &[(f64, f64); 4]) -> (Vec<u64>, usize) {
    let a = cells.map(|(re, im)| Complex64::new(re, im));
    let values = bits(&published_schmidt::hermitian_eigenvalues(&a, 2));
    assert_eq!(values, bits(&schmidt::hermitian_eigenvalues(&a, 2)));
    counting::count::taken();
    assert_eq!(values, bits(&counting::backend::schmidt::door::hermitian_eigenvalues(&a, 2)));
    (values, counting::count::taken().sweeps)
}

fn minus_zero(x: f64) -> bool {
    x == 0.0 && x.is_sign_negative()
}

fn plus_zero(x: f64) -> bool {
    x == 0.0 && x.is_sign_positive()
}

#[test]
fn sums_start_at_minus_zero_and_folds_skip_nan() {
    assert!(minus_zero([0.0f64; 0].iter().sum::<f64>()));
    assert_eq!([f64::NAN, 2.0, f64::NAN].into_iter().fold(0.0, f64::max), 2.0);
    assert_eq!([f64::NAN].into_iter().fold(0.0, f64::max), 0.0);
}

#[test]
fn signs_of_zeros_in_signum_and_order() {
    assert_eq!((0.0f64.signum(), (-0.0f64).signum()), (1.0, -1.0));
    assert!(f64::NAN.signum().is_nan());
    let mut all = [-f64::NAN, -1.0, -0.0, 0.0, 1.0, f64::INFINITY, f64::NAN];
    all.reverse();
    let mut sorted = all;
    sorted.sort_unstable_by(|a, b| b.total_cmp(a));
    assert!(all.iter().zip(&sorted).all(|(a, b)| a.to_bits() == b.to_bits()));
}

#[test]
fn untransposed_factors_have_minus_zero_imaginary_parts() {
    let factors = svd::svd_jacobi(&real(&[1.0, 2.0, 3.0, 4.0]), 2, 2);
    assert!(factors.vt.iter().all(|cell| minus_zero(cell.im)));
    assert!(factors.u.iter().all(|cell| cell.im == 0.0));
}

#[test]
fn transposed_factors_of_a_zero_matrix() {
    let factors = svd::svd_jacobi(&real(&[0.0; 6]), 2, 3);
    assert!(factors.vt.iter().all(|cell| plus_zero(cell.re) && minus_zero(cell.im)));
    assert!(factors.u.iter().all(|cell| plus_zero(cell.im)));
}

#[test]
fn a_scaled_row_is_a_complex_product_and_a_scaled_column_a_real_one() {
    let cell = [Complex64::new(-0.0, -1.0)];
    let row = svd::fill_scaled_vt_data(&[2.0], &cell, 1, 1, 1, 1);
    assert!(plus_zero(row[0].re));
    let column = svd::fill_scaled_u_site_data(&[cell[0], cell[0]], &[2.0], 2, 1, 1);
    assert!(minus_zero(column[0].re));
}

#[test]
fn densities_start_at_plus_zero_and_conjugate_above_the_diagonal() {
    let rho = density::dense_reduced_density(&real(&[1.0, 0.0, 0.0, 0.0]), 2, &[0]);
    assert!(plus_zero(rho[2].im) && minus_zero(rho[1].im) && plus_zero(rho[0].im));
}

#[test]
fn four_sums_in_the_dot_product_of_qr() {
    // One sum would lose the small terms: 2^60 takes them in one by one.
    let first: Vec<f64> = vec![1.0; 8];
    let second = [power(60), 1.0, -power(60), 1.0, 1.0, 1.0, 1.0, 1.0];
    let (_, r, rank) = svd::factorize_gram_schmidt(&real(&[first.clone(), second.to_vec()].concat()), 8, 2);
    assert_eq!(rank, 2);
    let unit = 1.0 / 8f64.sqrt();
    let one_sum = second.iter().fold(0.0, |sum, x| sum + unit * x);
    assert_ne!(r[1].re, one_sum);
}

/// Values that the root of `norm_sqr` gets wrong: 2.8667 and 2.1753 for the first matrix, 401854C01ACD5171 for the second,
/// 0.76529, 0.62627 and 0.14872 for the state of four qubits, two values for that of two. The columns of a matrix of lower
/// rank cancel to a leftover of about 2^-530, the square of its product with a large column is subnormal, and the root of
/// that has few bits.
#[test]
fn leftover_columns_turn_as_published() {
    let a = real(&[0.0, 0.0, -1.0, -1.0, -1.0, -1.0, -1.0, -1.0, 0.0]);
    for factors in [published_svd::svd_jacobi(&a, 3, 3).s, svd::svd_jacobi(&a, 3, 3).s] {
        assert_eq!(bits(&factors), [0x400167123BE11AF9, 0x3FF2043AA7C5AECA, 0x1F6B21B40B3B2A6F]);
    }
    let a = real(&[0.0, 1.0, 0.0, 6.0]);
    for factors in [published_svd::svd_jacobi(&a, 2, 2).s, svd::svd_jacobi(&a, 2, 2).s] {
        assert_eq!(bits(&factors), [0x401854BFB363DC3A, 0x1ED0000000000000]);
    }
    let state = real(&[1., 1., 1., 1., 1., 0., 0., 0., 1., 1., 1., 1., 1., 0., 1., 0.]);
    assert_eq!(schmidt_bits(&state, 4, &[0, 1]), [[0x3FEDAC81979E3AD1, 0x3FD4FF0DF0301D7B, 0x3FC710C8B87762EF]; 2]);
    assert_eq!(schmidt_bits(&scaled(&[0.0, -3.0, 0.0, -1.0], -269), 2, &[0]), [[0x3FF0000000000000]; 2]);
}

/// All states of four qubits with amplitudes 0 and 1, cut in half.
#[test]
fn whole_states_have_the_published_bits() {
    for code in 1..1u32 << 16 {
        let state: Vec<f64> = (0..16).map(|at| f64::from(code >> at & 1)).collect();
        let [published, replaced] = schmidt_bits(&real(&state), 4, &[0, 1]);
        assert_eq!(published, replaced, "{state:?}");
    }
}

/// The modulus and `hypot` can be one float apart where both parts count. The squares of 17 and 27 and their sum are exact,
/// so the modulus is the nearest float to the root, and `hypot` is not. A leftover column shows it in its first digit.
#[test]
fn moduli_one_float_apart() {
    let z = Complex64::new(17.0, 27.0);
    assert_eq!(bits(&[published_svd::norm(z), svd::norm(z)]), [0x403FE7F6F939A554, 0x403FE7F6F939A553]);
    assert_eq!(svd::norm(z), 1018f64.sqrt());
    let a = [(0.0, 0.0), (1.0, 3.0), (0.0, 0.0), (0.0, 1.0)].map(|(re, im)| Complex64::new(re, im));
    assert_eq!(bits(&published_svd::svd_jacobi(&a, 2, 2).s), [0x400A887293FD6F33, 0x1F60000000000000]);
    assert_eq!(bits(&svd::svd_jacobi(&a, 2, 2).s), [0x400A887293FD6F33, 0]);
    // With one infinite part and one NaN only `hypot` is a number.
    let z = Complex64::new(f64::INFINITY, f64::NAN);
    assert!(published_svd::norm(z) == f64::INFINITY && svd::norm(z).is_nan());
}

/// No diagonal entry is above zero and one of the two is zero, so nothing counts as small beside them: the pair turns in every
/// sweep that there is.
#[test]
fn a_tiny_cell_that_never_grows_quiet() {
    for (p, off, q) in [(-1.0, 1e-170, 0.0), (0.0, 1e-170, -1.0), (0.0, power(-1074), -1.0)] {
        let values = eigenvalues(&[(p, 0.0), (off, 0.0), (off, 0.0), (q, 0.0)]);
        assert_eq!(values, ([p, q].map(f64::to_bits).to_vec(), 60));
    }
    // Beside a positive entry, and beside two that are not zero, it is small at once.
    for (p, q) in [(0.0, 1.0), (-1.0, -2.0)] {
        let values = eigenvalues(&[(p, 0.0), (1e-170, 0.0), (1e-170, 0.0), (q, 0.0)]);
        assert_eq!(values, ([p, q].map(f64::to_bits).to_vec(), 1));
    }
}

/// Row by row 1, 1, -1, -1: not Hermitian, and refused by nobody.
#[test]
fn a_matrix_that_is_not_hermitian_never_grows_quiet() {
    assert_eq!(eigenvalues(&[(1.0, 0.0), (1.0, 0.0), (-1.0, 0.0), (-1.0, 0.0)]).1, 60);
}

/// The modulus of (1 + i) 2^-1074 is 2^-1074 in floats, so the phase is 1 + i, and the turn doubles the diagonal entry.
#[test]
fn a_phase_at_the_least_float_is_not_of_unit_length() {
    let least = power(-1074);
    let values = eigenvalues(&[(0.0, 0.0), (least, least), (least, -least), (-1.0, 0.0)]);
    assert_eq!(values, (vec![0, 0xC000000000000000], 60));
}

/// At 2^-280 the square of the pair's sum is zero, so neither form turns, and a product state shows two values.
#[test]
fn a_faint_product_state_shows_two_values() {
    let state = scaled(&[1.0; 4], -280);
    assert_eq!(published_schmidt::dense_schmidt_values(&state, 2, &[0], 13).unwrap().len(), 2);
    assert_eq!(schmidt::dense_schmidt_values(&state, 2, &[0], 13).unwrap().len(), 2);
}

/// Of a cut of half size the two namings give matrices that are each other's transpose, and the sweeps work on columns: the
/// last bits may differ, and of a faint state the values and their count.
#[test]
fn both_namings_of_a_half_cut() {
    let state = real(&[0.0, 0.0, 2.0, 3.0]);
    assert_eq!(published_schmidt::dense_schmidt_values(&state, 2, &[0], 13).unwrap(), [1.0]);
    assert_eq!(published_schmidt::dense_schmidt_values(&state, 2, &[1], 13).unwrap(), [0.9999999999999999]);
    assert_eq!(schmidt::dense_schmidt_values(&state, 2, &[0], 13).unwrap(), [1.0]);
    assert_eq!(schmidt::dense_schmidt_values(&state, 2, &[1], 13).unwrap(), [0.9999999999999999]);
    let faint = scaled(&[0.0, 0.0, 1.0, 1.0], -280);
    assert_eq!(published_schmidt::dense_schmidt_values(&faint, 2, &[0], 13).unwrap().len(), 1);
    assert_eq!(published_schmidt::dense_schmidt_values(&faint, 2, &[1], 13).unwrap().len(), 2);
    assert_eq!(schmidt::dense_schmidt_values(&faint, 2, &[0], 13).unwrap().len(), 1);
    assert_eq!(schmidt::dense_schmidt_values(&faint, 2, &[1], 13).unwrap().len(), 2);
}

/// Six equal columns of three ones: a pair still turns in the hundredth sweep.
#[test]
fn sweeps_that_never_grow_quiet() {
    counting::count::taken();
    counting::backend::mps::svd::door::svd_jacobi(&real(&[1.0; 18]), 3, 6);
    let count = counting::count::taken();
    assert_eq!((count.sweeps, count.turns, count.turns_of_last), (100, 101, 1));
}

/// How many of the states of four qubits with amplitudes 0 and 1 run all 100 sweeps, list 0, 1; the one with fewest amplitudes
/// has 1 at 0, 1, 4 and 8. No other takes more than 15.
#[test]
fn whole_states_that_never_grow_quiet() {
    let mut gave_up = vec![];
    for code in 1..1u32 << 16 {
        let state: Vec<f64> = (0..16).map(|at| f64::from(code >> at & 1)).collect();
        counting::count::taken();
        counting::backend::schmidt::door::dense_schmidt_values(&real(&state), 4, &[0, 1], 13).unwrap();
        let count = counting::count::taken();
        if count.turns_of_last > 0 {
            assert_eq!(count.sweeps, 100);
            gave_up.push(code);
        } else {
            assert!(count.sweeps <= 15);
        }
    }
    assert_eq!((gave_up.len(), gave_up.iter().map(|code| code.count_ones()).min(), gave_up[0]), (16384, Some(4), 275));
}

/// The counted build has the bits of the one that is not; the sweeps of a refused call are 0 and no, and so is its mark.
#[test]
fn counting_changes_no_bit() {
    use harness::call::{ENTRIES, Entry, MARKS, Sweeps};
    use harness::cases::{self, Bounds};
    use harness::oracle::{Build, outcome};
    for &entry in ENTRIES {
        let rng = &mut harness::random::Random::new(14);
        for _ in 0..if entry.sweeps() || entry == Entry::chain_of_sites { 2000 } else { 20 } {
            let call = cases::any(rng, entry, Bounds { qubits: 5, side: 6 });
            let [mut plain, mut counted] = [Build::Replaced, Build::Counting].map(|build| outcome(&call, build));
            if entry == Entry::chain_of_sites {
                // The marks are counts, which only one of the two builds has.
                plain.slices[MARKS] = counted.slices[MARKS].clone();
            }
            let (sweeps, exact) = (counted.sweeps.take(), counted.exact.take());
            // The marks of a profile are the counting build's alone.
            if entry.name() == "cut_profile" {
                counted.slices[5].clone_from(&plain.slices[5]);
            }
            assert_eq!(plain, counted, "{}", call.line());
            assert_eq!((sweeps.is_some(), exact.is_some()), (entry.sweeps(), entry.marks()));
            assert!(plain.number == 0 || exact != Some(true), "{}", call.line());
            if let Some(sweeps) = sweeps {
                let cap = if matches!(entry.name().as_str(), "hermitian_eigenvalues" | "schmidt_values_from_density") {
                    60
                } else {
                    100
                };
                match plain.number {
                    0 => assert!(
                        (1..=cap).contains(&sweeps.begun) && (sweeps.quiet || sweeps.begun == cap),
                        "{}",
                        call.line()
                    ),
                    _ => assert_eq!(sweeps, Sweeps::default(), "{}", call.line()),
                }
            }
        }
    }
}

/// The bits of 12,000 drawn outcomes. `cargo test` and `cargo test --release` both ask, so that a compiler, an
/// optimisation level or a num-complex that changes a bit of the oracle is seen.
#[test]
fn no_optimisation_level_changes_a_bit() {
    use harness::call::Entry::*;
    use harness::cases::{self, Bounds};
    use harness::oracle::{Build, outcome};
    let mut digest = 0xCBF29CE484222325u64;
    let mut add = |word: u64| digest = (digest ^ word).wrapping_mul(0x100000001B3).rotate_left(29);
    let entries = [dense_schmidt_values, dense_reduced_density, normalize_trace, multiply_block_factor];
    let factors = [svd_jacobi, factorize_gram_schmidt, hermitian_eigenvalues, hermitian_eigen];
    let others = [finish_schmidt_values, schmidt_values_from_density, fill_scaled_u_site_data, fill_scaled_vt_data];
    for (seed, entry) in [entries, factors, others].into_iter().flatten().enumerate() {
        let rng = &mut harness::random::Random::new(seed as u64);
        for _ in 0..1000 {
            let outcome = outcome(&cases::any(rng, entry, Bounds { qubits: 5, side: 6 }), Build::Counting);
            [u64::from(outcome.number), outcome.place, outcome.value].into_iter().for_each(&mut add);
            outcome.sweeps.iter().flat_map(|s| [s.begun, u64::from(s.quiet)]).for_each(&mut add);
            outcome.slices.iter().flatten().copied().for_each(&mut add);
        }
    }
    assert_eq!(digest, 0x34947348B6858AA6, "{digest:#X}");
}
