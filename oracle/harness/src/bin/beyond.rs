//! What the published Rust does with calls that the paper's table refuses: one line each, for docs/DIFFERENCES.md.

use std::panic::{AssertUnwindSafe, catch_unwind};

use harness::cases::power;
use num_complex::Complex64;
use published::backend::{mps::svd::door as svd, reduced_density::door as density, schmidt::door as schmidt};
use published::gates::spectral::door as spectral;

fn real(values: &[f64]) -> Vec<Complex64> {
    values.iter().map(|&value| Complex64::new(value, 0.0)).collect()
}

fn say(what: &str, answer: &str, call: impl FnOnce() -> String) {
    let got = catch_unwind(AssertUnwindSafe(call)).unwrap_or_else(|why| {
        let text = why.downcast_ref::<String>().cloned();
        let text = text.or_else(|| why.downcast_ref::<&str>().map(|text| text.to_string()));
        format!("panics: {}", text.unwrap_or_default())
    });
    println!("| {what} | {answer} | {got} |");
}

fn parts(cells: &[Complex64]) -> String {
    format!("{:?}", cells.iter().map(|cell| (cell.re, cell.im)).collect::<Vec<_>>())
}

fn main() {
    std::panic::set_hook(Box::new(|_| {}));
    println!("| call | here | the Rust |\n|---|---|---|");
    let nan = f64::NAN;
    let infinity = f64::INFINITY;
    let above = f64::from_bits(power(200).to_bits() + 1);

    say("validate_qubit_set, n = 13, list 12", "1", || format!("{:?}", schmidt::validate_qubit_set(&[12], 13)));
    say("validate_qubit_set, n = 0, empty list", "1", || format!("{:?}", schmidt::validate_qubit_set(&[], 0)));
    say("row_offsets, list 1,1", "3 at 1", || format!("{:?}", density::row_offsets(&[1, 1])));
    say("row_offsets, empty list", "4", || format!("{:?}", density::row_offsets(&[])));
    say("row_offsets, list 64", "2 at 0", || format!("{:?}", density::row_offsets(&[64])));
    say("traced_base, e = 4, list 0, n = 3", "1", || format!("{:?}", density::traced_base(4, &[0])));
    say("dense_schmidt_values, 3 amplitudes, n = 2", "6 at 0", || {
        format!("{:?}", schmidt::dense_schmidt_values(&real(&[1.0; 3]), 2, &[0], 13))
    });
    say("dense_schmidt_values, 8 amplitudes, n = 2", "6 at 0", || {
        format!("{:?}", schmidt::dense_schmidt_values(&real(&[1.0; 8]), 2, &[0], 13))
    });
    say("dense_schmidt_values, list 0,0, n = 3", "3 at 1", || {
        format!("{:?}", schmidt::dense_schmidt_values(&real(&[1.0; 8]), 3, &[0, 0], 13))
    });
    say("dense_schmidt_values, whole register", "5", || {
        format!("{:?}", schmidt::dense_schmidt_values(&real(&[1.0; 4]), 2, &[0, 1], 13))
    });
    say("dense_schmidt_values, a NaN amplitude", "7 at 1", || {
        format!("{:?}", schmidt::dense_schmidt_values(&real(&[1.0, nan, 0.0, 0.0]), 2, &[0], 13))
    });
    say("dense_schmidt_values, zero state", "8", || {
        format!("{:?}", schmidt::dense_schmidt_values(&real(&[0.0; 4]), 2, &[0], 13))
    });
    say("dense_schmidt_values, n = 2, cap 2", "1", || {
        format!("{:?}", schmidt::dense_schmidt_values(&real(&[1.0; 4]), 2, &[0], 2))
    });
    say("dense_reduced_density, a NaN amplitude", "7 at 0", || {
        parts(&density::dense_reduced_density(&real(&[nan, 1.0]), 1, &[0]))
    });
    say("dense_reduced_density, amplitudes 2^600", "7 at 0", || {
        parts(&density::dense_reduced_density(&real(&[power(600), power(600)]), 1, &[0]))
    });
    say("normalize_trace of a zero matrix", "8, unchanged", || {
        let mut rho = real(&[0.0; 4]);
        density::normalize_trace(&mut rho, 2);
        parts(&rho)
    });
    say("normalize_trace, side 1, 2^-1074", "9, unchanged", || {
        let mut rho = real(&[power(-1074)]);
        density::normalize_trace(&mut rho, 1);
        parts(&rho)
    });
    say("multiply_block_factor, position 1 of dim 2", "1", || {
        let mut rho = real(&[1.0; 4]);
        density::multiply_block_factor(&mut rho, 2, &[1], &real(&[2.0, 3.0, 5.0, 7.0]), 2);
        parts(&rho)
    });
    say("multiply_block_factor, factor short by a cell", "6 at 2", || {
        let mut rho = real(&[1.0; 4]);
        density::multiply_block_factor(&mut rho, 2, &[0], &real(&[2.0, 3.0, 5.0]), 2);
        parts(&rho)
    });
    say("svd_jacobi, 0 by 2", "1", || format!("s {:?}", svd::svd_jacobi(&[], 0, 2).s));
    say("svd_jacobi, 2 by 2 with 3 cells", "6 at 0", || format!("s {:?}", svd::svd_jacobi(&real(&[1.0; 3]), 2, 2).s));
    say("svd_jacobi, 2 by 2 with 5 cells", "6 at 0", || format!("s {:?}", svd::svd_jacobi(&real(&[1.0; 5]), 2, 2).s));
    say("svd_jacobi, a NaN cell, 2 by 2", "7 at 0", || {
        format!("s {:?}", svd::svd_jacobi(&real(&[nan, 1.0, 1.0, 1.0]), 2, 2).s)
    });
    say("svd_jacobi, a NaN cell, 1 by 1", "7 at 0", || format!("s {:?}", svd::svd_jacobi(&real(&[nan]), 1, 1).s));
    say("svd_jacobi, an infinite cell, 2 by 2", "7 at 0", || {
        format!("s {:?}", svd::svd_jacobi(&real(&[infinity, 1.0, 1.0, 1.0]), 2, 2).s)
    });
    say("svd_jacobi, 1 by 1, next above 2^200", "7 at 0", || {
        format!("s {:?}", svd::svd_jacobi(&real(&[above]), 1, 1).s)
    });
    say("svd_jacobi, cells 2^520, 2 by 2", "7 at 0", || {
        format!("s {:?}", svd::svd_jacobi(&real(&[power(520), 1.0, 1.0, power(520)]), 2, 2).s)
    });
    say("factorize_gram_schmidt, 0 by 1", "1", || format!("{:?}", svd::factorize_gram_schmidt(&[], 0, 1)));
    say("factorize_gram_schmidt, a NaN cell", "7 at 0", || {
        let (q, r, rank) = svd::factorize_gram_schmidt(&real(&[nan, 1.0]), 2, 1);
        format!("rank {rank}, q {}, r {}", parts(&q), parts(&r))
    });
    say("hermitian_eigenvalues, dim 0", "1", || format!("{:?}", schmidt::hermitian_eigenvalues(&[], 0)));
    say("hermitian_eigenvalues, a NaN cell", "7 at 1", || {
        format!("{:?}", schmidt::hermitian_eigenvalues(&real(&[1.0, nan, nan, 1.0]), 2))
    });
    say("schmidt_values_from_density of a zero matrix", "8", || {
        format!("{:?}", schmidt::schmidt_values_from_density(&real(&[0.0; 4]), 2))
    });
    say("finish_schmidt_values of no values", "8", || format!("{:?}", schmidt::finish_schmidt_values(&[])));
    say("finish_schmidt_values of -1, -2", "8", || format!("{:?}", schmidt::finish_schmidt_values(&[-1.0, -2.0])));
    say("finish_schmidt_values of 2^-538", "9", || format!("{:?}", schmidt::finish_schmidt_values(&[power(-538)])));
    say("finish_schmidt_values of NaN, 1", "7 at 0", || format!("{:?}", schmidt::finish_schmidt_values(&[nan, 1.0])));
    say("hermitian_eigen, an infinite cell", "7 at 0", || {
        let (values, vectors) = spectral::hermitian_eigen(&real(&[infinity]), 1);
        format!("values {values:?}, vectors {}", parts(&vectors))
    });
    say("widest_block_cut, 1 site", "0, rank 0", || format!("{}", svd::widest_block_cut(3, 3, 1)));
    say("widest_block_cut, 17 sites, bonds 1", "1", || format!("{}", svd::widest_block_cut(1, 1, 17)));
    say("cut_rank, bonds 5000", "1", || format!("{}", svd::cut_rank(5000, 5000, 5000)));
    say("fill_isometry_site_data, stride 1, bond_left 1, chi 2, 3 cells", "1", || {
        parts(&svd::fill_isometry_site_data(&real(&[1.0, 2.0, 3.0]), 1, 1, 2))
    });
    say("fill_isometry_site_data, last gap missing: stride 3, bond_left 1, chi 2, 5 cells", "6 at 0", || {
        parts(&svd::fill_isometry_site_data(&real(&[1.0, 2.0, 9.0, 3.0, 4.0]), 3, 1, 2))
    });
    say("fill_scaled_u_site_data, s one short", "6 at 1", || {
        parts(&svd::fill_scaled_u_site_data(&real(&[1.0; 4]), &[1.0], 2, 1, 2))
    });
    say("fill_scaled_vt_data, a NaN value", "7 at 0", || {
        parts(&svd::fill_scaled_vt_data(&[nan], &real(&[1.0]), 1, 1, 1, 1))
    });
}
