//! The lent buffers of every `_into` call: the lengths that the helpers give are taken, one element less is refused by 6 at that slice, and
//! what is past the need stays; the results are those of the calls that allocate.
use zegrafult::*;

fn state(n: usize) -> Vec<Complex> {
    (0..1usize << n).map(|i| Complex::new(1.0 / (1 + i % 7) as f64, (i % 5) as f64 - 2.0)).collect()
}

fn hermitian(dim: usize) -> Vec<Complex> {
    (0..dim * dim).map(|at| (at / dim, at % dim)).map(|(i, j)| Complex::new(1.0 / (1 + i + j) as f64, (i as f64 - j as f64) / 8.0)).collect()
}

const MARK: f64 = 1234.5;

/// Buffers of these lengths, each with one element more than needed: cells, numbers and whole numbers.
struct Lent(Vec<Vec<Complex>>, Vec<Vec<f64>>, Vec<Vec<usize>>);

impl Lent {
    fn new(cells: &[usize], numbers: &[usize], whole: &[usize]) -> Self {
        Lent(
            cells.iter().map(|&l| vec![Complex::real(MARK); l + 1]).collect(),
            numbers.iter().map(|&l| vec![MARK; l + 1]).collect(),
            whole.iter().map(|&l| vec![77; l + 1]).collect(),
        )
    }

    fn untouched(&self) -> bool {
        self.0.iter().all(|row| row.last() == Some(&Complex::real(MARK)))
            && self.1.iter().all(|row| row.last() == Some(&MARK))
            && self.2.iter().all(|row| row.last() == Some(&77))
    }
}

/// `call` with buffers of the lengths `need`, in which every one after the other is one too short: the slices that are refused.
fn short<T: std::fmt::Debug>(name: &str, need: &[usize], slices: &[usize], call: impl Fn(&[usize]) -> Result<T, Refusal>) {
    assert!(call(need).is_ok(), "{name}: {:?}", call(need));
    for (at, &slice) in slices.iter().enumerate().filter(|&(at, _)| need[at] > 0) {
        let mut less = need.to_vec();
        less[at] -= 1;
        assert_eq!(call(&less).unwrap_err(), Refusal::Length(slice), "{name}");
    }
}

#[test]
fn lists_and_densities() {
    for (n, list) in [(4, vec![2, 0]), (5, vec![4, 1, 0, 3]), (1, vec![0])] {
        let (s, k) = (state(n), list.len());
        short("row_offsets", &[row_offsets_out_len(k)], &[1], |l| row_offsets_into(&list, n, CAP, &mut vec![0; l[0]]));
        short("density", &[dense_reduced_density_out_len(k), dense_reduced_density_scratch_len(k)], &[2, 3], |l| {
            dense_reduced_density_into(&s, n, &list, CAP, &mut vec![Complex::default(); l[0]], &mut vec![0.0; l[1]])
        });
        let mut lent = Lent::new(&[dense_reduced_density_out_len(k)], &[dense_reduced_density_scratch_len(k)], &[]);
        dense_reduced_density_into(&s, n, &list, CAP, &mut lent.0[0], &mut lent.1[0]).unwrap();
        assert!(lent.untouched());
        assert_eq!(lent.0[0][..1 << (2 * k)], dense_reduced_density(&s, n, &list, CAP).unwrap());
        if k == n {
            continue;
        }
        short("smaller_side", &[smaller_side_others_len(n, k)], &[1], |l| smaller_side_into(&list, n, CAP, &mut vec![0; l[0]]));
        short("cut_matrix", &[cut_matrix_out_len(n)], &[2], |l| cut_matrix_into(&s, n, &list, CAP, &mut vec![Complex::default(); l[0]]));
        let cut = cut_matrix(&s, n, &list, CAP).unwrap().cells;
        short("density_from_cut", &[density_from_cut_out_len(k)], &[2], |l| {
            density_from_cut_into(&cut, n, &list, CAP, &mut vec![Complex::default(); l[0]])
        });
    }
}

#[test]
fn factors() {
    for (m, n) in [(3, 2), (2, 5), (1, 1), (64, 64)] {
        let a: Vec<Complex> = state(12).into_iter().take(m * n).collect();
        let need = [svd_jacobi_u_len(m, n), svd_jacobi_values(m, n), svd_jacobi_vt_len(m, n), svd_jacobi_scratch_len(m, n)];
        short("svd", &need, &[1, 2, 3, 4], |l| {
            svd_jacobi_into(&a, m, n, &mut vec![Complex::default(); l[0]], &mut vec![0.0; l[1]], &mut vec![Complex::default(); l[2]], &mut vec![0.0; l[3]])
        });
        let need = [factorize_gram_schmidt_q_len(m, n), factorize_gram_schmidt_r_len(m, n), factorize_gram_schmidt_scratch_len(m, n)];
        short("qr", &need, &[1, 2, 3], |l| {
            factorize_gram_schmidt_into(&a, m, n, &mut vec![Complex::default(); l[0]], &mut vec![Complex::default(); l[1]], &mut vec![0.0; l[2]])
        });
        let mut lent = Lent::new(&[need[0], need[1]], &[need[2]], &[]);
        let [q, r] = &mut lent.0[..] else { unreachable!() };
        let rank = factorize_gram_schmidt_into(&a, m, n, q, r, &mut lent.1[0]).unwrap();
        let qr = factorize_gram_schmidt(&a, m, n).unwrap();
        assert_eq!((rank, &q[..need[0]], &r[..need[1]]), (qr.rank, &qr.q[..], &qr.r[..]));
        assert!(lent.untouched());
    }
}

#[test]
fn spectra() {
    for dim in [1, 2, 7, 64] {
        let a = hermitian(dim);
        short("eigenvalues", &[hermitian_eigenvalues_out_len(dim), hermitian_eigenvalues_scratch_len(dim)], &[1, 2], |l| {
            hermitian_eigenvalues_into(&a, dim, &mut vec![0.0; l[0]], &mut vec![0.0; l[1]])
        });
        short("from_density", &[schmidt_values_from_density_out_len(dim), schmidt_values_from_density_scratch_len(dim)], &[1, 2], |l| {
            schmidt_values_from_density_into(&a, dim, &mut vec![0.0; l[0]], &mut vec![0.0; l[1]])
        });
        let need = [hermitian_eigen_values_len(dim), hermitian_eigen_vectors_len(dim), hermitian_eigen_scratch_len(dim)];
        short("eigen", &need, &[1, 2, 3], |l| {
            hermitian_eigen_into(&a, dim, &mut vec![0.0; l[0]], &mut vec![Complex::default(); l[1]], &mut vec![0.0; l[2]])
        });
        let values: Vec<f64> = (0..dim).map(|i| 1.0 + i as f64).collect();
        short("finish", &[finish_schmidt_values_out_len(dim)], &[1], |l| finish_schmidt_values_into(&values, &mut vec![0.0; l[0]]));
        let mut lent = Lent::new(&[need[1]], &[need[0], need[2]], &[]);
        let [values, scratch] = &mut lent.1[..] else { unreachable!() };
        let sweeps = hermitian_eigen_into(&a, dim, values, &mut lent.0[0], scratch).unwrap();
        let eigen = hermitian_eigen(&a, dim).unwrap();
        assert_eq!((&values[..dim], &lent.0[0][..dim * dim], sweeps.turned), (&eigen.values[..], &eigen.vectors[..], eigen.turned));
        assert!(lent.untouched());
    }
}

#[test]
fn cuts_and_chains() {
    for n in [2, 5, 12] {
        let (s, list) = (state(n), [1]);
        short("values", &[dense_schmidt_values_out_len(n, 1), dense_schmidt_values_scratch_len(n, 1)], &[2, 3], |l| {
            dense_schmidt_values_into(&s, n, &list, CAP, &mut vec![0.0; l[0]], &mut vec![0.0; l[1]])
        });
        short("entropy", &[entropy_band_bands_len(n, 1), entropy_band_scratch_len(n, 1)], &[2, 3], |l| {
            entropy_band_into(&s, n, &list, CAP, &mut vec![0; l[0]], &mut vec![0.0; l[1]])
        });
    }
    for n in [2, 5] {
        let (s, cuts) = (state(n), cut_profile_cuts(n));
        let need = [cut_profile_header_len(n), cut_profile_values_len(n), cuts, cuts, cut_profile_marks_len(n), cut_profile_scratch_len(n)];
        short("profile", &need, &[1, 2, 3, 4, 5, 6], |l| {
            let (mut header, mut values, mut largest) = (vec![0; l[0]], vec![0.0; l[1]], vec![0.0; l[2]]);
            let (mut ranks, mut marks, mut scratch) = (vec![0; l[3]], vec![0; l[4]], vec![0.0; l[5]]);
            cut_profile_into(&s, n, CAP, &mut header, &mut values, &mut largest, &mut ranks, &mut marks, &mut scratch)
        });
        for limit in [1, 3, 64] {
            let (bonds, plane) = (chain_of_sites_bonds_len(n), chain_of_sites_matrix_len(n));
            let need = [chain_of_sites_sites_len(n, limit), bonds, bonds, chain_of_sites_marks_len(n), plane, plane, plane, chain_of_sites_scratch_len(n)];
            short("chain", &need, &[1, 2, 3, 4, 5, 6, 7, 8], |l| {
                let (mut sites, mut bonds, mut starts, mut marks) = (vec![Complex::default(); l[0]], vec![0; l[1]], vec![0; l[2]], vec![0; l[3]]);
                let (mut matrix, mut u, mut vt, mut scratch) = (vec![0.0; l[4]], vec![0.0; l[5]], vec![0.0; l[6]], vec![0.0; l[7]]);
                chain_of_sites_into(
                    &s, n, 1e-12, limit, &mut sites, &mut bonds, &mut starts, &mut marks, &mut matrix, &mut u, &mut vt, &mut scratch,
                )
            });
        }
    }
}

#[test]
fn fills() {
    let (cells, values) = (state(8), [1.0; 16]);
    let out = |l: &[usize]| vec![Complex::default(); l[0]];
    for (bond, chi) in [(2, 3), (1, 1), (4, 2)] {
        let stride = 2 * bond;
        short("isometry", &[fill_isometry_site_data_out_len(bond, chi)], &[1], |l| fill_isometry_site_data_into(&cells, stride, bond, chi, &mut out(l)));
        short("scaled u", &[fill_scaled_u_site_data_out_len(bond, chi)], &[2], |l| {
            fill_scaled_u_site_data_into(&cells, &values, stride, bond, chi, &mut out(l))
        });
        short("vt", &[fill_vt_site_data_out_len(chi, 2, bond)], &[1], |l| fill_vt_site_data_into(&cells, stride, chi, 2, bond, &mut out(l)));
        short("scaled vt", &[fill_scaled_vt_data_out_len(chi, 2, bond)], &[2], |l| {
            fill_scaled_vt_data_into(&values, &cells, stride, chi, 2, bond, &mut out(l))
        });
    }
}

/// For sizes that are not taken a length is 0, and nothing wraps around.
#[test]
fn sizes_that_are_not_taken() {
    let huge = usize::MAX;
    for q in [13, 64, huge] {
        assert_eq!([row_offsets_out_len(q), cut_matrix_out_len(q), dense_reduced_density_out_len(q), cut_profile_cuts(q)], [0; 4]);
        assert_eq!([cut_profile_scratch_len(q), chain_of_sites_bonds_len(q), chain_of_sites_marks_len(q), chain_of_sites_sites_len(q, 64)], [0; 4]);
        assert_eq!([cut_profile_values_len(q), smaller_side_others_len(q, 1), chain_of_sites_scratch_len(q), chain_of_sites_matrix_len(q)], [0; 4]);
    }
    assert_eq!([svd_jacobi_u_len(huge, 2), svd_jacobi_vt_len(2, huge), svd_jacobi_scratch_len(65, 64), factorize_gram_schmidt_q_len(0, 5)], [0; 4]);
    assert_eq!([hermitian_eigen_vectors_len(65), hermitian_eigenvalues_out_len(0), hermitian_eigen_scratch_len(huge), finish_schmidt_values_out_len(65)], [0; 4]);
    assert_eq!([fill_vt_site_data_out_len(huge, huge, huge), fill_isometry_site_data_out_len(huge, 2), smaller_side_others_len(3, 5), cut_profile_cuts(0)], [0; 4]);
}
