//! The chain of sites: what the other calls give by hand in that order, the state that the sites give back, and refusals.
#[allow(dead_code)]
mod draw;
use draw::Draw;
use zegrafult::*;

/// The sites, the ranks and the drops by calls of the parts.
fn by_hand(state: &[Complex], n: usize, epsilon: f64, limit: usize) -> (Vec<Vec<Complex>>, Vec<usize>, Chain) {
    let mut carried: Vec<Complex> = (0..1usize << n).map(|x| state[x.reverse_bits() >> (usize::BITS as usize - n)]).collect();
    let (mut sites, mut bonds, mut made) = (vec![], vec![1], Chain { sites: vec![], dropped: 0, marks: vec![] });
    for j in 0..n - 1 {
        let (rows, columns) = (2 * bonds[j], 1 << (n - 1 - j));
        let matrix: Vec<Complex> = (0..rows * columns).map(|at| carried[at % rows * columns + at / rows]).collect();
        let svd = svd_jacobi(&matrix, rows, columns).unwrap();
        let rank = truncated_svd_rank(&svd.s, epsilon, limit);
        made.dropped += usize::from(discards_resolvable_weight(&svd.s, rank));
        made.marks.push(Mark { sweeps: svd.sweeps, quiet: svd.quiet, turned: svd.turned });
        sites.push(fill_isometry_site_data(&svd.u, rows, bonds[j], rank).unwrap());
        carried = fill_scaled_vt_data(&svd.s, &svd.vt, columns, rank, columns, 1).unwrap();
        bonds.push(rank);
    }
    sites.push(carried);
    bonds.push(1);
    (sites, bonds, made)
}

fn bits(cells: &[Complex]) -> Vec<(u64, u64)> {
    cells.iter().map(|z| (z.re.to_bits(), z.im.to_bits())).collect()
}

fn times(a: Complex, b: Complex) -> Complex {
    Complex::new(a.re * b.re - a.im * b.im, a.re * b.im + a.im * b.re)
}

fn plus(a: Complex, b: Complex) -> Complex {
    Complex::new(a.re + b.re, a.im + b.im)
}

/// Amplitude x of the state that the sites give back.
fn amplitude(chain: &Chain, x: usize) -> Complex {
    let mut row = vec![Complex::real(1.0)];
    for (j, site) in chain.sites.iter().enumerate() {
        let cell = |alpha, beta| site.cell(alpha, x >> j & 1, beta).unwrap();
        let sum = |beta| row.iter().enumerate().fold(Complex::default(), |sum, (alpha, &a)| plus(sum, times(a, cell(alpha, beta))));
        row = (0..site.bond_right).map(sum).collect();
    }
    row[0]
}

#[test]
fn the_parts_by_hand() {
    let draw = &mut Draw(21);
    for n in 1..=7 {
        for (epsilon, limit) in [(1e-12, 64), (0.0, 3), (0.3, 64), (f64::NAN, 64), (-1.0, 2), (1e-12, 1)] {
            for _ in 0..6 {
                let state = draw.state(n);
                let Ok(chain) = chain_of_sites(&state, n, epsilon, limit) else {
                    assert!(state.iter().all(|z| z.re == 0.0 && z.im == 0.0));
                    continue;
                };
                let (sites, bonds, made) = by_hand(&state, n, epsilon, limit);
                assert_eq!((chain.dropped, &chain.marks), (made.dropped, &made.marks));
                for (j, site) in chain.sites.iter().enumerate() {
                    assert_eq!((site.bond_left, site.bond_right), (bonds[j], bonds[j + 1]));
                    let inner = j + 1 < n;
                    assert!(site.bond_right <= limit && (!inner || site.bond_right as u64 <= widest_block_cut(1, 1, n).unwrap()));
                    assert_eq!(bits(&site.cells), bits(&sites[j]));
                }
            }
        }
    }
}

#[test]
fn the_state_comes_back() {
    let draw = &mut Draw(4);
    for n in 1..=8 {
        for _ in 0..10 {
            let state = draw.state(n);
            let norm = state.iter().map(|z| z.re * z.re + z.im * z.im).sum::<f64>().sqrt();
            let Ok(chain) = chain_of_sites(&state, n, 1e-15, 64) else { continue };
            assert_eq!(chain.dropped, 0);
            let far = (0..1 << n).map(|x| plus(amplitude(&chain, x), Complex::new(-state[x].re, -state[x].im)));
            let far = far.map(|z| z.re * z.re + z.im * z.im).sum::<f64>().sqrt();
            assert!(far <= 1e-13 * norm, "{far:e} of {norm:e}");
        }
    }
}

#[test]
fn one_qubit_and_twelve() {
    let one = [Complex::new(-0.0, 3.0), Complex::real(4.0)];
    let chain = chain_of_sites(&one, 1, f64::NAN, 1).unwrap();
    assert_eq!((chain.sites.len(), chain.dropped, chain.marks.len()), (1, 0, 0));
    assert_eq!(bits(&chain.sites[0].cells), bits(&one));
    let mut ghz = vec![Complex::default(); 4096];
    (ghz[0], ghz[4095]) = (Complex::real(0.6), Complex::real(0.8));
    let chain = chain_of_sites(&ghz, 12, 1e-12, usize::MAX).unwrap();
    assert!(chain.sites[..11].iter().all(|site| site.bond_right == 2) && chain.marks.iter().all(|mark| mark.quiet));
    assert_eq!(amplitude(&chain, 4095).re, 0.8);
}

#[test]
fn refusals() {
    let refused = |state: &[Complex], n, limit| {
        let refusal = chain_of_sites(state, n, 1e-12, limit).unwrap_err();
        (refusal.number(), refusal.place())
    };
    let state = [1.0, 0.0, 0.0, 1.0].map(Complex::real);
    for (n, limit) in [(2, 0), (13, 0), (0, 1), (13, 1), (usize::MAX, usize::MAX)] {
        assert_eq!(refused(&state, n, limit), (1, 0));
    }
    assert_eq!(refused(&state, 3, 1), (6, 0));
    let most = 2f64.powi(190);
    let above = f64::from_bits(most.to_bits() + 1);
    assert!(chain_of_sites(&[most, -most, most, most].map(Complex::real), 2, 1e-12, 2).is_ok());
    assert_eq!(refused(&[0.0, 0.0, -above, f64::NAN].map(Complex::real), 2, 1), (7, 2));
    assert_eq!(refused(&[0.0, -0.0, 0.0, 0.0].map(Complex::real), 2, 1), (8, 0));
}
