//! The tests of factors from someone else's package in plain Rust: numbers read once into `i64`, sums in whole numbers.

use harness::oracle::cells;
use harness::random::Random;
use num_complex::Complex64;
use published::backend::mps::svd::door as svd;

/// How many whole numbers of 2^-18 are 1.
const GRID: f64 = 262_144.0;

/// A, m by n and column-major; U, m by k and column-major; S; V†, k by n and row-major. k is the smaller side.
#[derive(Clone)]
pub struct Factors {
    pub m: usize,
    pub n: usize,
    pub a: Vec<f64>,
    pub u: Vec<f64>,
    pub s: Vec<f64>,
    pub vt: Vec<f64>,
}

/// A complex number whose parts are whole.
type Whole = [i64; 2];

fn plus(x: Whole, y: Whole) -> Whole {
    [x[0] + y[0], x[1] + y[1]]
}

fn times(x: Whole, y: Whole) -> Whole {
    [x[0] * y[0] - x[1] * y[1], x[0] * y[1] + x[1] * y[0]]
}

fn within(x: Whole, y: Whole, tolerance: u64) -> bool {
    (x[0] - y[0]).unsigned_abs() <= tolerance && (x[1] - y[1]).unsigned_abs() <= tolerance
}

/// Numbers of the grid as whole numbers of 2^-18; none where one is off it or above 1.
fn whole(numbers: &[f64]) -> Option<Vec<i64>> {
    let one = |x: &f64| Some(x * GRID).filter(|x| x.abs() <= GRID && *x as i64 as f64 == *x).map(|x| x as i64);
    numbers.iter().map(one).collect()
}

fn whole_cells(numbers: &[f64]) -> Option<Vec<Whole>> {
    Some(whole(numbers)?.chunks_exact(2).map(|cell| [cell[0], cell[1]]).collect())
}

/// The first cell of the Gram matrix of k vectors of `len` cells that misses the identity.
fn first_inner(x: &[Whole], len: usize, k: usize, tolerance: u64) -> Option<usize> {
    (0..k * k).find(|&cell| {
        let [p, q] = [cell / k, cell % k].map(|at| &x[at * len..][..len]);
        let sum = p.iter().zip(q).fold([0, 0], |sum, (x, y)| plus(sum, times([x[0], -x[1]], *y)));
        !within(sum, [i64::from(cell / k == cell % k) << 36, 0], tolerance >> 18)
    })
}

impl Factors {
    /// Those of a drawn matrix by the published SVD, all rounded to the grid.
    pub fn drawn(rng: &mut Random, m: usize, n: usize) -> Factors {
        let on_grid = |x: f64| (x * GRID).round() / GRID;
        let numbers = |cells: &[Complex64]| cells.iter().flat_map(|z| [on_grid(z.re), on_grid(z.im)]).collect();
        let size = 4.0 * (m.max(n) as f64).sqrt();
        let a: Vec<f64> = (0..2 * m * n).map(|_| on_grid(rng.unit() / size)).collect();
        let factors = svd::svd_jacobi(&cells(&a), m, n);
        let s = factors.s.iter().map(|&x| on_grid(x)).collect();
        Factors { m, n, a, u: numbers(&factors.u), s, vt: numbers(&factors.vt) }
    }

    /// Yes or no, the test from 1 to 4 and its first failing cell; none where a number is off the grid.
    pub fn verdict(&self, tolerance: u64) -> Option<(bool, usize, usize)> {
        let (m, n, k) = (self.m, self.n, self.m.min(self.n));
        let [a, u, vt] = [&self.a, &self.u, &self.vt].map(|numbers| whole_cells(numbers));
        let (a, u, s, vt) = (a?, u?, whole(&self.s)?, vt?);
        let product = (0..m * n).find(|&cell| {
            let (i, j) = (cell % m, cell / m);
            let term = |t: usize| times([u[t * m + i][0] * s[t], u[t * m + i][1] * s[t]], vt[t * n + j]);
            let sum = (0..k).fold([0, 0], |sum, t| plus(sum, term(t)));
            !within([a[cell][0] << 36, a[cell][1] << 36], sum, tolerance)
        });
        let left = || first_inner(&u, m, k, tolerance).map(|cell| (2, cell));
        let right = || first_inner(&vt, n, k, tolerance).map(|cell| (3, cell));
        let values = || (0..k).find(|&i| s[i] < 0 || i > 0 && s[i] > s[i - 1]).map(|cell| (4, cell));
        let failed = product.map(|cell| (1, cell)).or_else(left).or_else(right).or_else(values);
        Some(failed.map_or((true, 0, 0), |(test, cell)| (false, test, cell)))
    }
}
