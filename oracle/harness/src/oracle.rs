//! The outcome that the published Rust gives to a call, within the paper's frame: refusals by the table, then the Rust's
//! own results, then answers 8 and 9, zeros and surplus as the paper has them.

use std::panic::{AssertUnwindSafe, catch_unwind};

use num_complex::Complex64;

use crate::call::{Call, Entry::*, Outcome, Sweeps};
use crate::table::{self, Role};

/// What the Rust computed: the number handed back, the needed cells of each slice that is written, and 8 or 9 where the
/// paper answers so for a reason that does not show in those cells.
pub struct Result {
    pub value: u64,
    pub written: Vec<Vec<u64>>,
    pub answer: u32,
}

/// The published text, the one with `norm` replaced by the modulus of `scaffold/modulus.rs`, or that with its sweeps counted.
#[derive(Clone, Copy, Debug, PartialEq, Eq)]
pub enum Build {
    Published,
    Replaced,
    Counting,
}

pub fn cells(numbers: &[f64]) -> Vec<Complex64> {
    numbers.chunks_exact(2).map(|pair| Complex64::new(pair[0], pair[1])).collect()
}

pub fn bits_of_cells(cells: &[Complex64]) -> Vec<u64> {
    cells.iter().flat_map(|cell| [cell.re.to_bits(), cell.im.to_bits()]).collect()
}

pub fn bits(numbers: &[f64]) -> Vec<u64> {
    numbers.iter().map(|number| number.to_bits()).collect()
}

fn padded(mut words: Vec<u64>, length: usize) -> Vec<u64> {
    words.resize(length, 0);
    words
}

macro_rules! build {
    ($module:ident, $crate_name:ident) => {
        pub mod $module {
            use super::*;
            use $crate_name::backend::mps::svd::door as svd;
            use $crate_name::backend::reduced_density::door as density;
            use $crate_name::backend::schmidt::door as schmidt;
            use $crate_name::gates::spectral::door as spectral;

            /// The Rust's result of a call that the table does not refuse.
            pub fn run(call: &Call) -> Result {
                match call.entry {
                    validate_qubit_set | validate_subsystem | row_offsets | traced_base | smaller_side => lists(call),
                    cut_matrix | dense_schmidt_values | dense_reduced_density => states(call),
                    cut_profile => profile(call),
                    mirror_lower_triangle | normalize_trace | multiply_block_factor => densities(call),
                    svd_jacobi | factorize_gram_schmidt => factors(call),
                    hermitian_eigenvalues | finish_schmidt_values | schmidt_values_from_density | hermitian_eigen => {
                        spectra(call)
                    }
                    truncated_svd_rank | discards_resolvable_weight | cut_rank | widest_block_cut => ranks(call),
                    fill_isometry_site_data | fill_scaled_u_site_data | fill_vt_site_data | fill_scaled_vt_data => {
                        fills(call)
                    }
                    chain_of_sites => chain(call),
                    sqrt | sqrt_bits | sqrt_marked | magnitude | sign | is_finite | component_allowed | total_less
                    | total_order => {
                        done(number_helper(call), vec![])
                    }
                    modulus => done(one_nan(svd::norm(Complex64::new(call.float(0), call.float(1)))), vec![]),
                }
            }

            fn lists(call: &Call) -> Result {
                match call.entry {
                    validate_qubit_set => {
                        schmidt::validate_qubit_set(&call.words(0), call.one(1)).unwrap();
                        done(0, vec![])
                    }
                    validate_subsystem => {
                        schmidt::validate_subsystem(&call.words(0), call.one(1)).unwrap();
                        done(0, vec![])
                    }
                    row_offsets => {
                        let offsets = density::row_offsets(&call.words(0));
                        done(0, vec![offsets.iter().map(|&offset| offset as u64).collect()])
                    }
                    traced_base => {
                        let mut ascending = call.words(1);
                        ascending.sort_unstable();
                        done(density::traced_base(call.one(0), &ascending) as u64, vec![])
                    }
                    _ => done(0, vec![others(&call.words(0), call.one(1))]),
                }
            }

            fn states(call: &Call) -> Result {
                let (state, n, list) = (cells(&call.floats(0)), call.one(1), call.words(2));
                match call.entry {
                    cut_matrix => done(0, vec![bits_of_cells(&gather(&state, n, &list))]),
                    dense_schmidt_values => {
                        let values = schmidt::dense_schmidt_values(&state, n, &list, call.one(3).min(13)).unwrap();
                        counted(values, 1 << list.len().min(n - list.len()))
                    }
                    _ => done(0, vec![bits_of_cells(&density::dense_reduced_density(&state, n, &list))]),
                }
            }

            /// One call for each cut 0..j, the lowest j first; the first that has no value or one that is not finite ends it.
            /// The marks are those of a build that counts, and zeros where none was counted.
            fn profile(call: &Call) -> Result {
                let (state, n) = (cells(&call.floats(0)), call.one(1));
                let [mut header, mut packed, mut largest, mut ranks, mut marks] = [(); 5].map(|()| vec![]);
                for j in 0..n - 1 {
                    let list: Vec<usize> = (0..=j).collect();
                    counting::count::taken();
                    let values = schmidt::dense_schmidt_values(&state, n, &list, call.one(2).min(13)).unwrap();
                    let count = counting::count::taken();
                    if values.is_empty() || !finite(&bits(&values)) {
                        let length = values.len();
                        return counted(values, length);
                    }
                    header.extend([values.len() as u64, packed.len() as u64]);
                    packed.extend(bits(&values));
                    largest.push(values[0].to_bits());
                    ranks.push(values.len() as u64);
                    let seen = count.sweeps > 0;
                    let yes = |mark: bool| u64::from(seen && mark);
                    marks.extend([
                        count.sweeps as u64,
                        yes(count.turns_of_last == 0),
                        count.turns as u64,
                        yes(count.uneven == 0),
                    ]);
                }
                let room = (1..n).map(|k| 1 << k.min(n - k)).sum();
                done(0, vec![header, padded(packed, room), largest, ranks, marks])
            }

            fn densities(call: &Call) -> Result {
                let (mut rho, dim) = (cells(&call.floats(0)), call.one(1));
                let trace: f64 = (0..dim).map(|t| rho[t * dim + t].re).sum();
                match call.entry {
                    mirror_lower_triangle => density::mirror_lower_triangle(&mut rho, dim),
                    normalize_trace => density::normalize_trace(&mut rho, dim),
                    _ => {
                        let (positions, factor) = (call.words(2), cells(&call.floats(3)));
                        density::multiply_block_factor(&mut rho, dim, &positions, &factor, call.one(4));
                    }
                }
                let answer = if call.entry == normalize_trace && trace == 0.0 { 8 } else { 0 };
                Result { value: 0, written: vec![bits_of_cells(&rho)], answer }
            }

            fn factors(call: &Call) -> Result {
                let (a, m, n) = (cells(&call.floats(0)), call.one(1), call.one(2));
                if call.entry == svd_jacobi {
                    let factors = svd::svd_jacobi(&a, m, n);
                    return done(0, vec![bits_of_cells(&factors.u), bits(&factors.s), bits_of_cells(&factors.vt)]);
                }
                let (mut q, mut r, rank) = svd::factorize_gram_schmidt(&a, m, n);
                // The Rust leaves old contents past the rank; the paper has +0.0 there.
                q.truncate(m * rank);
                r.truncate(rank * n);
                let k = m.min(n);
                done(rank as u64, vec![padded(bits_of_cells(&q), 2 * m * k), padded(bits_of_cells(&r), 2 * k * n)])
            }

            fn spectra(call: &Call) -> Result {
                if call.entry == finish_schmidt_values {
                    return counted(schmidt::finish_schmidt_values(&call.floats(0)), call.many(0).len());
                }
                let (a, dim) = (cells(&call.floats(0)), call.one(1));
                match call.entry {
                    hermitian_eigenvalues => done(0, vec![bits(&schmidt::hermitian_eigenvalues(&a, dim))]),
                    schmidt_values_from_density => counted(schmidt::schmidt_values_from_density(&a, dim), dim),
                    _ => {
                        let (values, vectors) = spectral::hermitian_eigen(&a, dim);
                        done(0, vec![bits(&values), bits_of_cells(&vectors)])
                    }
                }
            }

            fn ranks(call: &Call) -> Result {
                let one = |at| call.one(at);
                let value = match call.entry {
                    truncated_svd_rank => svd::truncated_svd_rank(&call.floats(0), call.float(1), one(2)) as u64,
                    discards_resolvable_weight => svd::discards_resolvable_weight(&call.floats(0), one(1)) as u64,
                    cut_rank => svd::cut_rank(one(0), one(1), one(2)) as u64,
                    _ => svd::widest_block_cut(one(0), one(1), one(2)) as u64,
                };
                done(value, vec![])
            }

            fn fills(call: &Call) -> Result {
                let one = |at| call.one(at);
                let (numbers, cells_of) = (|at| call.floats(at), |at| cells(&call.floats(at)));
                let out = match call.entry {
                    fill_isometry_site_data => svd::fill_isometry_site_data(&cells_of(0), one(1), one(2), one(3)),
                    fill_scaled_u_site_data => {
                        svd::fill_scaled_u_site_data(&cells_of(0), &numbers(1), one(2), one(3), one(4))
                    }
                    fill_vt_site_data => svd::fill_vt_site_data(&cells_of(0), one(1), one(2), one(3), one(4)),
                    _ => svd::fill_scaled_vt_data(&numbers(0), &cells_of(1), one(2), one(3), one(4), one(5)),
                };
                done(0, vec![bits_of_cells(&out)])
            }

            /// The chain of sites by the published functions in the paper's order. The Rust has such a walk only inside
            /// `decompose_n_sites`, which is a method of a whole register.
            fn chain(call: &Call) -> Result {
                let (state, n, epsilon, limit) = (cells(&call.floats(0)), call.one(1), call.float(2), call.one(3));
                if state.iter().all(|cell| cell.re == 0.0 && cell.im == 0.0) {
                    return refused(8);
                }
                // Qubit 0 is the highest bit of what is carried first.
                let mut carried: Vec<Complex64> = (0..1 << n).map(|x| state[other_way(x, n)]).collect();
                let mut chain = Chain::default();
                for j in 0..n - 1 {
                    let (bond, columns) = (chain.bond(), 1 << (n - 1 - j));
                    let rows = 2 * bond;
                    // Row bond·2 + bit of qubit j; in the column the bit of qubit j+1 is the highest.
                    let matrix: Vec<Complex64> =
                        (0..rows * columns).map(|at| carried[at % rows * columns + at / rows]).collect();
                    counting::count::taken();
                    let factors = svd::svd_jacobi(&matrix, rows, columns);
                    chain.mark(counting::count::taken());
                    let all = [bits_of_cells(&factors.u), bits(&factors.s), bits_of_cells(&factors.vt)];
                    if !all.iter().all(|words| finite(words)) {
                        return refused(9);
                    }
                    let rank = svd::truncated_svd_rank(&factors.s, epsilon, limit);
                    chain.dropped += u64::from(svd::discards_resolvable_weight(&factors.s, rank));
                    chain.put(&svd::fill_isometry_site_data(&factors.u, rows, bond, rank), rank);
                    carried = svd::fill_scaled_vt_data(&factors.s, &factors.vt, columns, rank, columns, 1);
                    if !bits_of_cells(&carried).into_iter().all(table::allowed) {
                        return refused(9);
                    }
                }
                chain.put(&carried, 1);
                chain.result(call)
            }
        }
    };
}

/// The lowest n bits of x in the other order.
fn other_way(x: usize, n: usize) -> usize {
    (0..n).filter(|bit| x >> bit & 1 == 1).map(|bit| 1 << (n - 1 - bit)).sum()
}

fn refused(answer: u32) -> Result {
    Result { value: 0, written: vec![], answer }
}

/// The sites so far one after another, their bonds, the cell where each starts, the marks of the factorisations, and how many
/// cuts dropped a value above the resolution.
#[derive(Default)]
struct Chain {
    sites: Vec<u64>,
    ranks: Vec<u64>,
    ends: Vec<u64>,
    marks: Vec<u64>,
    dropped: u64,
}

impl Chain {
    /// The bond that the next site has on its left.
    fn bond(&self) -> usize {
        self.ranks.last().map_or(1, |&rank| rank as usize)
    }

    fn mark(&mut self, count: counting::count::Count) {
        self.marks.extend([count.sweeps as u64, u64::from(count.turns_of_last == 0), count.turns as u64]);
    }

    fn put(&mut self, site: &[Complex64], rank: usize) {
        self.sites.extend(bits_of_cells(site));
        self.ranks.push(rank as u64);
        self.ends.push(self.sites.len() as u64 / 2);
    }

    /// +0.0 past the sites.
    fn result(self, call: &Call) -> Result {
        let Role::Output(needed) = table::roles(call)[1] else { panic!("sites are an output") };
        let (bonds, starts) = ([vec![1], self.ranks].concat(), [vec![0], self.ends].concat());
        done(self.dropped, vec![padded(self.sites, needed), bonds, starts, self.marks])
    }
}

build!(as_published, published);
build!(as_replaced, replaced);
build!(as_counting, counting);

fn done(value: u64, written: Vec<Vec<u64>>) -> Result {
    Result { value, written, answer: 0 }
}

/// The number helpers, with one NaN only: the Rust's order tells NaNs apart by sign and payload. The rule of allowed
/// components is the paper's own.
fn number_helper(call: &Call) -> u64 {
    let x = call.float(0);
    match call.entry {
        sqrt | sqrt_bits | sqrt_marked => one_nan(x.sqrt()),
        magnitude => one_nan(x.abs()),
        sign => one_nan(x.signum()),
        is_finite => u64::from(x.is_finite()),
        component_allowed => u64::from(table::allowed(call.one(0) as u64)),
        total_less => u64::from(total_order_of(call).is_lt()),
        _ => (total_order_of(call) as i64 + 1) as u64,
    }
}

/// The smaller side's list where the others are that side. The Rust has no such call.
fn others(list: &[usize], n: usize) -> Vec<u64> {
    let others: Vec<usize> = (0..n).filter(|qubit| !list.contains(qubit)).collect();
    if others.len() < list.len() { others.into_iter().map(|qubit| qubit as u64).collect() } else { vec![] }
}

/// The one NaN that the paper names.
pub const NAN: u64 = 0x7FF8000000000000;

fn total_order_of(call: &Call) -> std::cmp::Ordering {
    let [a, b] = [0, 1].map(|at| f64::from_bits(one_nan(call.float(at))));
    a.total_cmp(&b)
}

fn one_nan(x: f64) -> u64 {
    if x.is_nan() { NAN } else { x.to_bits() }
}

/// Kept values, +0.0 after them.
fn counted(values: Vec<f64>, length: usize) -> Result {
    let answer = if values.is_empty() { 8 } else { 0 };
    Result { value: values.len() as u64, written: vec![padded(bits(&values), length)], answer }
}

/// The cut matrix by its words: row j is the j-th submask of the row mask in rising order, columns likewise. The Rust
/// has it only inside `dense_schmidt_values`, so this is a statement of our own.
fn gather(state: &[Complex64], n: usize, list: &[usize]) -> Vec<Complex64> {
    let named: usize = list.iter().map(|qubit| 1 << qubit).sum();
    let others = (1 << n) - 1 - named;
    let (row_mask, column_mask) = if list.len() <= n - list.len() { (named, others) } else { (others, named) };
    let submasks = |mask: usize| (0..1usize << n).filter(move |x| x & !mask == 0);
    submasks(column_mask).flat_map(|column| submasks(row_mask).map(move |row| state[column | row])).collect()
}

fn finite(words: &[u64]) -> bool {
    words.iter().all(|&word| f64::from_bits(word).is_finite())
}

/// Whether the slices that the call writes hold floats.
fn writes_floats(call: &Call) -> bool {
    !matches!(call.entry, row_offsets | smaller_side)
}

/// The whole outcome of a call. A panic of the Rust on an accepted call is a NaN that its sort met: answer 9.
pub fn outcome(call: &Call, build: Build) -> Outcome {
    let counts = build == Build::Counting && call.entry.sweeps();
    let none = counts.then(Sweeps::default);
    let marks = build == Build::Counting && call.entry.marks();
    let mut slices: Vec<Vec<u64>> = call.slices().iter().map(|&at| call.many(at).to_vec()).collect();
    if let Some((number, place)) = table::refusal(call) {
        return Outcome { number, place, value: 0, sweeps: none, exact: marks.then_some(false), slices };
    }
    counting::count::taken();
    let ran = catch_unwind(AssertUnwindSafe(|| match build {
        Build::Published => as_published::run(call),
        Build::Replaced => as_replaced::run(call),
        Build::Counting => as_counting::run(call),
    }));
    let count = counting::count::taken();
    let number = match &ran {
        Err(_) => 9,
        Ok(result) if result.answer != 0 => result.answer,
        Ok(result) if writes_floats(call) && !result.written.iter().all(|words| finite(words)) => 9,
        Ok(_) => 0,
    };
    let mut written = match &ran {
        Ok(result) if number == 0 => result.written.clone(),
        _ => vec![],
    }
    .into_iter();
    for (slice, role) in slices.iter_mut().zip(table::roles(call)) {
        match role {
            Role::Output(needed) if number == 0 => {
                let cells = written.next().expect("a written slice");
                assert_eq!(cells.len(), needed, "{:?}", call.entry);
                slice[..needed].copy_from_slice(&cells);
            }
            Role::Both(needed) if number == 0 => {
                let cells = written.next().expect("a written slice");
                assert_eq!(cells.len(), needed, "{:?}", call.entry);
                slice.copy_from_slice(&cells);
            }
            Role::Output(needed) | Role::Scratch(needed) => slice[..needed].fill(0),
            Role::Both(_) | Role::Exact(_) | Role::AtLeast(_) | Role::Free => {}
        }
    }
    let value = match ran {
        Ok(result) if number == 0 => result.value,
        _ => 0,
    };
    let swept = Sweeps { begun: count.sweeps as u64, quiet: count.turns_of_last == 0, turned: count.turns as u64 };
    let sweeps = if number == 0 { counts.then_some(swept) } else { none };
    let even = match call.entry {
        sqrt_marked => counting::count::even(call.float(0), call.float(0).sqrt()),
        _ => number == 0 && count.uneven == 0,
    };
    Outcome { number, place: 0, value, sweeps, exact: marks.then_some(even), slices }
}
