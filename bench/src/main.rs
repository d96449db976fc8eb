//! Times the port's entry points and the published Rust on the same inputs, in one process: rounds interleaved, all rows in each, buffers
//! warm, both built for release, the thread's own processor time. A row is a call at a size: the medians in microseconds
//! and the port's time as a part of the Rust's. An entry point that the library lacks is left out. Where the Rust has no such call, a plain
//! Rust version stands for it: of `countersign` and the slab in a file each. A second table has, of the calls that sweep, the sweeps,
//! the turned pairs, the time for one and the ceiling on them.

mod countersign;
mod slab;

use std::cell::RefCell;
use std::hint::black_box;

use harness::call::{Arg, Call, Entry, Entry::*};
use harness::oracle::cells;
use harness::random::Random;
use num_complex::Complex64;
use published::backend::mps::svd::door as svd;
use published::backend::reduced_density::door as density;
use published::backend::schmidt::door as schmidt;
use published::gates::spectral::door as spectral;

/// How the port does a row's work.
enum Ours {
    Call(Call),
    /// With the plan that stands for the call's list.
    Planned(Call, [usize; 30]),
    /// What does not go by way of `Call`: the number of its answer, or none where the library lacks it.
    Turn(Box<dyn Fn() -> Option<u32>>),
}

/// Work of the port, and the same work by the Rust.
struct Row {
    name: &'static str,
    size: String,
    /// How many calls of each side one turn makes.
    calls: usize,
    ours: Ours,
    rust: Box<dyn Fn()>,
}

impl Row {
    fn call(&self) -> Option<&Call> {
        match &self.ours {
            Ours::Call(call) | Ours::Planned(call, _) => Some(call),
            Ours::Turn(_) => None,
        }
    }

    fn ready(&self) -> Option<port::Ready<'_>> {
        self.call().map(port::Ready::new)
    }

    fn make(&self, ready: &mut Option<port::Ready>) -> Option<u32> {
        match (&self.ours, ready) {
            (Ours::Turn(turn), _) => turn(),
            (Ours::Planned(_, plan), Some(ready)) => ready.make_planned(plan),
            (Ours::Call(_), Some(ready)) => ready.make(),
            (_, None) => None,
        }
    }
}

fn drawn(rng: &mut Random, count: usize) -> Vec<f64> {
    (0..count).map(|_| rng.unit()).collect()
}

fn many(numbers: &[f64]) -> Arg {
    Arg::Many(numbers.iter().map(|x| x.to_bits()).collect())
}

fn lent(count: usize) -> Arg {
    Arg::Many(vec![0; count])
}

fn one(x: usize) -> Arg {
    Arg::One(x as u64)
}

fn row(name: &'static str, size: String, entry: Entry, args: Vec<Arg>, rust: impl Fn() + 'static) -> Row {
    Row { name, size, calls: 1, ours: Ours::Call(Call::new(entry, args)), rust: Box::new(rust) }
}

fn turn_row(name: &'static str, size: String, ours: impl Fn() -> Option<u32> + 'static, rust: impl Fn() + 'static) -> Row {
    Row { name, size, calls: 1, ours: Ours::Turn(Box::new(ours)), rust: Box::new(rust) }
}

fn svd_row(rng: &mut Random, m: usize, n: usize) -> Row {
    let (a, k) = (drawn(rng, 2 * m * n), m.min(n));
    let args = vec![many(&a), one(m), one(n), lent(2 * m * k), lent(k), lent(2 * k * n), lent(6 * m * n + 2 * k)];
    let a = cells(&a);
    row("svd_jacobi", format!("{m}×{n}"), svd_jacobi, args, move || {
        black_box(svd::svd_jacobi(black_box(&a), m, n));
    })
}

fn qr_row(rng: &mut Random, m: usize, n: usize) -> Row {
    let (a, k) = (drawn(rng, 2 * m * n), m.min(n));
    let args = vec![many(&a), one(m), one(n), lent(2 * m * k), lent(2 * k * n), lent(2 * m)];
    let a = cells(&a);
    row("factorize_gram_schmidt", format!("{m}×{n}"), factorize_gram_schmidt, args, move || {
        black_box(svd::factorize_gram_schmidt(black_box(&a), m, n));
    })
}

fn list(k: usize) -> Arg {
    Arg::Many((0..k as u64).collect())
}

fn values_row(rng: &mut Random, n: usize, k: usize) -> Row {
    let (state, side) = (drawn(rng, 2 << n), 1 << k.min(n - k));
    let args = vec![many(&state), one(n), list(k), one(13), lent(side), lent((8 << n) + 2 * side)];
    let (state, named): (Vec<Complex64>, Vec<usize>) = (cells(&state), (0..k).collect());
    row("dense_schmidt_values", format!("n={n} k={k}"), dense_schmidt_values, args, move || {
        black_box(schmidt::dense_schmidt_values(black_box(&state), n, &named, 13).is_ok());
    })
}

/// The values by a plan that is kept, against the Rust's call of its list.
fn planned_row(rng: &mut Random, n: usize, k: usize) -> Option<Row> {
    let plan = port::plan_of(&(0..k).collect::<Vec<_>>(), n)??;
    let row = values_row(rng, n, k);
    let call = row.call()?.clone();
    Some(Row { name: "planned_schmidt_values", ours: Ours::Planned(call, plan), ..row })
}

/// The page of all cuts, against the Rust's loop over them.
fn profile_row(rng: &mut Random, n: usize) -> Row {
    let (state, cuts) = (drawn(rng, 2 << n), n - 1);
    let room = (1..n).map(|k| 1 << k.min(n - k)).sum();
    let scratch = (8 << n) + (2 << (n / 2));
    let lists = [2 * cuts, room, cuts, cuts, 4 * cuts, scratch].map(lent);
    let args = [vec![many(&state), one(n), one(13)], lists.to_vec()].concat();
    let state: Vec<Complex64> = cells(&state);
    row("cut_profile", format!("n={n}"), cut_profile, args, move || {
        for j in 0..n - 1 {
            let named: Vec<usize> = (0..=j).collect();
            black_box(schmidt::dense_schmidt_values(black_box(&state), n, &named, 13).is_ok());
        }
    })
}

fn density_row(rng: &mut Random, n: usize, k: usize) -> Row {
    let state = drawn(rng, 2 << n);
    let args = vec![many(&state), one(n), list(k), one(13), lent(2 << (2 * k)), lent(2 << k)];
    let (state, named): (Vec<Complex64>, Vec<usize>) = (cells(&state), (0..k).collect());
    row("dense_reduced_density", format!("n={n} k={k}"), dense_reduced_density, args, move || {
        black_box(density::dense_reduced_density(black_box(&state), n, &named));
    })
}

/// A Hermitian matrix.
fn hermitian(rng: &mut Random, dim: usize) -> Vec<f64> {
    let mut a = drawn(rng, 2 * dim * dim);
    for t in 0..dim {
        a[2 * (t * dim + t) + 1] = 0.0;
        for u in 0..t {
            a[2 * (u * dim + t)] = a[2 * (t * dim + u)];
            a[2 * (u * dim + t) + 1] = -a[2 * (t * dim + u) + 1];
        }
    }
    a
}

fn eigenvalues_row(rng: &mut Random, dim: usize) -> Row {
    let a = hermitian(rng, dim);
    let args = vec![many(&a), one(dim), lent(dim), lent(2 * dim * dim)];
    let a = cells(&a);
    row("hermitian_eigenvalues", format!("{dim}×{dim}"), hermitian_eigenvalues, args, move || {
        black_box(schmidt::hermitian_eigenvalues(black_box(&a), dim));
    })
}

fn eigen_row(rng: &mut Random, dim: usize) -> Row {
    let a = hermitian(rng, dim);
    let args = vec![many(&a), one(dim), lent(dim), lent(2 * dim * dim), lent(6 * dim * dim + 2 * dim)];
    let a = cells(&a);
    row("hermitian_eigen", format!("{dim}×{dim}"), hermitian_eigen, args, move || {
        black_box(spectral::hermitian_eigen(black_box(&a), dim));
    })
}

/// A chain of sites by the published functions in the paper's order: what the last site holds, and the ranks.
fn chain(state: &[Complex64], n: usize, epsilon: f64, limit: usize) -> (Vec<Vec<Complex64>>, Vec<usize>, usize) {
    let mut carried: Vec<Complex64> = (0..1usize << n).map(|x| state[x.reverse_bits() >> (usize::BITS as usize - n)]).collect();
    let (mut sites, mut ranks, mut dropped, mut bond) = (vec![], vec![], 0, 1);
    for j in 0..n - 1 {
        let (rows, columns) = (2 * bond, 1 << (n - 1 - j));
        let mut matrix = vec![Complex64::new(0.0, 0.0); rows * columns];
        for row in 0..rows {
            for column in 0..columns {
                matrix[column * rows + row] = carried[row * columns + column];
            }
        }
        let factors = svd::svd_jacobi(&matrix, rows, columns);
        let rank = svd::truncated_svd_rank(&factors.s, epsilon, limit);
        dropped += usize::from(svd::discards_resolvable_weight(&factors.s, rank));
        sites.push(svd::isometry_site(&factors, bond, rank));
        carried = svd::carried_on(&factors, rank);
        ranks.push(rank);
        bond = rank;
    }
    sites.push(carried);
    (sites, ranks, dropped)
}

fn chain_row(rng: &mut Random, n: usize, limit: usize) -> Row {
    let (state, plane, epsilon) = (drawn(rng, 2 << n), 2 << n, 1e-12f64);
    let widest = |j: usize| limit.min(1 << j).min(1 << (n - j));
    let sites: usize = (0..n).map(|j| 4 * widest(j) * widest(j + 1)).sum();
    let given = [many(&state), one(n), Arg::One(epsilon.to_bits()), one(limit)];
    let lengths = [sites, n + 1, n + 1, 3 * (n - 1), plane, plane, plane, (6 << n) + (2 << (n / 2))];
    let args = given.into_iter().chain(lengths.map(lent)).collect();
    let state = cells(&state);
    row("chain_of_sites", format!("n={n} limit={limit}"), chain_of_sites, args, move || {
        black_box(chain(black_box(&state), n, epsilon, limit));
    })
}

/// Numbers of 64 exponents and any digits.
fn numbers_of_many_sizes(rng: &mut Random) -> Vec<f64> {
    (0..1024).map(|k| (1.0 + rng.unit().abs()) * 2f64.powi(k % 64 - 32)).collect()
}

/// Roots of these numbers, one after the other and none waiting for another: calls through the C face, and the hardware's instruction, each in
/// the same loop.
fn sqrt_row(size: &str, numbers: Vec<f64>) -> Row {
    let (calls, ours) = (numbers.len(), numbers.clone());
    let turn = move || black_box(&ours).iter().try_for_each(|&x| port::root(x).map(|root| _ = black_box(root))).map(|()| 0);
    let hardware = move || black_box(&numbers).iter().for_each(|&x| _ = black_box(x.sqrt()));
    Row { calls, ..turn_row("sqrt", size.into(), turn, hardware) }
}

fn rows() -> Vec<Row> {
    let rng = &mut Random::new(1);
    let mut rows = vec![];
    for (m, n) in [(2, 2), (4, 4), (8, 8), (16, 16), (32, 32), (64, 64), (8, 512)] {
        rows.push(svd_row(rng, m, n));
    }
    for (n, k) in [(4, 2), (6, 3), (8, 4), (10, 5), (12, 6), (12, 3)] {
        rows.push(values_row(rng, n, k));
    }
    rows.extend([(4, 2), (6, 3), (8, 4), (12, 6)].into_iter().filter_map(|(n, k)| planned_row(&mut Random::new(2), n, k)));
    rows.extend((1..=6).map(|k| density_row(rng, 12, k)));
    for (m, n) in [(8, 8), (16, 16), (64, 64), (512, 8)] {
        rows.push(qr_row(rng, m, n));
    }
    rows.extend([16, 64].map(|dim| eigenvalues_row(rng, dim)));
    rows.extend([4, 8, 16, 32, 64].map(|dim| eigen_row(rng, dim)));
    let x = rng.unit().abs();
    rows.push(sqrt_row("one", vec![x; 1024]));
    rows.push(sqrt_row("many", numbers_of_many_sizes(&mut Random::new(12))));
    rows.extend((2..=12).map(|n| chain_row(rng, n, 64)));
    rows.extend([16, 4, 1].map(|limit| chain_row(rng, 12, limit)));
    rows.extend((4..=12).map(|n| profile_row(rng, n)));
    rows.extend([4, 8].map(|dim| eigenvalues_row(&mut Random::new(3), dim)));
    rows.extend(lot_row());
    rows.extend([(4, 2), (8, 4), (12, 6)].into_iter().filter_map(|(n, k)| entropy_row(n, k)));
    rows.extend([(4, 4), (16, 16), (256, 16), (16, 256)].into_iter().filter_map(|(m, n)| countersign_row(m, n)));
    rows.extend(slab_rows());
    rows
}

/// C's `struct timespec`.
#[repr(C)]
struct Timespec {
    seconds: i64,
    nanoseconds: i64,
}

unsafe extern "C" {
    fn clock_gettime(clock: i32, time: *mut Timespec) -> i32;
}

/// Linux's number of the clock of a thread's own processor time.
const CLOCK_THREAD_CPUTIME_ID: i32 = 3;

/// The processor time that this thread has had, in seconds: what else runs on the machine is not counted.
fn processor_time() -> f64 {
    let mut time = Timespec { seconds: 0, nanoseconds: 0 };
    // SAFETY: the clock exists on Linux, and `time` is the C structure that it fills.
    assert_eq!(unsafe { clock_gettime(CLOCK_THREAD_CPUTIME_ID, &mut time) }, 0);
    time.seconds as f64 + 1e-9 * time.nanoseconds as f64
}

/// The seconds that `turns` calls take.
fn timed(turns: usize, mut work: impl FnMut()) -> f64 {
    let start = processor_time();
    (0..turns).for_each(|_| work());
    processor_time() - start
}

fn median(mut times: Vec<f64>) -> f64 {
    times.sort_by(f64::total_cmp);
    times[times.len() / 2]
}

/// A row with what it lends, how many calls a round has, and the times of its rounds: the port's and the Rust's.
struct Measured<'a> {
    row: &'a Row,
    ready: Option<port::Ready<'a>>,
    turns: usize,
    ours: Vec<f64>,
    theirs: Vec<f64>,
}

impl<'a> Measured<'a> {
    /// None where the library lacks the call or refuses it.
    fn new(row: &'a Row) -> Option<Self> {
        let mut ready = row.ready();
        if row.make(&mut ready)? != 0 {
            eprintln!("bench: {} {} was refused", row.name, row.size);
            return None;
        }
        let once = timed(3, || (row.rust)()) / 3.0;
        let turns = ((2e-3 / once.max(1e-8)) as usize).clamp(1, 100_000);
        Some(Self { row, ready, turns, ours: vec![], theirs: vec![] })
    }

    /// One round of each, after a call that warms its buffers.
    fn round(&mut self) {
        let (row, ready) = (self.row, &mut self.ready);
        black_box(row.make(ready));
        self.ours.push(timed(self.turns, || {
            black_box(row.make(ready));
        }));
        (row.rust)();
        self.theirs.push(timed(self.turns, || (row.rust)()));
    }

    /// The medians of a call of each, in microseconds.
    fn medians(&self) -> (f64, f64) {
        let calls = (self.turns * self.row.calls) as f64;
        let each = |times: &[f64]| 1e6 * median(times.to_vec()) / calls;
        (each(&self.ours), each(&self.theirs))
    }
}

/// A lot of 1,000 cut files of nine qubits, four of them named.
fn lot(rng: &mut Random) -> Vec<Vec<u8>> {
    let word = |x: usize| (x as u32).to_le_bytes();
    let file = |rng: &mut Random| {
        let head = [9, 4, 24, 40, 40 + (16 << 9), 0, 1, 2, 3];
        let state = drawn(rng, 2 << 9);
        [b"CUT1".to_vec(), head.map(word).concat(), state.iter().flat_map(|x| x.to_le_bytes()).collect()].concat()
    };
    (0..1000).map(|_| file(rng)).collect()
}

/// The sheet of a lot, beside a loop of the published Rust over the same files.
fn lot_row() -> Option<Row> {
    let files = lot(&mut Random::new(24));
    let lengths = files.iter().map(|file| file.len() as u32);
    let head = [1000].into_iter().chain(lengths).flat_map(u32::to_le_bytes);
    let whole: Vec<u8> = head.chain(files.iter().flatten().copied()).collect();
    let ranks = move || {
        let mut ranks = [0; 16];
        for file in &files {
            let numbers: Vec<f64> = file[40..].chunks(8).map(|x| f64::from_le_bytes(x.try_into().expect("eight bytes"))).collect();
            let values = schmidt::dense_schmidt_values(&cells(&numbers), 9, &[0, 1, 2, 3], 10).expect("an accepted state");
            ranks[values.len() - 1] += 1;
        }
        ranks
    };
    assert_eq!(ranks(), port::lot_sheet(&whole)?[11..27], "the Rust keeps other ranks");
    let sheet = move || black_box(port::lot_sheet(black_box(&whole))).map(|_| 0);
    Some(turn_row("lot_sheet", "1,000 files, n=9 k=4".into(), sheet, move || _ = black_box(ranks())))
}

/// The entropy band of the first k of n qubits, beside the Rust's values and the entropy of their squares in floats.
fn entropy_row(n: usize, k: usize) -> Option<Row> {
    let (state, named, side) = (drawn(&mut Random::new(23), 2 << n), (0..k).collect::<Vec<usize>>(), 1 << k.min(n - k));
    let (list, amplitudes): (_, Vec<Complex64>) = (named.clone(), cells(&state));
    let lent = RefCell::new((vec![0; 3 * side], vec![0.0; (8 << n) + 2 * side]));
    let in_floats = move || -> f64 {
        let values = schmidt::dense_schmidt_values(black_box(&amplitudes), n, &named, 13).expect("an accepted state");
        let weights = values.iter().map(|value| value * value);
        let whole: f64 = weights.clone().sum();
        weights.map(|weight| weight / whole).map(|part| -part * part.log2()).sum()
    };
    let band = move || {
        let (bands, scratch) = &mut *lent.borrow_mut();
        port::entropy_band(black_box(&state), n, &list, bands, scratch)
    };
    let (number, [low, high, whole]) = band()?;
    let (entropy, bits) = (in_floats(), |sum: u64| sum as f64 / whole as f64);
    // a weight is the floor of 2^24 squares, so the entropy of the squares may miss the weights' band by a little
    assert!(number == 0 && bits(low) - 1e-3 <= entropy && entropy <= bits(high) + 1e-3, "{number}: {entropy} for {low} to {high} of {whole}");
    Some(turn_row("entropy_band", format!("n={n} k={k}"), move || black_box(band()).map(|said| said.0), move || _ = black_box(in_floats())))
}

/// Factors of someone else's package countersigned, beside the same tests in plain Rust, which must find the same at every tolerance.
fn countersign_row(m: usize, n: usize) -> Option<Row> {
    let factors = countersign::Factors::drawn(&mut Random::new(13), m, n);
    let plain = factors.clone();
    let found = move |tolerance| port::countersign(&factors.a, m, n, &factors.u, &factors.s, &factors.vt, black_box(tolerance));
    for tolerance in [0, u64::MAX].into_iter().chain((30..60).map(|power| 1 << power)) {
        assert_eq!(found(tolerance)?, (0, plain.verdict(tolerance)?), "{m}×{n}, tolerance {tolerance}");
    }
    let all = move || black_box(found(u64::MAX)).map(|(number, _)| number);
    Some(turn_row("countersign", format!("{m}×{n}"), all, move || _ = black_box(plain.verdict(black_box(u64::MAX)))))
}

/// Calls on a slab that 64 sites of 64 cells fill, beside the same in plain Rust, which must leave the same slab and the same answer. A site's
/// number is seven on from the last one's.
fn slab_row(
    name: &'static str,
    size: &str,
    ours: fn(&mut port::Slab, u32, &[u64]) -> Option<u32>,
    theirs: fn(&mut slab::Plain, u32, &[u64]) -> u32,
) -> Option<Row> {
    let data = [1.5f64.to_bits(), (-2.5f64).to_bits()].repeat(64);
    let (mut full, mut plain) = (port::Slab::new(), slab::Plain::new());
    for site in 0..64 {
        assert_eq!(full.put(site, &data)?, plain.put(site, &data));
    }
    for site in (0..64).map(|k| 7 * k % 64) {
        assert_eq!(ours(&mut full, site, &data)?, theirs(&mut plain, site, &data));
        assert!(full.cells == plain.cells && full.index == plain.index, "the plain slab is another after {name}");
    }
    let (full, plain, theirs_data) = (RefCell::new((full, 0)), RefCell::new((plain, 0)), data.clone());
    let turn = move || {
        let (full, site) = &mut *full.borrow_mut();
        *site = (*site + 7) % 64;
        ours(full, *site, black_box(&data)).map(|_| 0)
    };
    let plain_turn = move || {
        let (plain, site) = &mut *plain.borrow_mut();
        *site = (*site + 7) % 64;
        black_box(theirs(plain, *site, black_box(&theirs_data)));
    };
    Some(turn_row(name, size.into(), turn, plain_turn))
}

fn slab_rows() -> Vec<Row> {
    let again = |full: &mut port::Slab, site: u32, data: &[u64]| Some(full.drop(site)? | full.put(site, data)?);
    let plain_again = |plain: &mut slab::Plain, site: u32, data: &[u64]| plain.drop(site) | plain.put(site, data);
    let rows = [
        slab_row("slab_drop, slab_put", "64 sites of 64 cells", again, plain_again),
        slab_row("slab_replace", "64 sites of 64 cells", port::Slab::replace, slab::Plain::replace),
        slab_row("slab_put", "no room", |full, site, data| full.put(64 + site, data), |plain, site, data| plain.put(64 + site, data)),
    ];
    rows.into_iter().flatten().collect()
}

/// The most pairs that a call that sweeps can turn: its cap times the pairs of its smaller side.
fn ceiling(call: &Call) -> Option<usize> {
    let pairs = |k: usize| k * (k - 1) / 2;
    match call.entry {
        svd_jacobi => Some(100 * pairs(call.one(1).min(call.one(2)))),
        dense_schmidt_values => Some(100 * pairs(1 << call.many(2).len().min(call.one(1) - call.many(2).len()))),
        hermitian_eigenvalues => Some(60 * pairs(call.one(1))),
        hermitian_eigen => Some(100 * pairs(call.one(1))),
        _ => None,
    }
}

fn main() {
    let rounds = std::env::args().nth(1).and_then(|word| word.parse().ok()).unwrap_or(41);
    let wanted = std::env::args().nth(2).unwrap_or_default();
    let mut turns = vec![];
    println!("| call | size | port, µs | Rust, µs | ratio |");
    println!("|---|---|---|---|---|");
    let rows = rows();
    let mut measured: Vec<Measured> = rows.iter().filter(|row| row.name.contains(&wanted)).filter_map(Measured::new).collect();
    // All rows in every round, so that the rounds of a row are seconds apart: what else uses the processor's core for a while slows
    // some rounds of every row, and not all of one.
    for _ in 0..rounds {
        measured.iter_mut().for_each(Measured::round);
    }
    for done in &measured {
        let (row, (ours, theirs)) = (done.row, done.medians());
        let digits = if theirs < 0.1 { 5 } else { 3 };
        println!("| {} | {} | {ours:.digits$} | {theirs:.digits$} | {:.3} |", row.name, row.size, ours / theirs);
        let Some(call) = row.call() else { continue };
        let mut ready = row.ready();
        let said = row.make(&mut ready).and_then(|number| ready?.outcome(number)).and_then(|outcome| outcome.sweeps);
        if let (Some(said), Some(most)) = (said, ceiling(call)) {
            let (begun, turned) = (said.begun, said.turned);
            let each = 1e3 * ours / turned as f64;
            turns.push(format!("| {} | {} | {begun} | {turned} | {each:.0} | {most} |", row.name, row.size));
        }
    }
    println!("\n| call | size | sweeps | turned pairs | ns for each | ceiling |");
    println!("|---|---|---|---|---|---|");
    turns.iter().for_each(|line| println!("{line}"));
}
