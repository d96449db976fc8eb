//! What differs between the two builds, by kind of input: `survey SEED COUNT` prints a table of the modulus itself beside
//! `hypot`, with a hundred times COUNT pairs of each kind, a table of the calls, all states of four qubits with amplitudes 0
//! and 1, and the smallest inputs of whole numbers that show a difference.

use harness::call::{Arg, Call, Entry, Entry::*, Outcome};
use harness::cases::{self, PARTS, STYLES, lent, numbers, one};
use harness::oracle::{Build, outcome};
use harness::random::Random;
use harness::table::{self, Role};

/// A value that moves by more than this part of the largest has moved far.
const FAR: f64 = 1e-12;

/// One row of the table.
#[derive(Default)]
struct Row {
    calls: usize,
    differ: usize,
    answers: usize,
    counts: usize,
    values: f64,
    vectors: f64,
    values_moved: usize,
    far: usize,
}

fn both(call: &Call) -> (Outcome, Outcome) {
    (outcome(call, Build::Published), outcome(call, Build::Replaced))
}

/// Which slices hold values, and which hold vectors.
fn results(entry: Entry) -> (&'static [usize], &'static [usize]) {
    match entry {
        svd_jacobi => (&[2], &[1, 3]),
        hermitian_eigen => (&[1], &[2]),
        dense_schmidt_values => (&[2], &[]),
        _ => (&[1], &[]),
    }
}

fn needed(call: &Call, slice: usize) -> usize {
    match table::roles(call)[slice] {
        Role::Output(needed) => needed,
        _ => 0,
    }
}

/// The largest difference of two slices, as a part of `of` or of the largest number in them.
fn apart(call: &Call, slice: usize, a: &Outcome, b: &Outcome, relative: bool) -> f64 {
    let floats = |outcome: &Outcome| -> Vec<f64> {
        outcome.slices[slice][..needed(call, slice)].iter().map(|&word| f64::from_bits(word)).collect()
    };
    let (a, b) = (floats(a), floats(b));
    let most = |x: &[f64]| x.iter().fold(0.0, |most: f64, x| most.max(x.abs()));
    let difference: Vec<f64> = a.iter().zip(&b).map(|(x, y)| x - y).collect();
    if relative { most(&difference) / most(&a).max(most(&b)) } else { most(&difference) }
}

impl Row {
    fn add(&mut self, call: &Call) {
        let (a, b) = both(call);
        self.calls += 1;
        if a == b {
            return;
        }
        self.differ += 1;
        if (a.number, a.place) != (b.number, b.place) {
            self.answers += 1;
            return;
        }
        if a.value != b.value {
            self.counts += 1;
            return;
        }
        let (values, vectors) = results(call.entry);
        let (mut moved, mut far) = (false, false);
        for &slice in values {
            let size = apart(call, slice, &a, &b, true);
            moved |= a.slices[slice] != b.slices[slice];
            self.values = self.values.max(size);
            far |= size > FAR;
        }
        self.values_moved += usize::from(moved);
        self.far += usize::from(far);
        for &slice in vectors {
            self.vectors = self.vectors.max(apart(call, slice, &a, &b, false));
        }
    }

    fn print(&self, entry: Entry, kind: &str) {
        println!(
            "| {} | {kind} | {} | {} | {} | {} | {} | {} | {:.1e} | {:.1e} |",
            entry.name(),
            self.calls,
            self.differ,
            self.values_moved,
            self.far,
            self.counts,
            self.answers,
            self.values,
            self.vectors
        );
    }
}

fn with_lent(rng: &mut Random, entry: Entry, mut args: Vec<Arg>) -> Call {
    let given = args.len();
    args.resize(entry.kinds().len(), Arg::Many(vec![]));
    let mut call = Call::new(entry, args);
    let roles = table::roles(&call);
    for (slice, at) in call.slices().into_iter().enumerate() {
        if let (true, Role::Output(needed) | Role::Scratch(needed)) = (at >= given, roles[slice]) {
            *call.many_mut(at) = lent(rng, needed);
        }
    }
    call
}

/// The modulus as published and the one that replaces it, as bits.
fn moduli(parts: [u64; 2]) -> (u64, u64) {
    let (a, b) = both(&Call::new(modulus, parts.map(Arg::One).to_vec()));
    (a.value, b.value)
}

/// The modulus itself by kind of parts: how many floats lie between the two, and how often only one of them is finite or NaN.
fn parts(seed: u64, count: usize) {
    println!("| parts | pairs | differ | by one float | by more | most | only one finite | only one NaN |");
    println!("|---|---|---|---|---|---|---|---|");
    for kind in PARTS {
        let mut rng = Random::new(seed);
        let (mut differ, mut by_one, mut by_more, mut most, mut finite, mut nan) = (0, 0, 0, 0, 0, 0);
        for _ in 0..100 * count {
            let (a, b) = moduli(cases::parts(&mut rng, kind));
            let of = |bits: u64| f64::from_bits(bits);
            differ += usize::from(a != b);
            if of(a).is_nan() != of(b).is_nan() {
                nan += 1;
            } else if of(a).is_finite() != of(b).is_finite() {
                finite += 1;
            } else {
                by_one += usize::from(a.abs_diff(b) == 1);
                by_more += usize::from(a.abs_diff(b) > 1);
                most = most.max(a.abs_diff(b));
            }
        }
        let pairs = 100 * count;
        println!("| {kind:?} | {pairs} | {differ} | {by_one} | {by_more} | {most} | {finite} | {nan} |");
    }
    println!();
    let mut found = None;
    for total in 1..=100 {
        walk(&mut vec![0; 2], 0, total, &mut |parts| {
            let parts = [parts[0], parts[1]].map(|part| f64::from(part).to_bits());
            if found.is_none() && moduli(parts).0 != moduli(parts).1 {
                found = Some(parts);
            }
        });
    }
    match found {
        Some(parts) => {
            let (a, b) = moduli(parts);
            println!("modulus: input {:?} published {a:016X} replaced {b:016X}", parts.map(f64::from_bits));
        }
        None => println!("modulus: none of the whole ones tried"),
    }
    println!();
}

fn matrices(seed: u64, count: usize) {
    for entry in [svd_jacobi, hermitian_eigenvalues, schmidt_values_from_density, hermitian_eigen] {
        for style in STYLES {
            let mut rng = Random::new(seed);
            let mut row = Row::default();
            for _ in 0..count {
                let real = rng.chance(3);
                let kind = rng.below(10);
                let (m, n) = (rng.within(2, 8), rng.within(2, 8));
                let args = if entry == svd_jacobi {
                    vec![Arg::Many(numbers(&cases::matrix_of(&mut rng, m, n, style, real, kind))), one(m), one(n)]
                } else {
                    // Hermitian or a density.
                    let kind = rng.below(6);
                    vec![Arg::Many(numbers(&cases::square_of(&mut rng, m, style, kind))), one(m)]
                };
                row.add(&with_lent(&mut rng, entry, args));
            }
            row.print(entry, &format!("{style:?}"));
        }
    }
}

fn states(seed: u64, count: usize) {
    let kinds =
        ["product", "GHZ", "W", "cluster", "one amplitude", "zero", "all equal", "two products", "sparse", "random"];
    for (kind, name) in kinds.iter().enumerate() {
        let mut rng = Random::new(seed);
        let mut row = Row::default();
        for _ in 0..count {
            let n = rng.within(2, 8);
            let k = rng.within(1, n - 1);
            let state = Arg::Many(numbers(&cases::state_of(&mut rng, n, kind)));
            let list = Arg::Many(cases::list(&mut rng, n, k));
            row.add(&with_lent(&mut rng, dense_schmidt_values, vec![state, one(n), list, one(13)]));
        }
        row.print(dense_schmidt_values, name);
    }
}

/// Matrices of two by two with whole cells, and states of two qubits, from the least sum of magnitudes up, until one
/// differs. The spectra take Hermitian ones, which have four parts: two on the diagonal and one cell off it.
fn smallest(entry: Entry, real: bool) -> Option<Call> {
    let mut rng = Random::new(0);
    let hermitian = !matches!(entry, svd_jacobi | dense_schmidt_values);
    let (parts, most) = match (hermitian, real) {
        (false, true) => (4, 14),
        (false, false) => (8, 10),
        (true, true) => (3, 100),
        (true, false) => (4, 60),
    };
    for total in 1..=most {
        let mut found = None;
        walk(&mut vec![0i32; parts], 0, total, &mut |parts| {
            if found.is_some() {
                return;
            }
            let part = |at: usize| parts.get(at).map_or(0.0, |&x| f64::from(x));
            let cells = match (hermitian, real) {
                (true, _) => [part(0), 0.0, part(1), part(3), part(1), -part(3), part(2), 0.0],
                (false, true) => [part(0), 0.0, part(1), 0.0, part(2), 0.0, part(3), 0.0],
                (false, false) => std::array::from_fn(part),
            };
            let cells = Arg::Many(cells.iter().map(|x| x.to_bits()).collect());
            let args = match entry {
                svd_jacobi => vec![cells, one(2), one(2)],
                dense_schmidt_values => vec![cells, one(2), Arg::Many(vec![0]), one(13)],
                _ => vec![cells, one(2)],
            };
            let call = with_lent(&mut rng, entry, args);
            let (a, b) = both(&call);
            if a != b {
                found = Some(call);
            }
        });
        if found.is_some() {
            return found;
        }
    }
    None
}

/// Every way to give the cells whole numbers whose magnitudes sum to `left`.
fn walk(cells: &mut Vec<i32>, at: usize, left: i32, see: &mut impl FnMut(&[i32])) {
    if at == cells.len() {
        if left == 0 {
            see(cells);
        }
        return;
    }
    for size in 0..=left {
        cells[at] = size;
        walk(cells, at + 1, left - size, see);
        if size > 0 {
            cells[at] = -size;
            walk(cells, at + 1, left - size, see);
        }
    }
    cells[at] = 0;
}

/// All states of four qubits with amplitudes 0 and 1, cut in two halves.
fn whole_states() {
    let mut rng = Random::new(0);
    let (mut row, mut worst, mut shown) = (Row::default(), 0.0, None);
    for code in 1..1u32 << 16 {
        let state = (0..16).flat_map(|at| [f64::from(code >> at & 1).to_bits(), 0]).collect();
        let call =
            with_lent(&mut rng, dense_schmidt_values, vec![Arg::Many(state), one(4), Arg::Many(vec![0, 1]), one(13)]);
        row.add(&call);
        if row.values > worst {
            worst = row.values;
            shown = Some(call);
        }
    }
    row.print(dense_schmidt_values, "all 0/1 states of 4 qubits, list 0,1");
    println!();
    if let Some(call) = shown {
        show(&call);
    }
}

fn show(call: &Call) {
    let (a, b) = both(call);
    let input: Vec<f64> = call.floats(0);
    println!("{}: input {input:?}", call.entry.name());
    let (values, vectors) = results(call.entry);
    for &slice in values.iter().chain(vectors) {
        let hex = |outcome: &Outcome| -> String {
            outcome.slices[slice][..needed(call, slice)].iter().map(|word| format!(" {word:016X}")).collect()
        };
        if a.slices[slice] != b.slices[slice] {
            println!("  slice {slice} published{}\n          replaced{}", hex(&a), hex(&b));
        }
    }
    if (a.number, a.value) != (b.number, b.value) {
        println!("  published: answer {} count {}; replaced: answer {} count {}", a.number, a.value, b.number, b.value);
    }
}

fn main() {
    std::panic::set_hook(Box::new(|_| {}));
    let mut args = std::env::args().skip(1);
    let seed = args.next().map_or(1, |word| word.parse().expect("a seed"));
    let count = args.next().map_or(2000, |word| word.parse().expect("a count"));
    parts(seed, count);
    println!("| call | kind | calls | differ | values move | far | other count | other answer | values | vectors |");
    println!("|---|---|---|---|---|---|---|---|---|---|");
    matrices(seed, count);
    states(seed, count);
    whole_states();
    for entry in [svd_jacobi, hermitian_eigenvalues, schmidt_values_from_density, hermitian_eigen, dense_schmidt_values]
    {
        for real in [true, false] {
            match smallest(entry, real) {
                Some(call) => show(&call),
                None => println!("{}: none of the whole ones tried, real {real}", entry.name()),
            }
        }
    }
    println!("survey: seed {seed}, {count} calls of each kind");
}
