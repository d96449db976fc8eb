//! The paper's cases on the bench, asked of the oracle: it must give them before it can judge anything.

use harness::call::{Arg, Call, Entry, Entry::*, Outcome};
use harness::cases::{self, Bounds, one, power};
use harness::oracle::{Build, as_replaced, outcome};
use harness::random::Random;
use harness::table;

fn real(values: &[f64]) -> Arg {
    Arg::Many(values.iter().flat_map(|value| [value.to_bits(), 0]).collect())
}

fn list(qubits: &[u64]) -> Arg {
    Arg::Many(qubits.to_vec())
}

fn blank(length: usize) -> Arg {
    Arg::Many(vec![u64::MAX; length])
}

fn ask(entry: Entry, args: Vec<Arg>) -> Outcome {
    outcome(&Call::new(entry, args), Build::Replaced)
}

fn answer(entry: Entry, args: Vec<Arg>) -> (u32, u64) {
    let outcome = ask(entry, args);
    (outcome.number, outcome.place)
}

fn columns(n: usize, qubits: &[u64]) -> Vec<u64> {
    let state: Vec<f64> = (0..1 << n).map(f64::from).collect();
    let outcome = ask(cut_matrix, vec![real(&state), one(n), list(qubits), one(13), blank(2 << n)]);
    assert_eq!(outcome.number, 0);
    outcome.slices[2].chunks(2).map(|cell| f64::from_bits(cell[0]) as u64).collect()
}

#[test]
fn gathers() {
    for qubits in [&[2u64][..], &[0, 1]] {
        assert_eq!(columns(3, qubits), [0, 4, 1, 5, 2, 6, 3, 7]);
    }
    assert_eq!(columns(3, &[0, 2]), [0, 2, 1, 3, 4, 6, 5, 7]);
    assert_eq!(columns(4, &[0, 1])[..8], [0, 1, 2, 3, 4, 5, 6, 7]);
}

#[test]
fn indices() {
    let offsets = ask(row_offsets, vec![list(&[2, 0]), one(3), one(13), blank(5)]);
    assert_eq!(offsets.slices[1], [0, 4, 1, 5, u64::MAX]);
    let base = |e| ask(traced_base, vec![one(e), list(&[2, 0]), one(3), one(13)]);
    assert_eq!((base(0).value, base(1).value, base(2).number), (0, 2, 1));
}

#[test]
fn lists() {
    let refused = |qubits: &[u64]| answer(validate_subsystem, vec![list(qubits), one(2)]);
    assert_eq!(refused(&[1, 1]), (3, 1));
    assert_eq!(refused(&[5, 1]), (2, 0));
    assert_eq!(refused(&[0, 1]), (5, 0));
    assert_eq!(refused(&[]), (4, 0));
    assert_eq!(answer(validate_qubit_set, vec![list(&[0, 1]), one(2)]), (0, 0));
}

fn cut_values(state: &[f64]) -> Outcome {
    let n = state.len().ilog2() as usize;
    let qubits: Vec<u64> = (0..n as u64 / 2).collect();
    let side = 1 << (n / 2);
    let args = vec![real(state), one(n), list(&qubits), one(13), blank(side), blank((8 << n) + 2 * side)];
    ask(dense_schmidt_values, args)
}

#[test]
fn values() {
    let first = cut_values(&[3.0, 4.0, 0.0, 0.0]);
    assert_eq!((first.number, first.value), (0, 1));
    assert_eq!(first.slices[2], [1f64.to_bits(), 0]);
    assert!(first.slices[3].iter().all(|&word| word == 0));
    assert_eq!(cut_values(&[power(-537), 0.0, 0.0, 0.0]).value, 1);
    assert_eq!(cut_values(&[power(-538), 0.0, 0.0, 0.0]).number, 8);
    let mut state = [0.0; 16];
    for at in [0, 5, 10, 15] {
        state[at] = 1.0;
    }
    let four = cut_values(&state);
    assert_eq!((four.value, &four.slices[2]), (4, &vec![0x3FE0000000000000; 4]));
}

#[test]
fn widths() {
    let wide = |cap| answer(cut_matrix, vec![real(&vec![1.0; 4096]), one(12), list(&[0]), one(cap), blank(8192)]);
    assert_eq!((wide(13), wide(12)), ((0, 0), (1, 0)));
    let over = |k: u64| answer(row_offsets, vec![list(&(0..k).collect::<Vec<_>>()), one(12), one(13), blank(128)]);
    assert_eq!((over(6), over(7)), ((0, 0), (1, 0)));
}

#[test]
fn components_and_traces() {
    let trace = |x: f64| answer(normalize_trace, vec![real(&[x]), one(1)]);
    assert_eq!(trace(power(-1074)), (9, 0));
    assert_eq!(trace(-0.0), (8, 0));
    assert_eq!(trace(power(200)), (0, 0));
    assert_eq!(trace(f64::from_bits(power(200).to_bits() + 1)), (7, 0));
}

#[test]
fn ranks_and_factors() {
    let rank = |values: &[f64], epsilon: f64, cap| {
        let values = Arg::Many(values.iter().map(|value| value.to_bits()).collect());
        ask(truncated_svd_rank, vec![values, Arg::One(epsilon.to_bits()), one(cap)]).value
    };
    assert_eq!(rank(&[1.0, 0.5, 0.25], 0.3, 8), 2);
    assert_eq!(rank(&[0.0, 0.0], 0.3, 8), 1);
    assert_eq!(rank(&[1.0], 0.3, 0), 0);
    let qr = |a: &[f64]| ask(factorize_gram_schmidt, vec![real(a), one(2), one(2), blank(8), blank(8), blank(4)]);
    let reals = |words: &[u64]| words.chunks(2).map(|cell| f64::from_bits(cell[0])).collect::<Vec<_>>();
    let zero = qr(&[0.0; 4]);
    assert_eq!(
        (zero.value, reals(&zero.slices[1]), reals(&zero.slices[2])),
        (1, vec![1.0, 0.0, 0.0, 0.0], vec![0.0; 4])
    );
    let twice = qr(&[2.0, 0.0, 4.0, 0.0]);
    assert_eq!((twice.value, reals(&twice.slices[2])), (1, vec![2.0, 4.0, 0.0, 0.0]));
}

/// The gather is ours: the Rust has it only inside. Factored and finished by the Rust, it must give the Rust's own values.
#[test]
fn gather_is_the_one_inside() {
    let mut rng = Random::new(5);
    for _ in 0..2000 {
        let call = cases::accepted(&mut rng, dense_schmidt_values, Bounds { qubits: 6, side: 8 });
        let whole = as_replaced::run(&call);
        let (n, k) = (call.one(1), call.many(2).len());
        let side = k.min(n - k);
        let mut args = call.args[..4].to_vec();
        args.push(blank(2 << n));
        let gathered = ask(cut_matrix, args).slices[2].clone();
        let (rows, cols) = (1 << side, 1 << (n - side));
        let args = vec![Arg::Many(gathered), one(rows), one(cols)];
        let lent = [blank(2 * rows * rows), blank(rows), blank(2 * rows * cols), blank(6 * rows * cols + 2 * rows)];
        let factors = as_replaced::run(&Call::new(svd_jacobi, [args, lent.to_vec()].concat()));
        let values = Arg::Many(factors.written[1].clone());
        let finished = as_replaced::run(&Call::new(finish_schmidt_values, vec![values, blank(rows)]));
        assert_eq!((finished.value, finished.written), (whole.value, whole.written));
    }
}

/// Where the table says nothing against a list, the Rust's own validation says nothing either, and the other way round.
#[test]
fn lists_as_the_rust_sees_them() {
    let mut rng = Random::new(7);
    for _ in 0..20000 {
        let entry = rng.pick(&[validate_qubit_set, validate_subsystem]);
        let call = cases::any(&mut rng, entry, Bounds { qubits: 6, side: 8 });
        if (1..=12).contains(&call.one(1)) {
            use replaced::backend::schmidt::door;
            let said = match entry {
                validate_qubit_set => door::validate_qubit_set(&call.words(0), call.one(1)),
                _ => door::validate_subsystem(&call.words(0), call.one(1)),
            };
            assert_eq!(table::refusal(&call).is_none(), said.is_ok(), "{}", call.line());
        }
    }
}
