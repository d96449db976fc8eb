//! The chain of sites by the published functions: shapes, ranks, refusals, and the state that its sites give back.

use harness::call::{Arg, Call, Entry::chain_of_sites, MARKS, Outcome};
use harness::cases::{self, Cells, numbers, one};
use harness::oracle::{Build, cells, outcome};
use harness::random::Random;
use harness::table::{self, CHAIN_LARGEST, Role};
use num_complex::Complex64;

fn call(state: &Cells, n: usize, epsilon: f64, limit: usize) -> Call {
    let mut args = vec![Arg::Many(numbers(state)), one(n), Arg::One(epsilon.to_bits()), one(limit)];
    args.resize(chain_of_sites.kinds().len(), Arg::Many(vec![]));
    let mut call = Call::new(chain_of_sites, args);
    if !matches!(table::refusal(&call), Some((1, _))) {
        for (at, role) in call.slices().into_iter().zip(table::roles(&call)) {
            if let Role::Output(needed) | Role::Scratch(needed) = role {
                *call.many_mut(at) = vec![3; needed];
            }
        }
    }
    call
}

fn chain(state: &Cells, n: usize, epsilon: f64, limit: usize) -> Outcome {
    outcome(&call(state, n, epsilon, limit), Build::Counting)
}

fn words(slice: &[u64]) -> Vec<usize> {
    slice.iter().map(|&word| word as usize).collect()
}

/// The state that the sites give back: amplitude x is the product of the sites' matrices at the bits of x, qubit 0 first.
fn contracted(chain: &Outcome, n: usize) -> Vec<Complex64> {
    let numbers: Vec<f64> = chain.slices[1].iter().map(|&bits| f64::from_bits(bits)).collect();
    let (sites, bonds, starts) = (cells(&numbers), words(&chain.slices[2]), words(&chain.slices[3]));
    let amplitude = |x: usize| {
        let mut row = vec![Complex64::new(1.0, 0.0)];
        for j in 0..n {
            let (left, right, bit) = (bonds[j], bonds[j + 1], x >> j & 1);
            let cell = |alpha: usize, beta: usize| sites[starts[j] + alpha * 2 * right + bit * right + beta];
            row = (0..right).map(|beta| (0..left).map(|alpha| row[alpha] * cell(alpha, beta)).sum()).collect();
        }
        row[0]
    };
    (0..1 << n).map(amplitude).collect()
}

#[test]
fn sites_give_their_state_back() {
    let rng = &mut Random::new(21);
    for drawn in 0..3000 {
        let (n, kind) = (rng.within(1, 8), [0, 1, 2, 3, 7, 8, 12, 13, 16][drawn % 9]);
        let state = cases::chain_state_of(rng, n, kind);
        let made = chain(&state, n, 1e-15, 64);
        if made.number == 8 {
            continue;
        }
        assert_eq!(made.number, 0);
        let norm = state.iter().map(|(re, im)| re * re + im * im).sum::<f64>().sqrt();
        let back = contracted(&made, n);
        let far = back.iter().zip(&state).map(|(a, &(re, im))| (a - Complex64::new(re, im)).norm_sqr());
        let far = far.sum::<f64>().sqrt();
        // Values at or below the least norm that the SVD divides by have a zero column, and huge ones no square.
        assert!(norm < 1e-20 || norm > 1e100 || far <= 1e-13 * norm, "kind {kind}, n {n}: {far:e} of {norm:e}");
    }
}

#[test]
fn bonds_of_known_states() {
    let rng = &mut Random::new(1);
    for n in 2..=12 {
        let full = (1 << n) - 1;
        let mut state = vec![(0.0, 0.0); 1 << n];
        state[0] = (std::f64::consts::FRAC_1_SQRT_2, 0.0);
        let product = chain(&state, n, 1e-12, 64);
        assert_eq!(words(&product.slices[2]), vec![1; n + 1]);
        assert_eq!(words(&product.slices[3]), (0..=n).map(|j| 2 * j).collect::<Vec<_>>());
        state[full] = state[0];
        let ghz = chain(&state, n, 1e-12, 64);
        assert_eq!(words(&ghz.slices[2])[1..n], vec![2; n - 1]);
        assert_eq!(ghz.value, 0);
        // Every cut of GHZ drops half of the weight at a bond of 1, but only the first: what is carried on is a product.
        assert_eq!(chain(&state, n, 1e-12, 1).value, 1);
        let cells = cases::chain_state_of(rng, n, 3);
        assert_eq!(words(&chain(&cells, n, 1e-12, 64).slices[2])[1..n], vec![2; n - 1]);
    }
}

#[test]
fn refusals_in_the_papers_order() {
    let two = vec![(1.0, 0.0); 4];
    let said = |call: &Call| {
        let made = outcome(call, Build::Counting);
        (made.number, made.place)
    };
    assert_eq!(said(&call(&two, 13, 1e-12, 0)), (1, 0));
    assert_eq!(said(&call(&two, 0, 1e-12, 1)), (1, 0));
    assert_eq!(said(&call(&two, 3, 1e-12, 1)), (6, 0));
    for slice in 1..9 {
        let mut short = call(&two, 2, 1e-12, 1);
        let at = short.slices()[slice];
        short.many_mut(at).pop();
        assert_eq!(said(&short), (6, slice as u64));
    }
    let above = f64::from_bits(CHAIN_LARGEST.to_bits() + 1);
    assert_eq!(said(&call(&vec![(1.0, 0.0), (0.0, -CHAIN_LARGEST), (0.0, 0.0), (0.0, 0.0)], 2, 1e-12, 1)), (0, 0));
    assert_eq!(said(&call(&vec![(1.0, 0.0), (0.0, 0.0), (0.0, -above), (0.0, 0.0)], 2, 1e-12, 1)), (7, 2));
    assert_eq!(said(&call(&vec![(0.0, -0.0); 4], 2, 1e-12, 1)), (8, 0));
    let nothing = chain(&vec![(0.0, -0.0); 4], 2, 1e-12, 1);
    assert!(nothing.slices[1..].iter().all(|slice| slice.iter().all(|&word| word == 0)));
}

#[test]
fn one_qubit_has_no_cut() {
    let made = chain(&vec![(-0.0, 3.0), (4.0, -0.0)], 1, f64::NAN, 1);
    assert_eq!((made.number, made.value), (0, 0));
    assert_eq!(made.slices[1], numbers(&[(-0.0, 3.0), (4.0, -0.0)]));
    assert_eq!((words(&made.slices[2]), words(&made.slices[3])), (vec![1, 1], vec![0, 2]));
    assert!(made.slices[MARKS].is_empty());
}
