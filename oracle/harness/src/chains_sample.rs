//! Cases for the parts of `chain_cases`, in a format of their own: a state is counted up from a first word, or nothing, and the text
//! has what differs; long slices of floats are printed as a digest.

use crate::call::{Arg, Call, Entry::{chain_of_sites, cut_profile}, Kind};
use crate::cases::{self, Bounds, Cells, numbers, one, power};
use crate::oracle::{Build, outcome};
use crate::random::Random;
use crate::sample::lend;
use crate::sites_sample::{LONG, READ, counted, digest};
use crate::table::{CHAIN_LARGEST, LARGEST};

/// The state's length, the first word of the count or 0, how many numbers differ, and the place and bits of each.
pub fn asked(number: usize, call: &Call) -> String {
    let state = call.many(0);
    let (up, nothing) = (counted(READ, state.len()), vec![0; state.len()]);
    let changes = |before: &[u64]| (0..state.len()).filter(|&at| state[at] != before[at]).collect::<Vec<_>>();
    let (first, differ) =
        if changes(&up).len() < changes(&nothing).len() { (READ, changes(&up)) } else { (0, changes(&nothing)) };
    let mut words = vec![number as u64, state.len() as u64, first, differ.len() as u64];
    words.extend(differ.into_iter().flat_map(|at| [at as u64, state[at]]));
    words.extend(call.args.iter().filter_map(|arg| if let Arg::One(word) = arg { Some(*word) } else { None }));
    words.extend(call.slices()[1..].iter().map(|&at| call.many(at).len() as u64));
    words.iter().map(|word| format!("{word:X}")).collect::<Vec<_>>().join(" ")
}

/// What the case prints: number, place, of a chain the cuts that dropped a value, and each lent slice or its digest.
pub fn printed(call: &Call) -> String {
    let made = outcome(call, Build::Counting);
    let mut words = vec![u64::from(made.number), made.place];
    if call.entry == chain_of_sites {
        words.push(made.value);
    }
    for (slice, &at) in call.slices().iter().enumerate().skip(1) {
        let left = &made.slices[slice];
        if call.entry.kinds()[at] == Kind::MutFloats && left.len() >= LONG {
            words.push(digest(left));
        } else {
            words.extend_from_slice(left);
        }
    }
    words.iter().map(|word| format!("{word:016X} ")).collect()
}

fn chain(rng: &mut Random, state: &Cells, n: usize, epsilon: f64, limit: usize) -> Call {
    lend(rng, chain_of_sites, vec![Arg::Many(numbers(state)), one(n), Arg::One(epsilon.to_bits()), one(limit)])
}

/// Chains of every kind of state, the longest ones, those at the edges, refused ones, and those that give up.
pub fn cases_of(rng: &mut Random, calls: &mut Vec<Call>) {
    let thresholds = [1e-12, 0.0, 1e-3, f64::NAN, f64::INFINITY, f64::NEG_INFINITY, -1.0, 0.5];
    for kind in 0..cases::CHAIN_KINDS {
        for n in [1, 2, 3, 4, 4, 5] {
            let limit = [64, 1, 2, 3, usize::MAX, 4][(kind + n) % 6];
            let state = cases::chain_state_of(rng, n, kind);
            calls.push(chain(rng, &state, n, thresholds[(kind + 3 * n) % 8], limit));
        }
    }
    for (kind, n, limit) in [
        (12, 6, 64),
        (12, 7, 64),
        (12, 8, 8),
        (12, 6, 2),
        (10, 6, 64),
        (3, 7, 64),
        (1, 8, 64),
        (2, 8, 64),
        (2, 9, 1),
        (8, 9, 64),
    ] {
        let state = cases::chain_state_of(rng, n, kind);
        calls.push(chain(rng, &state, n, 1e-12, limit));
    }
    for (kind, limit) in [(1, 4), (2, 2), (2, 64), (4, 1), (8, 4), (8, 3)] {
        let state = cases::chain_state_of(rng, 12, kind);
        calls.push(chain(rng, &state, 12, 1e-12, limit));
    }
    for (n, limit) in [(10, 8), (12, 1), (12, 4)] {
        let state: Vec<f64> = counted(READ, 2 << n).into_iter().map(f64::from_bits).collect();
        let state = state.chunks_exact(2).map(|parts| (parts[0], parts[1])).collect();
        calls.push(chain(rng, &state, n, 0.0, limit));
    }
    let above = f64::from_bits(CHAIN_LARGEST.to_bits() + 1);
    let real = |values: &[f64]| values.iter().map(|&value| (value, 0.0)).collect::<Cells>();
    for x in
        [CHAIN_LARGEST, -CHAIN_LARGEST, above, -above, f64::INFINITY, f64::NAN, power(-1074), power(-537), 1e-30, 2e-30]
    {
        calls.push(chain(rng, &real(&[0.0, x, 0.0, -0.0]), 2, 1e-12, 2));
        calls.push(chain(rng, &vec![(-0.0, 0.0), (0.0, x)], 1, 1e-12, 1));
    }
    for (n, limit) in [(2, 0), (0, 1), (13, 1), (13, 0), (usize::MAX, 2), (3, 2)] {
        calls.push(chain(rng, &real(&[1.0, 0.0, 0.0, 1.0]), n, 1e-12, limit));
    }
    for slice in 0..9 {
        for longer in [false, true] {
            let mut call = chain(rng, &real(&[0.6, 0.0, 0.0, 0.8]), 2, 1e-12, 2);
            let at = call.slices()[slice];
            let length = call.many(at).len();
            call.many_mut(at).resize(if longer { length + 1 } else { length - 1 }, 0);
            calls.push(call);
        }
    }
    for code in [275u32, 5655, 4406, 28_662] {
        let state: Vec<f64> = (0..16).map(|at| f64::from(code >> at & 1)).collect();
        calls.push(chain(rng, &real(&state), 4, 1e-12, 64));
    }
    calls.push(chain(rng, &real(&[1.0; 32]), 5, 0.0, 64));
    for _ in 0..30 {
        let mut call = cases::accepted(rng, chain_of_sites, Bounds { qubits: 3, side: 2 });
        cases::damage(rng, &mut call);
        if call.many(0).len() <= 64 && call.slices()[1..].iter().all(|&at| call.many(at).len() <= 400) {
            calls.push(call);
        }
    }
}

/// Pages of every kind of state, the longest one, those of one qubit, those at the edges, refused ones, and those that give up.
pub fn pages_of(rng: &mut Random, calls: &mut Vec<Call>) {
    let page = |rng: &mut Random, state: &Cells, n: usize, cap: usize| {
        lend(rng, cut_profile, vec![Arg::Many(numbers(state)), one(n), one(cap)])
    };
    for kind in 0..cases::CHAIN_KINDS {
        for n in [2 + kind % 2, 4] {
            let state = cases::chain_state_of(rng, n, kind);
            calls.push(page(rng, &state, n, [13, n + 1, usize::MAX][kind % 3]));
        }
    }
    for (kind, n) in [(12, 6), (2, 7), (13, 5)] {
        let state = cases::chain_state_of(rng, n, kind);
        calls.push(page(rng, &state, n, 13));
    }
    let up: Vec<f64> = counted(READ, 2 << 12).into_iter().map(f64::from_bits).collect();
    calls.push(page(rng, &up.chunks_exact(2).map(|parts| (parts[0], parts[1])).collect(), 12, 13));
    let real = |values: &[f64]| values.iter().map(|&value| (value, 0.0)).collect::<Cells>();
    for (n, cap) in [(1, 13), (1, 2), (1, 1), (0, 13), (13, 14), (2, 2), (usize::MAX, 13)] {
        calls.push(page(rng, &real(&[1.0, 0.0, 0.0, 1.0][..2]), n, cap));
    }
    let above = f64::from_bits(LARGEST.to_bits() + 1);
    for x in [LARGEST, above, f64::NAN, 0.0, -0.0, power(-538), power(-1074)] {
        calls.push(page(rng, &real(&[0.0, x, 0.0, -0.0]), 2, 13));
    }
    // Each slice one number short of its need.
    for (slice, length) in [7, 1, 1, 0, 0, 3, 35].into_iter().enumerate() {
        let mut call = page(rng, &real(&[0.6, 0.0, 0.0, 0.8]), 2, 13);
        let at = call.slices()[slice];
        call.many_mut(at).resize(length, 0);
        calls.push(call);
    }
    for code in [275u32, 5655, 4406] {
        let state: Vec<f64> = (0..16).map(|at| f64::from(code >> at & 1)).collect();
        calls.push(page(rng, &real(&state), 4, 13));
    }
}
