//! A planned call is its list's call under cap 13, bit for bit, refusals too, for every list of small registers and after changes.
mod lists;

use lists::lists;
use zegrafult::{cut_matrix, dense_reduced_density, dense_schmidt_values, Complex, Plan};

/// Components that no two lists treat alike, some of them zeros of either sign.
fn state(n: usize, seed: u64) -> Vec<Complex> {
    let mut x = seed.wrapping_mul(0x9E37_79B9_7F4A_7C15) | 1;
    let mut draw = || {
        x ^= x << 13;
        x ^= x >> 7;
        x ^= x << 17;
        match x % 9 {
            0 => 0.0,
            1 => -0.0,
            _ => (x >> 11) as f64 / (1u64 << 52) as f64 - 1.0,
        }
    };
    (0..1 << n).map(|_| Complex::new(draw(), draw())).collect()
}

fn bits(cells: &[Complex]) -> Vec<(u64, u64)> {
    cells.iter().map(|z| (z.re.to_bits(), z.im.to_bits())).collect()
}

/// The three calls of the plan against those of its list, over a state of any length.
fn same(plan: &Plan, state: &[Complex]) {
    let (n, list) = (plan.n, plan.list());
    let (a, b) = (plan.cut_matrix(state), cut_matrix(state, n, list, 13));
    match (&a, &b) {
        (Ok(a), Ok(b)) => assert_eq!((a.rows, a.columns, bits(&a.cells)), (b.rows, b.columns, bits(&b.cells))),
        _ => assert_eq!(a, b, "{plan:?}"),
    }
    let (a, b) = (plan.reduced_density(state), dense_reduced_density(state, n, list, 13));
    assert_eq!(a.as_deref().map(bits), b.as_deref().map(bits), "{plan:?}");
    let values = |found: Result<zegrafult::CutValues, _>| {
        found.map(|v| (v.values.iter().map(|x| x.to_bits()).collect::<Vec<_>>(), v.sweeps, v.quiet, v.turned, v.exact))
    };
    assert_eq!(values(plan.schmidt_values(state)), values(dense_schmidt_values(state, n, list, 13)), "{plan:?}");
}

#[test]
fn every_list_of_two_to_five_qubits() {
    for n in 2..=5 {
        for (seed, list) in lists(n).into_iter().enumerate() {
            let plan = Plan::new(&list, n, 13).unwrap();
            let amplitudes = state(n, seed as u64 + 1);
            same(&plan, &amplitudes);
            same(&plan, &amplitudes[1..]); // 6
            let mut broken = amplitudes;
            broken[seed % (1 << n)].im = f64::INFINITY;
            same(&plan, &broken); // 7
            same(&plan, &vec![Complex::default(); 1 << n]); // 8 of the values
        }
    }
}

#[test]
fn after_any_changes() {
    for n in 2..=8 {
        let mut x = n as u64;
        let mut plan = Plan::new(&[n - 1], n, 13).unwrap();
        for step in 0..60 {
            x = x.wrapping_mul(6364136223846793005).wrapping_add(1442695040888963407);
            let q = (x >> 33) as usize % (n + 1);
            let changed = match (x >> 60) % 3 {
                0 => plan.with(q),
                1 => plan.without(q),
                _ => plan.switched(),
            };
            plan = changed.unwrap_or(plan);
            same(&plan, &state(n, step));
        }
    }
}

#[test]
fn more_than_six_named_have_no_density() {
    let plan = Plan::new(&[0, 1, 2, 3, 4, 5, 6], 8, 13).unwrap();
    let refusal = plan.reduced_density(&state(8, 1)).unwrap_err();
    assert_eq!((refusal.number(), refusal.place()), (1, 0));
    assert!(plan.without(3).unwrap().reduced_density(&state(8, 1)).is_ok());
}

#[test]
fn a_plan_that_no_list_makes() {
    let made = Plan::new(&[3, 0], 5, 13).unwrap();
    let mut broken = vec![];
    for at in 0..12 {
        let (mut named, mut smaller) = (made, made);
        named.named[at] += 1;
        smaller.smaller[at] += 1;
        broken.extend([named, smaller]);
    }
    broken.extend([
        Plan { n: 6, ..made },
        Plan { k: 1, ..made },
        Plan { k: 13, ..made },
        Plan { row_mask: made.column_mask, column_mask: made.row_mask, ..made },
        Plan { rows: made.columns, columns: made.rows, ..made },
    ]);
    for plan in broken {
        for amplitudes in [state(5, 7), vec![]] {
            let numbers = [
                plan.cut_matrix(&amplitudes).err(),
                plan.schmidt_values(&amplitudes).err(),
                plan.reduced_density(&amplitudes).err(),
            ];
            assert!(numbers.iter().all(|r| r.as_ref().is_some_and(|r| (r.number(), r.place()) == (1, 0))), "{plan:?}");
        }
    }
}
