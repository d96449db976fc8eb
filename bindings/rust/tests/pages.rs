//! The two pages of one state: the density, and the one summed from the cut matrix alone.
use zegrafult::*;

/// Amplitudes from whole numbers, zeros of both signs and long fractions among them.
fn state(n: usize, seed: u64) -> Vec<Complex> {
    let mut x = seed;
    let mut next = || {
        x = x.wrapping_mul(6364136223846793005).wrapping_add(1442695040888963407);
        match x >> 61 {
            0 => 0.0,
            1 => -0.0,
            2 => ((x >> 33) % 9) as f64 - 4.0,
            _ => (x >> 11) as f64 / (1u64 << 53) as f64 - 0.5,
        }
    };
    (0..1 << n).map(|_| Complex::new(next(), next())).collect()
}

/// Every list of one to n - 1 distinct qubits of n, in every order.
fn lists(n: usize) -> Vec<Vec<usize>> {
    let mut all = vec![vec![]];
    let mut from = 0;
    while from < all.len() {
        let list = all[from].clone();
        if list.len() + 1 < n {
            all.extend((0..n).filter(|q| !list.contains(q)).map(|q| [list.as_slice(), &[q]].concat()));
        }
        from += 1;
    }
    all.split_off(1)
}

#[test]
fn every_list_of_a_small_register() {
    for n in 2..=5 {
        for list in lists(n) {
            assert_eq!(pages_agree(&state(n, list.len() as u64 + 7), n, &list, 13), Ok(true), "{n} {list:?}");
        }
    }
}

#[test]
fn the_largest_register() {
    for list in [vec![0], vec![11, 3], vec![5, 4, 3, 2, 1, 0], vec![6, 7, 8, 9, 10, 11]] {
        assert_eq!(pages_agree(&state(12, 1), 12, &list, 13), Ok(true));
    }
}

#[test]
fn refusals() {
    let numbers = |list: &[usize], n, cap| pages_agree(&state(n, 1), n, list, cap).map_err(|r| (r.number(), r.place()));
    assert_eq!(numbers(&[0], 3, 3), Err((1, 0)));
    assert_eq!(numbers(&[3], 3, 13), Err((2, 0)));
    assert_eq!(numbers(&[1, 1], 3, 13), Err((3, 1)));
    assert_eq!(numbers(&[], 3, 13), Err((4, 0)));
    assert_eq!(numbers(&[2, 1, 0], 3, 13), Err((5, 0)));
    assert_eq!(pages_agree(&state(2, 1), 3, &[0], 13).map_err(|r| (r.number(), r.place())), Err((6, 0)));
}
