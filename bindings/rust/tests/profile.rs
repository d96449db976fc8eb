//! An entry of a page reads the same as the cut asked for alone.
use zegrafult::{cut_profile, dense_schmidt_values, Complex};

fn drawn(seed: &mut u64) -> f64 {
    *seed = seed.wrapping_mul(6364136223846793005).wrapping_add(1442695040888963407);
    (*seed >> 11) as f64 / (1u64 << 53) as f64 - 0.5
}

#[test]
fn entry_alone() {
    let mut seed = 11;
    for n in 2..=8 {
        for _ in 0..20 {
            let state: Vec<Complex> = (0..1 << n).map(|_| Complex { re: drawn(&mut seed), im: drawn(&mut seed) }).collect();
            let page = cut_profile(&state, n, 13).unwrap();
            assert_eq!(page.cuts.len(), n - 1);
            for (j, cut) in page.cuts.iter().enumerate() {
                let list: Vec<usize> = (0..=j).collect();
                assert_eq!(*cut, dense_schmidt_values(&state, n, &list, 13).unwrap());
                assert_eq!((page.ranks[j], page.largest[j]), (cut.values.len(), cut.values[0]));
            }
        }
    }
}

#[test]
fn refusals() {
    let one = Complex { re: 1.0, im: 0.0 };
    let none = Complex { re: 0.0, im: 0.0 };
    let refused = |state: &[Complex], n, cap| {
        let refusal = cut_profile(state, n, cap).unwrap_err();
        (refusal.number(), refusal.place())
    };
    assert_eq!(refused(&[one; 2], 1, 13), (5, 0));
    assert_eq!(refused(&[one; 2], 1, 1), (1, 0));
    assert_eq!(refused(&[one; 4], 0, 13), (1, 0));
    assert_eq!(refused(&[one; 4], 13, 14), (1, 0));
    assert_eq!(refused(&[one; 3], 2, 13), (6, 0));
    assert_eq!(refused(&[one, one, Complex { re: f64::NAN, im: 0.0 }, one], 2, 13), (7, 2));
    assert_eq!(refused(&[none; 4], 2, 13), (8, 0));
}
