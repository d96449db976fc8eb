//! Whether the roots came out even.
use zegrafult::*;

fn reals(numbers: &[f64]) -> Vec<Complex> {
    numbers.iter().map(|&re| Complex::real(re)).collect()
}

#[test]
fn roots() {
    for x in [0.0, -0.0, 1.0, 4.0, 2.25, 5e-324, 2e-323, f64::from_bits(0x4330_0000_0800_0001)] {
        let (root, exact) = sqrt_marked(x);
        assert!(exact, "{x:e}");
        assert_eq!((root * root, root.to_bits()), (x, sqrt(x).to_bits()));
    }
    for x in [2.0, 1e-323, f64::MAX, f64::INFINITY, f64::NEG_INFINITY, f64::NAN, -4.0] {
        let (root, exact) = sqrt_marked(x);
        assert!(!exact, "{x:e}");
        assert_eq!(root.to_bits(), sqrt(x).to_bits());
    }
}

/// Of four amplitudes, list 0, whose columns need no turn: the norms alone, the scale alone, both, neither.
#[test]
fn norms_and_scale() {
    let mark = |state: [f64; 4]| dense_schmidt_values(&reals(&state), 2, &[0], 13).unwrap().exact;
    assert!(mark([3.0, 0.0, 0.0, 4.0]), "norms 3 and 4, scale 5");
    assert!(!mark([1.0, 0.0, 0.0, 1.0]), "norms 1 and 1, scale √2");
    assert!(!mark([1.0, 0.0, 1.0, 0.0]), "norms √2 and 0");
    assert!(!mark([1.0, 0.0, 0.0, 5e-162]), "the root of a square that was rounded is not exact, though the floor drops its value");
}

/// Without a weight, with a value that is not finite, and refused before: no.
#[test]
fn refusals() {
    let refused = |state: &[f64], list: &[usize]| dense_schmidt_values(&reals(state), 2, list, 13).unwrap_err();
    assert_eq!(refused(&[0.0; 4], &[0]).number(), 8);
    assert_eq!(refused(&[0.0; 4], &[2]).number(), 2);
}
