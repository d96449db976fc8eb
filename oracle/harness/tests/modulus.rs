//! The oracle's modulus, which is worked out on whole numbers: values that follow from its rule, and the rule again in the
//! machine's own floats.

use harness::cases::{self, PARTS, power};
use harness::random::Random;
use num_complex::Complex64;
use replaced::modulus::Modulus;

fn modulus(re: f64, im: f64) -> f64 {
    Complex64::new(re, im).modulus()
}

/// The rule in floats: each multiplication by a power of two is one rounding, and exact where it makes larger.
fn in_floats(re: f64, im: f64) -> f64 {
    if !(re.is_finite() && im.is_finite()) {
        return (re * re + im * im).sqrt();
    }
    let larger = re.abs().max(im.abs());
    if larger == 0.0 {
        return 0.0;
    }
    let exponent = (-1074..=1023).rev().find(|&exponent| power(exponent) <= larger).expect("a power of two");
    let scaled = |x: f64| if exponent < -1022 { x * power(60) * power(-exponent - 60) } else { x * power(-exponent) };
    let (a, b) = (scaled(re), scaled(im));
    (a * a + b * b).sqrt() * power(exponent)
}

#[test]
fn by_hand() {
    for (re, im) in [(0.0, 0.0), (-0.0, 0.0), (0.0, -0.0), (-0.0, -0.0)] {
        assert_eq!(modulus(re, im).to_bits(), 0);
    }
    for exponent in [-1074, -1073, -1022, -600, 0, 200, 1020] {
        assert_eq!(modulus(3.0 * power(exponent), -4.0 * power(exponent)), 5.0 * power(exponent));
    }
    // The roots of 2 and 5 in units of the least float: 1.41 and 2.24, and that of 8 is 2.83.
    let least = power(-1074);
    assert_eq!(
        [modulus(least, least), modulus(least, 2.0 * least), modulus(2.0 * least, 2.0 * least)],
        [least, 2.0 * least, 3.0 * least]
    );
    assert_eq!((modulus(f64::MAX, 0.0), modulus(-f64::MAX, f64::MAX)), (f64::MAX, f64::INFINITY));
    // A sum of squares keeps 2^-52 beside 1 and not 2^-54; of 1 + 2^-52 the root is 1.
    assert_eq!(
        [modulus(1.0, power(-27)), modulus(1.0, power(-26)), modulus(1.0, power(-25))],
        [1.0, 1.0, 1.0 + power(-51)]
    );
    assert_eq!(modulus(1e-170, 1e-170).to_bits(), 0x1CAB_538F_66D7_CBD3);
    assert_eq!(modulus(f64::NEG_INFINITY, 1.0), f64::INFINITY);
    assert!(modulus(f64::INFINITY, f64::NAN).is_nan() && modulus(f64::NAN, 0.0).is_nan());
}

#[test]
fn whole_numbers_and_floats_agree() {
    let mut rng = Random::new(16);
    for kind in PARTS {
        for _ in 0..2000 {
            let [re, im] = cases::parts(&mut rng, kind).map(f64::from_bits);
            let (whole, floats) = (modulus(re, im), in_floats(re, im));
            assert!(whole.to_bits() == floats.to_bits() || whole.is_nan() && floats.is_nan(), "{kind:?} {re:e} {im:e}");
        }
    }
}
