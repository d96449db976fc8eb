//! The modulus at the edges of its rule.
use zegrafult::modulus;

#[test]
fn zeros_and_axes() {
    for (re, im) in [(0.0, 0.0), (-0.0, 0.0), (0.0, -0.0), (-0.0, -0.0)] {
        assert_eq!(modulus(re, im).to_bits(), 0);
    }
    for x in [f64::from_bits(1), f64::MIN_POSITIVE, 1e-170, 1.0, f64::MAX] {
        assert_eq!([modulus(x, -0.0), modulus(0.0, -x)], [x; 2]);
    }
}

#[test]
fn tiny_and_huge_parts() {
    let least = f64::from_bits(1);
    assert_eq!(modulus(3.0 * least, 4.0 * least), 5.0 * least);
    assert_eq!(modulus(least, least), least);
    assert_eq!(modulus(1e-170, 1e-170).to_bits(), 0x1CAB_538F_66D7_CBD3);
    assert_eq!(modulus(f64::MAX, f64::MAX), f64::INFINITY);
    assert_eq!(modulus(17.0, 27.0).to_bits(), 0x403F_E7F6_F939_A553);
}

#[test]
fn parts_that_are_not_finite() {
    assert_eq!(modulus(f64::NEG_INFINITY, 1.0), f64::INFINITY);
    assert_eq!(modulus(f64::MAX, f64::INFINITY), f64::INFINITY);
    assert!(modulus(f64::INFINITY, f64::NAN).is_nan() && modulus(f64::NAN, 0.0).is_nan());
}
