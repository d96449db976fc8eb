//! Number helpers: nothing is refused.
use crate::{environment, ffi};
use std::cmp::Ordering;

/// The float nearest to the exact square root.
///
/// ```
/// assert_eq!(zegrafult::sqrt(2.0).to_bits(), 0x3FF6_A09E_667F_3BCD);
/// assert_eq!(zegrafult::sqrt(-1.0).to_bits(), 0x7FF8_0000_0000_0000);
/// ```
pub fn sqrt(x: f64) -> f64 {
    environment::ask();
    // SAFETY: the call takes and gives numbers alone.
    unsafe { ffi::zg_sqrt(x) }
}

/// [`sqrt`], and whether it came out even: whether the root's square, as real numbers, is `x`.
///
/// ```
/// assert_eq!(zegrafult::sqrt_marked(2.25), (1.5, true));
/// assert_eq!(zegrafult::sqrt_marked(2.0), (zegrafult::sqrt(2.0), false));
/// assert_eq!(zegrafult::sqrt_marked(f64::INFINITY), (f64::INFINITY, false));
/// ```
pub fn sqrt_marked(x: f64) -> (f64, bool) {
    environment::ask();
    let mut exact = false;
    // SAFETY: the mark is a borrowed place, and the rest is handed over by value.
    let root = unsafe { ffi::zg_sqrt_marked(x, &mut exact) };
    (root, exact)
}

/// [`sqrt`] on bit patterns.
///
/// ```
/// assert_eq!(zegrafult::sqrt_bits(0x4010_0000_0000_0000), 0x4000_0000_0000_0000);
/// ```
pub fn sqrt_bits(bits: u64) -> u64 {
    environment::ask();
    // SAFETY: the call takes and gives numbers alone.
    unsafe { ffi::zg_sqrt_bits(bits) }
}

/// The modulus of `re + i im`. Both parts are scaled so that the larger is at least 1 and under 2, and the root of the sum of
/// their squares is scaled back: tiny parts are not lost and huge ones do not overflow on the way.
///
/// ```
/// assert_eq!(zegrafult::modulus(3e-200, -4e-200), 5e-200);
/// assert_eq!(zegrafult::modulus(-0.0, -0.0).to_bits(), 0);
/// ```
pub fn modulus(re: f64, im: f64) -> f64 {
    environment::ask();
    // SAFETY: the call takes and gives numbers alone.
    unsafe { ffi::zg_modulus(re, im) }
}

/// The sign cleared, that of -0 too.
///
/// ```
/// assert_eq!(zegrafult::magnitude(-0.0).to_bits(), 0);
/// ```
pub fn magnitude(x: f64) -> f64 {
    // SAFETY: the call takes and gives numbers alone.
    unsafe { ffi::zg_magnitude(x) }
}

/// 1 for +0.0 and above, -1 for -0.0 and below, NaN for NaN.
///
/// ```
/// assert_eq!(zegrafult::sign(-0.0), -1.0);
/// ```
pub fn sign(x: f64) -> f64 {
    // SAFETY: the call takes and gives numbers alone.
    unsafe { ffi::zg_sign(x) }
}

/// Whether a number is neither infinite nor a NaN.
///
/// ```
/// assert!(!zegrafult::is_finite(f64::INFINITY));
/// ```
pub fn is_finite(x: f64) -> bool {
    // SAFETY: the call takes and gives numbers alone.
    unsafe { ffi::zg_is_finite(x) }
}

/// Finite and of magnitude at most 2^200.
///
/// ```
/// assert!(zegrafult::component_allowed(2f64.powi(200)));
/// assert!(!zegrafult::component_allowed(2f64.powi(201)));
/// ```
pub fn component_allowed(x: f64) -> bool {
    // SAFETY: the call takes and gives numbers alone.
    unsafe { ffi::zg_component_allowed(x) }
}

/// Whether x is below y in the total order.
///
/// ```
/// assert!(zegrafult::total_less(-0.0, 0.0));
/// assert!(!zegrafult::total_less(f64::NAN, f64::INFINITY));
/// ```
pub fn total_less(x: f64, y: f64) -> bool {
    // SAFETY: the call takes and gives numbers alone.
    unsafe { ffi::zg_total_less(x, y) }
}

/// The total order: -0 is below +0, a NaN above all else.
///
/// ```
/// assert!(zegrafult::total_order(f64::NAN, f64::INFINITY).is_gt());
/// assert!(zegrafult::total_order(-0.0, 0.0).is_lt());
/// ```
pub fn total_order(x: f64, y: f64) -> Ordering {
    // SAFETY: the call takes and gives numbers alone.
    match unsafe { ffi::zg_total_order(x, y) } {
        0 => Ordering::Less,
        1 => Ordering::Equal,
        _ => Ordering::Greater,
    }
}
