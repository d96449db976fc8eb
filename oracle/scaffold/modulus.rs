//! The modulus that the builds `replaced` and `counting` have for `norm`: both parts scaled by the power of two that brings
//! the larger magnitude to at least 1 and under 2, the root of the rounded sum of the rounded squares, that scaled back. All
//! of it is done on whole numbers, each step rounded by `nearest`; no float is multiplied, added or rooted here but where a
//! part is not finite.

use num_complex::Complex64;

pub trait Modulus {
    fn modulus(&self) -> f64;
}

impl Modulus for Complex64 {
    fn modulus(&self) -> f64 {
        if self.re.is_finite() && self.im.is_finite() {
            f64::from_bits(of_finite(self.re.to_bits(), self.im.to_bits()))
        } else {
            self.norm_sqr().sqrt()
        }
    }
}

/// A magnitude: digits times 2^exponent. That of a float has at most 53 digits and an exponent of -1074 at least.
#[derive(Clone, Copy)]
struct Size {
    digits: u128,
    exponent: i32,
}

/// The magnitude of a finite float.
fn size(bits: u64) -> Size {
    let field = bits >> 52 & 0x7FF;
    let fraction = bits & ((1 << 52) - 1);
    if field == 0 {
        Size { digits: fraction.into(), exponent: -1074 }
    } else {
        Size { digits: (fraction | 1 << 52).into(), exponent: field as i32 - 1075 }
    }
}

/// The digits without their last `count`. The last one kept is 1 where it was, and where any that went was not 0.
fn shortened(digits: u128, count: u32) -> u128 {
    if count > 127 {
        return u128::from(digits > 0);
    }
    let kept = digits >> count;
    kept | u128::from(kept << count != digits)
}

/// The bits of the float nearest to a magnitude, ties to even, +infinity above the floats. Where digits were shortened
/// there are at least 55, so that the last decides no tie.
fn nearest(x: Size) -> u64 {
    if x.digits == 0 {
        return 0;
    }
    let length = 128 - x.digits.leading_zeros() as i32;
    // Two digits past the last that is kept: the half, and whether anything follows.
    let drop = (length - 55).max(-1076 - x.exponent);
    let (digits, exponent) = if drop > 0 {
        (shortened(x.digits, drop as u32), x.exponent + drop)
    } else {
        (x.digits << -drop, x.exponent + drop)
    };
    let rest = digits & 3;
    let mut whole = (digits >> 2) as u64;
    if rest == 3 || (rest == 2 && whole & 1 == 1) {
        whole += 1;
    }
    // 53 digits at 2^-1074 have 1 in the exponent's field, which is their own first digit; 2^53 carries into it.
    let field = (exponent + 2 + 1074) as u64;
    if field > 2045 {
        return 0x7FF << 52;
    }
    (field << 52) + whole
}

/// The bits of the modulus of two finite parts, from their bits.
pub fn of_finite(re: u64, im: u64) -> u64 {
    let parts = [size(re), size(im)];
    let exponent_of = |x: Size| x.exponent + 127 - x.digits.leading_zeros() as i32;
    let Some(power) = parts.into_iter().filter(|x| x.digits > 0).map(exponent_of).max() else { return 0 };
    let squares = parts.map(|x| {
        let scaled = size(nearest(Size { exponent: x.exponent - power, ..x }));
        size(nearest(Size { digits: scaled.digits * scaled.digits, exponent: 2 * scaled.exponent }))
    });
    let root = root(sum(squares));
    nearest(Size { exponent: root.exponent + power, ..root })
}

/// The rounded sum of two floats' magnitudes.
fn sum([a, b]: [Size; 2]) -> Size {
    let (high, low) = if a.exponent >= b.exponent { (a, b) } else { (b, a) };
    let moved = shortened(low.digits << 64, (high.exponent - low.exponent) as u32);
    size(nearest(Size { digits: (high.digits << 64) + moved, exponent: high.exponent - 64 }))
}

/// The rounded root of a magnitude of at least 1.
fn root(x: Size) -> Size {
    let more = 64 + (x.exponent & 1);
    let square = x.digits << more;
    let floor = square.isqrt();
    let digits = floor << 1 | u128::from(floor * floor != square);
    size(nearest(Size { digits, exponent: (x.exponent - more) / 2 - 1 }))
}
