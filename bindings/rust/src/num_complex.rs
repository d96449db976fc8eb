//! Casts between [`Complex`] and `num_complex::Complex64` without a copy: both are two f64, the real part first, in C's layout.
use crate::Complex;
use ::num_complex::Complex64;
use std::{mem, mem::ManuallyDrop, slice};

// What the casts below rest on.
const _: () = {
    assert!(mem::size_of::<Complex>() == mem::size_of::<Complex64>());
    assert!(mem::align_of::<Complex>() == mem::align_of::<Complex64>());
    assert!(mem::offset_of!(Complex, re) == mem::offset_of!(Complex64, re));
    assert!(mem::offset_of!(Complex, im) == mem::offset_of!(Complex64, im));
};

/// num-complex's numbers as cells.
///
/// ```
/// use num_complex::Complex64;
/// use zegrafult::{dense_schmidt_values, num_complex::cells};
///
/// let state = [1.0, 0.0, 0.0, 1.0].map(Complex64::from);
/// assert_eq!(dense_schmidt_values(cells(&state), 2, &[0], 13)?.values.len(), 2);
/// # Ok::<(), zegrafult::Refusal>(())
/// ```
pub fn cells(numbers: &[Complex64]) -> &[Complex] {
    // SAFETY: both types have the same size, alignment and fields, tested above; any bits are a value of either; the slice keeps
    // its place, its length and its lifetime.
    unsafe { slice::from_raw_parts(numbers.as_ptr().cast(), numbers.len()) }
}

/// num-complex's numbers as cells that a call may write.
///
/// ```
/// use num_complex::Complex64;
/// use zegrafult::{normalize_trace, num_complex::cells_mut};
///
/// let mut rho = [1.0, 0.0, 0.0, 3.0].map(Complex64::from);
/// normalize_trace(cells_mut(&mut rho), 2)?;
/// assert_eq!(rho[3], Complex64::new(0.75, 0.0));
/// # Ok::<(), zegrafult::Refusal>(())
/// ```
pub fn cells_mut(numbers: &mut [Complex64]) -> &mut [Complex] {
    // SAFETY: as in `cells`; the slice is borrowed for writing by nobody else.
    unsafe { slice::from_raw_parts_mut(numbers.as_mut_ptr().cast(), numbers.len()) }
}

/// Cells as num-complex's numbers.
///
/// ```
/// use zegrafult::{num_complex::complex64, Complex};
///
/// assert_eq!(complex64(&[Complex::new(3.0, -4.0)])[0].norm_sqr(), 25.0);
/// ```
pub fn complex64(cells: &[Complex]) -> &[Complex64] {
    // SAFETY: as in `cells`, the other way.
    unsafe { slice::from_raw_parts(cells.as_ptr().cast(), cells.len()) }
}

/// Cells as num-complex's numbers that may be written.
///
/// ```
/// use zegrafult::{num_complex::complex64_mut, Complex};
///
/// let mut cells = [Complex::new(3.0, -4.0)];
/// complex64_mut(&mut cells)[0] *= 2.0;
/// assert_eq!(cells[0], Complex::new(6.0, -8.0));
/// ```
pub fn complex64_mut(cells: &mut [Complex]) -> &mut [Complex64] {
    // SAFETY: as in `cells`, the other way; the slice is borrowed for writing by nobody else.
    unsafe { slice::from_raw_parts_mut(cells.as_mut_ptr().cast(), cells.len()) }
}

/// A vector of cells as one of num-complex's numbers: the same memory.
///
/// ```
/// use zegrafult::{num_complex::into_complex64, svd_jacobi, Complex};
///
/// let svd = svd_jacobi(&[3.0, 0.0, 0.0, 4.0].map(Complex::real), 2, 2)?;
/// let before = svd.u.as_ptr() as usize;
/// let u = into_complex64(svd.u);
/// assert_eq!((u.len(), u.as_ptr() as usize), (4, before));
/// # Ok::<(), zegrafult::Refusal>(())
/// ```
pub fn into_complex64(cells: Vec<Complex>) -> Vec<Complex64> {
    let mut cells = ManuallyDrop::new(cells);
    // SAFETY: the parts are those of a vector that is not dropped; both types have the same size and alignment, tested above, so
    // that length, capacity and the allocation's layout stay true.
    unsafe { Vec::from_raw_parts(cells.as_mut_ptr().cast(), cells.len(), cells.capacity()) }
}

/// A vector of num-complex's numbers as one of cells: the same memory.
///
/// ```
/// use num_complex::Complex64;
/// use zegrafult::num_complex::from_complex64;
///
/// assert_eq!(from_complex64(vec![Complex64::new(1.0, 2.0)])[0].im, 2.0);
/// ```
pub fn from_complex64(numbers: Vec<Complex64>) -> Vec<Complex> {
    let mut numbers = ManuallyDrop::new(numbers);
    // SAFETY: as in `into_complex64`, the other way.
    unsafe { Vec::from_raw_parts(numbers.as_mut_ptr().cast(), numbers.len(), numbers.capacity()) }
}

impl From<Complex64> for Complex {
    fn from(z: Complex64) -> Self {
        Complex { re: z.re, im: z.im }
    }
}

impl From<Complex> for Complex64 {
    fn from(z: Complex) -> Self {
        Complex64 { re: z.re, im: z.im }
    }
}
