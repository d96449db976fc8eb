//! The certificate's arithmetic of a source tester, proved in Rattle, as safe Rust calls.
//!
//! Each function lends buffers of the right size to the static library and hands back what it computed, or the
//! [`Refusal`] with its number and place. Nothing panics, and the same input gives the same bits.
//!
//! ```
//! use zegrafult::{dense_schmidt_values, Complex};
//!
//! // two qubits, both 0 or both 1
//! let state: Vec<Complex> = [1.0, 0.0, 0.0, 1.0].map(Complex::real).into();
//! let found = dense_schmidt_values(&state, 2, &[0], 13)?;
//! assert_eq!(found.values.len(), 2);
//! assert_eq!(found.values[0], found.values[1]);
//! assert_eq!((found.sweeps, found.quiet), (1, true));
//!
//! let refusal = dense_schmidt_values(&state, 2, &[0, 0], 13).unwrap_err();
//! assert_eq!(refusal, zegrafult::Refusal::Twice(1));
//! assert_eq!((refusal.number(), refusal.place()), (3, 1));
//! println!("{refusal}");
//! # Ok::<(), zegrafult::Refusal>(())
//! ```
//!
//! Qubit q is bit q of a state's index. That and the rest of what all calls share (rows and columns, threads, stack, the
//! floating-point environment, which [`environment`] tells) is in `docs/CONVENTIONS.md`.
//!
//! A call that allocates has a sibling `_into`, which works in lent buffers; how long each must be a function `CALL_SLICE_len` tells, in
//! elements of the slice: cells for `&mut [Complex]`, numbers for the rest. With the feature `num-complex`, slices and vectors of
//! `num_complex::Complex64` are cast without a copy.
#![deny(missing_docs)]

mod ffi;
mod refusal;

mod certificate;
mod chain;
mod densities;
mod environment;
mod factors;
mod into;
mod lists;
#[cfg(feature = "num-complex")]
pub mod num_complex;
mod numbers;
mod sites;
mod sizes;
mod lot;
mod plan;
mod planned;
mod slab;
mod spectra;

pub use certificate::*;
pub use chain::*;
pub use densities::*;
pub use environment::{environment, environment_was_wrong};
pub use factors::*;
pub use into::*;
pub use lists::*;
pub use numbers::*;
pub use refusal::Refusal;
pub use sites::*;
pub use sizes::*;
pub use lot::*;
pub use plan::*;
pub use slab::*;
pub use spectra::*;

/// A complex number: one cell of a state or a matrix. Its layout is C's: the real part, then the imaginary.
///
/// ```
/// use zegrafult::Complex;
///
/// assert_eq!(Complex { re: 3.0, im: 0.0 }, Complex::real(3.0));
/// assert_eq!(std::mem::size_of::<Complex>(), 16);
/// ```
#[derive(Clone, Copy, Debug, Default, PartialEq)]
#[repr(C)]
pub struct Complex {
    /// The real part.
    pub re: f64,
    /// The imaginary part.
    pub im: f64,
}

impl Complex {
    /// The number with these parts.
    ///
    /// ```
    /// assert_eq!(zegrafult::Complex::new(1.0, -2.0).im, -2.0);
    /// ```
    pub const fn new(re: f64, im: f64) -> Self {
        Complex { re, im }
    }

    /// A real number.
    ///
    /// ```
    /// assert_eq!(zegrafult::Complex::real(1.0).im, 0.0);
    /// ```
    pub const fn real(re: f64) -> Self {
        Complex { re, im: 0.0 }
    }
}

/// The version of the linked library, 10000·major + 100·minor + patch.
///
/// ```
/// assert_eq!(zegrafult::version(), 100); // 0.1.0
/// ```
pub fn version() -> u32 {
    // SAFETY: the call takes nothing and gives a number alone.
    unsafe { ffi::zg_version() }
}

/// A slice as the library takes it: where it begins, and how long it is.
fn row<T>(slice: &[T]) -> (*const T, usize) {
    (slice.as_ptr(), slice.len())
}

fn row_mut<T>(slice: &mut [T]) -> (*mut T, usize) {
    (slice.as_mut_ptr(), slice.len())
}

/// The numbers of a slice of cells: twice as many, real part first.
fn numbers_of(cells: &[Complex]) -> (*const f64, usize) {
    (cells.as_ptr().cast(), 2 * cells.len())
}

fn numbers_of_mut(cells: &mut [Complex]) -> (*mut f64, usize) {
    (cells.as_mut_ptr().cast(), 2 * cells.len())
}

/// 2^q where the library takes q at all. For any other q nothing is lent: the library refuses by 1 before it looks.
fn power(q: usize) -> usize {
    if q <= 12 {
        1 << q
    } else {
        0
    }
}

/// a * b where a matrix of the library may have that many cells, else nothing is lent: the library refuses by 1.
fn area(a: usize, b: usize) -> usize {
    a.checked_mul(b).filter(|&cells| cells <= 4096).unwrap_or(0)
}
