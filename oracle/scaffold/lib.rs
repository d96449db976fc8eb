//! What the supplied text lacks, so that its four files compile: the modules around them, stand-ins for the errors and
//! limits that they name, `NORM_CLAMP_MIN` and `insert_zero_bit`. The modulus that two of the builds have for `norm` is in
//! `modulus.rs`. No arithmetic of the port stands here.
#![allow(dead_code, unused_imports)]

pub use num_complex::Complex64;

/// Used by the builds named `replaced` and `counting`.
pub mod modulus;

pub mod backend {
    /// Stand-in: the commit's value is not in the text supplied.
    pub const NORM_CLAMP_MIN: f64 = 1e-30;

    pub mod mps {
        use num_complex::Complex64;

        include!(concat!(env!("OUT_DIR"), "/constants.rs"));
        include!(concat!(env!("OUT_DIR"), "/mod_svd.rs"));

        pub use svd::{SvdResult, svd, svd_jacobi};
    }

    include!(concat!(env!("OUT_DIR"), "/mod_schmidt.rs"));
    include!(concat!(env!("OUT_DIR"), "/mod_reduced_density.rs"));

    pub mod statevector {
        /// Its body is not in the text supplied: bits at q and above move up one, bit q is zero.
        #[inline(always)]
        pub fn insert_zero_bit(index: usize, q: usize) -> usize {
            let low = (1usize << q) - 1;
            ((index & !low) << 1) | (index & low)
        }
    }
}

pub mod gates {
    include!(concat!(env!("OUT_DIR"), "/mod_spectral.rs"));

    /// Only a power of a unitary asks for it, which is not ported.
    pub fn principal_angle(_: f64) -> f64 {
        unreachable!()
    }
}

/// Used by the build named `counting` alone.
pub mod count {
    use std::cell::Cell;

    /// Sweeps begun, pairs turned, pairs turned since the last sweep began, and roots that did not come out even: of columns'
    /// norms and of the final scale.
    #[derive(Clone, Copy, Debug, Default, PartialEq, Eq)]
    pub struct Count {
        pub sweeps: usize,
        pub turns: usize,
        pub turns_of_last: usize,
        pub uneven: usize,
    }

    thread_local! {
        static COUNT: Cell<Count> = Cell::default();
    }

    pub fn sweep() {
        let count = COUNT.get();
        COUNT.set(Count { sweeps: count.sweeps + 1, turns_of_last: 0, ..count });
    }

    pub fn turn() {
        let count = COUNT.get();
        COUNT.set(Count { turns: count.turns + 1, turns_of_last: count.turns_of_last + 1, ..count });
    }

    pub fn root(x: f64, root: f64) {
        let count = COUNT.get();
        COUNT.set(Count { uneven: count.uneven + usize::from(!even(x, root)), ..count });
    }

    /// A finite float above zero as an odd whole number and the power of two that it is times.
    fn odd(x: f64) -> (u128, i64) {
        let (field, low) = ((x.to_bits() >> 52) as i64, x.to_bits() & ((1 << 52) - 1));
        let (digits, power) = if field == 0 { (low, -1074) } else { (low | 1 << 52, field - 1075) };
        (u128::from(digits >> digits.trailing_zeros()), power + i64::from(digits.trailing_zeros()))
    }

    /// Whether the square of `root` is `x`, in whole numbers. Both zeros are even, an infinity, a NaN and a negative number not.
    pub fn even(x: f64, root: f64) -> bool {
        if x == 0.0 {
            return true;
        }
        if !x.is_finite() || x < 0.0 {
            return false;
        }
        let ((square, twice), (side, once)) = (odd(x), odd(root));
        side * side == square && 2 * once == twice
    }

    /// The counts since it was last asked.
    pub fn taken() -> Count {
        COUNT.replace(Count::default())
    }
}

/// The errors that the four files raise, without their texts.
pub mod error {
    #[derive(Debug, Clone, PartialEq)]
    pub enum PrismError {
        InvalidQubit { index: usize, register_size: usize },
        InvalidParameter { message: String },
        BackendUnsupported { backend: String, operation: String },
        ResourceLimit { required: u128, limit: u128 },
    }

    pub enum ResourceKind {
        Qubits,
    }

    pub type Result<T> = std::result::Result<T, PrismError>;
}

/// The one limit that the four files read: the export cap.
pub mod limits {
    use crate::error::{PrismError, ResourceKind};

    pub enum LimitKnob {
        ExportQubits,
    }

    #[derive(Clone, Copy)]
    pub struct LimitSource;

    pub struct Limit {
        pub value: usize,
        pub source: LimitSource,
    }

    pub struct ResolvedLimits {
        pub export_qubits: Limit,
    }

    impl ResolvedLimits {
        pub fn export(cap: usize) -> Self {
            Self { export_qubits: Limit { value: cap, source: LimitSource } }
        }

        pub fn export_cap(&self) -> usize {
            self.export_qubits.value.min(usize::BITS as usize - 1)
        }
    }

    pub fn resource_limit_error(
        _: &str,
        _: impl Into<String>,
        _: ResourceKind,
        required: u128,
        limit: u128,
        _: LimitKnob,
        _: LimitSource,
    ) -> PrismError {
        PrismError::ResourceLimit { required, limit }
    }
}
