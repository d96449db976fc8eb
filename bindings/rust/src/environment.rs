//! The floating-point environment that the promises are about.
use std::{cell::Cell, hint::black_box, sync::OnceLock};

/// Whether this thread rounds to nearest, ties to even, and keeps subnormals, as results and as operands. The promises of every
/// call are about such a thread. A process that is linked with `-ffast-math`, or in which something set the rounding mode or the
/// flush bits, may have another: the crate asks by itself at the first call of each thread ([`environment_was_wrong`]).
/// `docs/CONVENTIONS.md` says what changes where the answer is no.
///
/// ```
/// assert!(zegrafult::environment());
/// ```
pub fn environment() -> bool {
    let add = |x: u64, y: u64| (black_box(f64::from_bits(black_box(x))) + black_box(f64::from_bits(black_box(y)))).to_bits();
    let times = |x: u64, y: u64| (black_box(f64::from_bits(black_box(x))) * black_box(f64::from_bits(black_box(y)))).to_bits();
    const ONE: u64 = 0x3FF0_0000_0000_0000;
    const SIGN: u64 = 1 << 63;
    const TIE: u64 = 0x3CA0_0000_0000_0000; // 2^-53
    const ABOVE: u64 = 0x3CA8_0000_0000_0000; // 1.5 * 2^-53
    const LEAST: u64 = 0x0010_0000_0000_0000; // 2^-1022, the least normal number
    const SUBNORMAL: u64 = 0x0008_0000_0000_0000; // 2^-1023
    black_box(add(ONE, TIE)) == ONE
        && black_box(add(SIGN | ONE, SIGN | TIE)) == SIGN | ONE
        && black_box(add(ONE, ABOVE)) == ONE + 1
        && black_box(times(LEAST, 0.5f64.to_bits())) == SUBNORMAL
        && black_box(times(SUBNORMAL, 2.0f64.to_bits())) == LEAST
}

/// Set once a thread's first call found the environment wrong.
static WRONG: OnceLock<()> = OnceLock::new();

thread_local! {
    static ASKED: Cell<bool> = const { Cell::new(false) };
}

/// Whether a thread's first call of this crate found an environment other than the promised one. Each thread asks once, after its
/// first call that can refuse or takes a root; the first time the answer is no, one sentence goes to standard error. The call itself is made
/// all the same: what it hands back has no promise then.
///
/// ```
/// zegrafult::sqrt(2.0);
/// assert!(!zegrafult::environment_was_wrong());
/// ```
pub fn environment_was_wrong() -> bool {
    WRONG.get().is_some()
}

/// Asks, once in each thread.
pub(crate) fn ask() {
    ASKED.with(|asked| {
        if !asked.replace(true) && !environment() && WRONG.set(()).is_ok() {
            eprintln!("zegrafult: this thread does not round to nearest or drops subnormals; what the calls promise is about one that does");
        }
    });
}
