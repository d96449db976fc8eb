//! The floating-point environment is told apart: each rounding mode and each flush bit of the processor, in a thread of its own.
#![cfg(target_arch = "x86_64")]
use std::arch::asm;

fn with_control(change: impl Fn(u32) -> u32 + Sync) -> bool {
    with_control_in(change, zegrafult::environment)
}

fn with_control_in(change: impl Fn(u32) -> u32 + Sync, ask: impl Fn() -> bool + Sync) -> bool {
    std::thread::scope(|scope| {
        let asked = scope.spawn(|| {
            let mut before = 0u32;
            // SAFETY: the control word is stored into a borrowed u32.
            unsafe { asm!("stmxcsr [{}]", in(reg) &mut before) };
            let changed = change(before);
            // SAFETY: a control word of this thread with its rounding or flush bits changed, which no exception follows.
            unsafe { asm!("ldmxcsr [{}]", in(reg) &changed) };
            let told = ask();
            // SAFETY: the word that the thread had.
            unsafe { asm!("ldmxcsr [{}]", in(reg) &before) };
            told
        });
        asked.join().expect("it does not panic")
    })
}

#[test]
fn as_it_is() {
    assert!(zegrafult::environment());
    assert!(with_control(|word| word));
}

/// The first call of a thread asks: here one whose thread rounds upward, after one whose thread is as promised.
#[test]
fn the_first_call_asks() {
    zegrafult::sqrt(2.0);
    zegrafult::validate_qubit_set(&[0], 1).unwrap();
    assert!(!zegrafult::environment_was_wrong());
    let call = || zegrafult::validate_qubit_set(&[0], 1).is_ok();
    assert!(with_control_in(|word| word | 2 << 13, call), "the call is made all the same");
    assert!(zegrafult::environment_was_wrong());
}

#[test]
fn rounding_modes() {
    for mode in 1..4 {
        assert!(!with_control(|word| word | mode << 13), "rounding mode {mode}");
    }
}

#[test]
fn flushed_subnormals() {
    for bits in [0x8000, 0x0040, 0x8040] {
        assert!(!with_control(|word| word | bits), "bits {bits:#06x}");
    }
}
