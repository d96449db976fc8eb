//! `gave_up`: all states of four qubits with amplitudes 0 and 1 but the zero state, cut by the list 0, 1, for `oracle/gave_up`.
//! A line has the state (bit i is amplitude i), the sweeps begun, the pairs that the last one turned, the same two of the state
//! times 2^-20, whether its values have the same bits (1 or 0), and the values' bits.

use counting::backend::schmidt::door as schmidt;
use counting::count::{Count, taken};
use harness::cases::power;
use num_complex::Complex64;

/// The values of a state whose amplitudes are 0 and `one`, and what was counted.
fn values(code: u32, one: f64) -> (Vec<u64>, Count) {
    let state: Vec<Complex64> = (0..16).map(|at| Complex64::new(f64::from(code >> at & 1) * one, 0.0)).collect();
    taken();
    let values = schmidt::dense_schmidt_values(&state, 4, &[0, 1], 13).expect("an accepted cut");
    (values.iter().map(|value| value.to_bits()).collect(), taken())
}

fn main() {
    for code in 1..1u32 << 16 {
        let ((bits, count), (small_bits, small)) = (values(code, 1.0), values(code, power(-20)));
        let same = u8::from(bits == small_bits);
        let bits: String = bits.iter().map(|word| format!(" {word:016X}")).collect();
        println!(
            "{code} {} {} {} {} {same}{bits}",
            count.sweeps, count.turns_of_last, small.sweeps, small.turns_of_last
        );
    }
}
