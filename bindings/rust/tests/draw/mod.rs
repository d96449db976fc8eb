//! Random states and lists for the tests.
use zegrafult::Complex;

pub struct Draw(pub u64);

impl Draw {
    pub fn next(&mut self) -> u64 {
        self.0 = self.0.wrapping_mul(6364136223846793005).wrapping_add(1442695040888963407);
        self.0 ^ self.0 >> 29
    }

    pub fn below(&mut self, n: usize) -> usize {
        (self.next() >> 20) as usize % n
    }

    /// Zeros of both signs, whole numbers and long fractions.
    fn number(&mut self) -> f64 {
        let x = self.next();
        let sign = if x & 1 == 0 { 1.0 } else { -1.0 };
        sign * match x >> 61 {
            0 => 0.0,
            1 => ((x >> 33) % 9) as f64,
            _ => (x >> 11) as f64 / (1u64 << 53) as f64,
        }
    }

    pub fn state(&mut self, n: usize) -> Vec<Complex> {
        (0..1 << n).map(|_| Complex::new(self.number(), self.number())).collect()
    }

    /// k distinct qubits of n, and the others, each in any order.
    pub fn sides(&mut self, n: usize, k: usize) -> (Vec<usize>, Vec<usize>) {
        let mut rest: Vec<usize> = (0..n).collect();
        let mut drawn: Vec<usize> = (0..n).map(|_| rest.swap_remove(self.below(rest.len()))).collect();
        let far = drawn.split_off(k);
        (drawn, far)
    }
}
