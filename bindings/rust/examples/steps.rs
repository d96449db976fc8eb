//! Prints every step from a cut file's bytes to its Schmidt values, each number with its bits:
//! cargo run --example steps -- FILE. For reading along with docs/AUDIT.md; `./certify FILE` is what counts.
use zegrafult::{cut_matrix, environment, finish_schmidt_values, sqrt, svd_jacobi, Complex, Refusal};

fn word(bytes: &[u8], at: usize) -> Option<usize> {
    Some(u32::from_le_bytes(bytes.get(at..at + 4)?.try_into().ok()?) as usize)
}

fn float(bytes: &[u8], at: usize) -> Option<f64> {
    Some(f64::from_le_bytes(bytes.get(at..at + 8)?.try_into().ok()?))
}

/// n, the list and the amplitudes, read at the offsets that the header names.
fn parts(bytes: &[u8]) -> Option<(usize, Vec<usize>, Vec<Complex>)> {
    let (n, k, list, start) = (word(bytes, 4)?, word(bytes, 8)?, word(bytes, 12)?, word(bytes, 16)?);
    let named = (0..k.min(64)).map(|i| word(bytes, list + 4 * i)).collect::<Option<_>>()?;
    let amplitude = |i| Some(Complex::new(float(bytes, start + 16 * i)?, float(bytes, start + 16 * i + 8)?));
    let state = (0..1usize << n.min(9)).map(amplitude).collect::<Option<_>>()?;
    Some((n, named, state))
}

fn show(name: &str, x: f64) {
    println!("  {name:<28} {:016X}  {x:?}", x.to_bits());
}

fn steps(n: usize, named: &[usize], state: &[Complex]) -> Result<(), Refusal> {
    println!("1. the file: n = {n}, list {named:?}, amplitudes that are not zero");
    for (i, z) in state.iter().enumerate().filter(|(_, z)| z.re != 0.0 || z.im != 0.0) {
        show(&format!("amplitude {i}, real"), z.re);
        show(&format!("amplitude {i}, imaginary"), z.im);
    }
    let cut = cut_matrix(state, n, named, 10)?;
    println!("2. cut_matrix: {} rows, {} columns; cells that are not zero", cut.rows, cut.columns);
    for (i, z) in cut.cells.iter().enumerate().filter(|(_, z)| z.re != 0.0 || z.im != 0.0) {
        show(&format!("row {}, column {}, real", i % cut.rows, i / cut.rows), z.re);
        show(&format!("row {}, column {}, imaginary", i % cut.rows, i / cut.rows), z.im);
    }
    let svd = svd_jacobi(&cut.cells, cut.rows, cut.columns)?;
    let s = svd.s;
    println!("3. svd_jacobi: sweeps {}, the last quiet: {}; singular values, falling", svd.sweeps, svd.quiet);
    s.iter().enumerate().for_each(|(i, &x)| show(&format!("s {i}"), x));
    let values = finish_schmidt_values(&s)?;
    let total = s[..values.len()].iter().fold(-0.0, |sum, x| sum + x * x);
    println!("4. finish_schmidt_values: floor, sum of squares, its root, the factor, the values");
    show("floor = s 0 * 1e-14", s[0] * 1e-14);
    show("total = sum of s i * s i", total);
    show("root of the total", sqrt(total));
    show("factor = 1 / root", 1.0 / sqrt(total));
    values.iter().enumerate().for_each(|(i, &x)| show(&format!("value {i} = s {i} * factor"), x));
    Ok(())
}

fn main() {
    assert!(environment(), "the floating-point environment is not the one that the promises are about");
    let path = std::env::args().nth(1).expect("usage: steps FILE");
    let bytes = std::fs::read(&path).expect("the file can be read");
    match parts(&bytes) {
        Some((n, named, state)) => {
            if let Err(refusal) = steps(n, &named, &state) {
                println!("{refusal}");
            }
        }
        None => println!("not a cut file: ./certify {path} says why"),
    }
}
