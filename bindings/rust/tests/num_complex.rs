//! num-complex's numbers and the crate's cells are the same memory.
#![cfg(feature = "num-complex")]
use num_complex::Complex64;
use zegrafult::{num_complex::*, Complex};

#[test]
fn num_complex_slices_keep_their_place_and_bits() {
    let mut numbers: Vec<Complex64> = (0..64).map(|i| Complex64::new(f64::from_bits(i), -f64::from_bits(!i))).collect();
    let bits: Vec<(u64, u64)> = numbers.iter().map(|z| (z.re.to_bits(), z.im.to_bits())).collect();
    let seen = |cells: &[Complex]| cells.iter().map(|z| (z.re.to_bits(), z.im.to_bits())).collect::<Vec<_>>();
    assert_eq!((seen(cells(&numbers)), cells(&numbers).as_ptr() as usize), (bits.clone(), numbers.as_ptr() as usize));
    let before = numbers.as_ptr() as usize;
    cells_mut(&mut numbers)[3] = Complex::new(7.0, 8.0);
    assert_eq!(numbers[3], Complex64::new(7.0, 8.0));
    numbers.reserve_exact(17);
    let (before, room) = if numbers.as_ptr() as usize == before { (before, numbers.capacity()) } else { (numbers.as_ptr() as usize, numbers.capacity()) };
    let moved = from_complex64(numbers);
    assert_eq!((moved.as_ptr() as usize, moved.len(), moved.capacity()), (before, 64, room));
    let back = into_complex64(moved);
    assert_eq!((back.as_ptr() as usize, back.len(), back.capacity()), (before, 64, room));
    assert_eq!((back[0].re.to_bits(), back[0].im.to_bits()), bits[0]);
    assert_eq!(complex64(cells(&back)).as_ptr(), back.as_ptr());
    assert!(cells(&[]).is_empty() && into_complex64(Vec::new()).is_empty());
}

#[test]
fn num_complex_numbers_one_by_one() {
    let z = Complex64::new(1.5, -0.0);
    assert_eq!((Complex::from(z).im.to_bits(), Complex64::from(Complex::from(z)).re), ((-0.0f64).to_bits(), 1.5));
}
