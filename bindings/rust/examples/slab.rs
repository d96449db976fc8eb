//! Keeps the sites of a small chain in one slab, shrinks one and grows another.
use zegrafult::{Complex, Refusal, Slab};

fn main() -> Result<(), Refusal> {
    let mut slab = Slab::new();
    for (number, cells) in [(0, 4), (1, 8), (2, 8), (3, 4)] {
        slab.put(number, &vec![Complex::real(f64::from(number + 1)); cells])?;
    }
    slab.replace(1, &[Complex::real(5.0); 2])?; // shrinks in its own room
    slab.replace(3, &[Complex::real(6.0); 6])?; // grows into what it left
    for site in slab.sites() {
        println!("site {} at {}: {} cells", site.number, site.start, site.cells);
    }
    Ok(())
}
