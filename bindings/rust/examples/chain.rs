//! Takes a state of six qubits apart, keeps its chain in one slab, then halves a bond: one site shrinks, its neighbour too, and
//! another site grows into the room that they left.
use zegrafult::{chain_of_sites, Complex, Refusal, Site, Slab};

/// The site with its right bond cut to the first `kept`.
fn narrower_right(site: &Site, kept: usize) -> Vec<Complex> {
    site.cells.chunks(site.bond_right).flat_map(|row| &row[..kept]).copied().collect()
}

/// The site with its left bond cut to the first `kept`.
fn narrower_left(site: &Site, kept: usize) -> Vec<Complex> {
    site.cells[..kept * 2 * site.bond_right].to_vec()
}

fn show(slab: &Slab, what: &str) {
    let runs: Vec<String> = slab.sites().map(|s| format!("{} at {}..{}", s.number, s.start, s.start + s.cells)).collect();
    println!("{what}: {}", runs.join(", "));
}

fn main() -> Result<(), Refusal> {
    let state: Vec<Complex> = (0..64).map(|x| Complex::new(f64::from(x % 7), f64::from(x * x % 5))).collect();
    let chain = chain_of_sites(&state, 6, 1e-12, 64)?;
    let mut slab = Slab::new();
    for (number, site) in (0..).zip(&chain.sites) {
        slab.put(number, &site.cells)?;
    }
    show(&slab, "the chain");
    let kept = chain.sites[2].bond_right / 2;
    slab.replace(2, &narrower_right(&chain.sites[2], kept))?;
    slab.replace(3, &narrower_left(&chain.sites[3], kept))?;
    show(&slab, "after half of bond 3");
    // Two copies of site 1's cells: it no longer fits where it was.
    slab.replace(1, &[&chain.sites[1].cells[..], &chain.sites[1].cells[..]].concat())?;
    show(&slab, "after site 1 grew");
    for (number, site) in (0..).zip(&chain.sites) {
        let same = slab.get(number) == Some(&site.cells[..]);
        println!("site {number}: {} by 2 by {}, {}", site.bond_left, site.bond_right, if same { "as it was put" } else { "edited" });
    }
    Ok(())
}
