//! What the tests of plans go over.

/// Every list of distinct qubits of a register of n that a cut accepts, in every order.
pub fn lists(n: usize) -> Vec<Vec<usize>> {
    let mut all: Vec<Vec<usize>> = vec![vec![]];
    let mut at = 0;
    while at < all.len() {
        for q in (0..n).filter(|q| !all[at].contains(q)).collect::<Vec<_>>() {
            all.push([&all[at][..], &[q]].concat());
        }
        at += 1;
    }
    all.retain(|l| !l.is_empty() && l.len() < n);
    all
}
