//! The paper's table of refusals 1 to 7, and its needed lengths, stated apart from the port and from the Rust.

use crate::call::{Call, Entry, Entry::*};
use Role::*;

pub const LARGEST: f64 = 1606938044258990275541962092341162602522202993782792835301376.0; // 2^200

/// The largest component of a state that is taken apart into a chain of sites: 2^190.
pub const CHAIN_LARGEST: f64 = LARGEST / 1024.0;

/// What a slice of a call is for, and how many numbers it must hold.
#[derive(Clone, Copy, Debug, PartialEq, Eq)]
pub enum Role {
    /// Read only, of just this length.
    Exact(usize),
    /// Read only, at least this long.
    AtLeast(usize),
    /// Read only, of any length.
    Free,
    /// Read and written, of just this length.
    Both(usize),
    Output(usize),
    Scratch(usize),
}

fn fits(x: usize, low: usize, high: usize) -> bool {
    low <= x && x <= high
}

fn register(n: usize) -> bool {
    fits(n, 1, 12)
}

fn cap_used(cap: usize) -> usize {
    cap.min(13)
}

fn matrix(m: usize, n: usize) -> bool {
    m >= 1 && n >= 1 && m.checked_mul(n).is_some_and(|cells| cells <= 4096)
}

fn bonds(sizes: &[usize]) -> bool {
    sizes.iter().all(|&size| size <= 4096)
}

/// `k` of a call that has a list of qubits.
fn named(call: &Call) -> usize {
    match list_of(call.entry) {
        Some(at) => call.many(at).len(),
        None => 0,
    }
}

/// Where the list of qubits stands among the arguments.
fn list_of(entry: Entry) -> Option<usize> {
    match entry {
        validate_qubit_set | validate_subsystem | row_offsets | smaller_side => Some(0),
        traced_base => Some(1),
        cut_matrix | dense_schmidt_values | dense_reduced_density => Some(2),
        _ => None,
    }
}

/// Answer 1's condition: every size is allowed.
fn sizes_allowed(call: &Call) -> bool {
    let one = |at| call.one(at);
    let k = named(call);
    match call.entry {
        validate_qubit_set | validate_subsystem => register(one(1)),
        row_offsets => register(one(1)) && 2 * k <= cap_used(one(2)),
        traced_base => {
            let (e, n) = (one(0), one(2));
            register(n) && 2 * k <= cap_used(one(3)) && e < 1 << n.saturating_sub(k)
        }
        smaller_side => register(one(1)) && one(1) + 1 <= cap_used(one(2)),
        cut_matrix | dense_schmidt_values => register(one(1)) && one(1) + 1 <= cap_used(one(3)),
        cut_profile => register(one(1)) && one(1) + 1 <= cap_used(one(2)),
        dense_reduced_density => register(one(1)) && 2 * k <= cap_used(one(3)),
        mirror_lower_triangle | normalize_trace => fits(one(1), 1, 64),
        multiply_block_factor => {
            let (dim, side) = (one(1), one(4));
            let positions = call.words(2);
            let distinct = (0..positions.len()).all(|at| !positions[..at].contains(&positions[at]));
            fits(dim, 1, 64)
                && dim.is_power_of_two()
                && fits(positions.len(), 1, 6)
                && distinct
                && positions.iter().all(|&position| position < dim.ilog2() as usize)
                && side == 1 << positions.len()
        }
        svd_jacobi | factorize_gram_schmidt => matrix(one(1), one(2)),
        hermitian_eigenvalues | schmidt_values_from_density | hermitian_eigen => fits(one(1), 1, 64),
        finish_schmidt_values => call.many(0).len() <= 64,
        cut_rank => bonds(&[one(0), one(1), one(2)]),
        widest_block_cut => bonds(&[one(0), one(1)]) && fits(one(2), 1, 16),
        fill_isometry_site_data => site_from_columns(one(1), one(2), one(3)),
        fill_scaled_u_site_data => site_from_columns(one(2), one(3), one(4)),
        fill_vt_site_data => site_from_rows(one(1), one(2), one(3), one(4)),
        fill_scaled_vt_data => site_from_rows(one(2), one(3), one(4), one(5)),
        chain_of_sites => one(3) >= 1 && register(one(1)),
        truncated_svd_rank
        | discards_resolvable_weight
        | sqrt
        | sqrt_bits
        | sqrt_marked
        | magnitude
        | sign
        | is_finite
        | component_allowed
        | total_less
        | total_order
        | modulus => true,
    }
}

fn site_from_columns(stride: usize, bond_left: usize, chi: usize) -> bool {
    bonds(&[stride, bond_left, chi]) && bond_left * 2 * chi <= 4096 && stride >= 2 * bond_left
}

fn site_from_rows(row_len: usize, chi: usize, physical_dim: usize, bond_right: usize) -> bool {
    bonds(&[row_len, chi, physical_dim, bond_right])
        && chi * physical_dim * bond_right <= 4096
        && row_len >= physical_dim * bond_right
}

/// Answers 2 to 5, in list order.
fn list_refusal(call: &Call) -> Option<(u32, u64)> {
    // The lists 0..j of a profile are accepted, but for the one qubit of a register of one.
    if call.entry == cut_profile {
        return (call.one(1) == 1).then_some((5, 0));
    }
    let at = list_of(call.entry)?;
    let list = call.words(at);
    let n = call.one(if at == 2 { 1 } else { at + 1 });
    for (position, qubit) in list.iter().enumerate() {
        if *qubit >= n {
            return Some((2, position as u64));
        }
        if list[..position].contains(qubit) {
            return Some((3, position as u64));
        }
    }
    if list.is_empty() {
        return Some((4, 0));
    }
    let cut = matches!(call.entry, validate_subsystem | smaller_side | cut_matrix | dense_schmidt_values);
    (cut && list.len() == n).then_some((5, 0))
}

/// What each slice must hold, slices in order. Asked only where answers 1 to 5 are not given.
pub fn roles(call: &Call) -> Vec<Role> {
    match call.entry {
        fill_isometry_site_data | fill_scaled_u_site_data | fill_vt_site_data | fill_scaled_vt_data => site_roles(call),
        svd_jacobi | factorize_gram_schmidt => factor_roles(call),
        chain_of_sites => chain_roles(call.one(1), call.one(3)),
        hermitian_eigenvalues | schmidt_values_from_density | hermitian_eigen => spectrum_roles(call),
        mirror_lower_triangle | normalize_trace => vec![Both(2 * call.one(1) * call.one(1))],
        multiply_block_factor => {
            let (dim, side) = (call.one(1), call.one(4));
            vec![Both(2 * dim * dim), Free, Exact(2 * side * side)]
        }
        finish_schmidt_values => vec![Free, Output(call.many(0).len())],
        truncated_svd_rank | discards_resolvable_weight | validate_qubit_set | validate_subsystem | traced_base => {
            vec![Free]
        }
        cut_rank | widest_block_cut => vec![],
        cut_profile => profile_roles(call.one(1)),
        sqrt | sqrt_bits | sqrt_marked | magnitude | sign | is_finite | component_allowed | total_less | total_order
        | modulus => {
            vec![]
        }
        _ => list_roles(call),
    }
}

fn list_roles(call: &Call) -> Vec<Role> {
    let (n, k) = (call.one(1), named(call));
    match call.entry {
        row_offsets => vec![Free, Output(1 << k)],
        // Needed only where the others are the smaller side.
        smaller_side => vec![Free, Output(if n - k < k { n - k } else { 0 })],
        cut_matrix => vec![Exact(2 << n), Free, Output(2 << n)],
        dense_schmidt_values => {
            let side = k.min(n - k);
            vec![Exact(2 << n), Free, Output(1 << side), Scratch((8 << n) + (2 << side))]
        }
        _ => vec![Exact(2 << n), Free, Output(2 << (2 * k)), Scratch(2 << k)],
    }
}

/// The page of the n - 1 cuts.
fn profile_roles(n: usize) -> Vec<Role> {
    let cuts = n - 1;
    let values = (1..n).map(|k| 1 << k.min(n - k)).sum();
    vec![
        Exact(2 << n),
        Output(2 * cuts),
        Output(values),
        Output(cuts),
        Output(cuts),
        Output(4 * cuts),
        Scratch((8 << n) + (2 << (n / 2))),
    ]
}

fn factor_roles(call: &Call) -> Vec<Role> {
    let (m, n) = (call.one(1), call.one(2));
    let k = m.min(n);
    if call.entry == svd_jacobi {
        return vec![Exact(2 * m * n), Output(2 * m * k), Output(k), Output(2 * k * n), Scratch(6 * m * n + 2 * k)];
    }
    vec![Exact(2 * m * n), Output(2 * m * k), Output(2 * k * n), Scratch(2 * m)]
}

/// The widest that the bond before site j of n can be.
pub fn widest(n: usize, limit: usize, j: usize) -> usize {
    limit.min(1 << j).min(1 << (n - j))
}

/// Sites, bonds, starts and marks by n and the limit; then matrix, u, vt and scratch.
fn chain_roles(n: usize, limit: usize) -> Vec<Role> {
    let cells: usize = (0..n).map(|j| 2 * widest(n, limit, j) * widest(n, limit, j + 1)).sum();
    let plane = 2 << n;
    let results = [Exact(plane), Output(2 * cells), Output(n + 1), Output(n + 1), Output(3 * (n - 1))];
    let working = [Scratch(plane), Scratch(plane), Scratch(plane), Scratch((6 << n) + (2 << (n / 2)))];
    [&results[..], &working[..]].concat()
}

fn spectrum_roles(call: &Call) -> Vec<Role> {
    let side = call.one(1);
    let cells = side * side;
    if call.entry == hermitian_eigen {
        return vec![Exact(2 * cells), Output(side), Output(2 * cells), Scratch(6 * cells + 2 * side)];
    }
    vec![Exact(2 * cells), Output(side), Scratch(2 * cells)]
}

fn site_roles(call: &Call) -> Vec<Role> {
    let one = |at| call.one(at);
    match call.entry {
        fill_isometry_site_data => {
            let (stride, bond_left, chi) = (one(1), one(2), one(3));
            vec![AtLeast(2 * chi * stride), Output(2 * bond_left * 2 * chi)]
        }
        fill_scaled_u_site_data => {
            let (stride, bond_left, chi) = (one(2), one(3), one(4));
            vec![AtLeast(2 * chi * stride), AtLeast(chi), Output(2 * bond_left * 2 * chi)]
        }
        fill_vt_site_data => {
            let (row_len, chi, physical_dim, bond_right) = (one(1), one(2), one(3), one(4));
            vec![AtLeast(2 * chi * row_len), Output(2 * chi * physical_dim * bond_right)]
        }
        _ => {
            let (row_len, chi, physical_dim, bond_right) = (one(2), one(3), one(4), one(5));
            vec![AtLeast(chi), AtLeast(2 * chi * row_len), Output(2 * chi * physical_dim * bond_right)]
        }
    }
}

/// Answer 6: the first slice whose length is not the one that it must have.
fn length_refusal(call: &Call) -> Option<(u32, u64)> {
    let lengths: Vec<usize> = call.slices().iter().map(|&at| call.many(at).len()).collect();
    let wrong = lengths.iter().zip(roles(call)).position(|(&length, role)| match role {
        Role::Exact(needed) | Role::Both(needed) => length != needed,
        Role::AtLeast(needed) | Role::Output(needed) | Role::Scratch(needed) => length < needed,
        Role::Free => false,
    });
    wrong.map(|slice| (6, slice as u64))
}

/// The cells of an argument whose components must be allowed: where it stands, how many numbers a cell has, which cells.
fn checked(call: &Call) -> Vec<(usize, usize, Vec<usize>)> {
    let one = |at| call.one(at);
    let all = |at: usize, width: usize| (at, width, (0..call.many(at).len() / width).collect::<Vec<_>>());
    let grid = |at: usize, lines: usize, stride: usize, used: usize| {
        (at, 2, (0..lines).flat_map(|line| (0..used).map(move |cell| line * stride + cell)).collect::<Vec<_>>())
    };
    match call.entry {
        cut_matrix
        | dense_schmidt_values
        | cut_profile
        | dense_reduced_density
        | mirror_lower_triangle
        | normalize_trace
        | svd_jacobi
        | factorize_gram_schmidt
        | hermitian_eigenvalues
        | schmidt_values_from_density
        | hermitian_eigen
        | chain_of_sites => vec![all(0, 2)],
        multiply_block_factor => vec![all(0, 2), all(3, 2)],
        finish_schmidt_values => vec![all(0, 1)],
        fill_isometry_site_data => vec![grid(0, one(3), one(1), 2 * one(2))],
        fill_scaled_u_site_data => {
            vec![grid(0, one(4), one(2), 2 * one(3)), (1, 1, (0..one(4)).collect())]
        }
        fill_vt_site_data => vec![grid(0, one(2), one(1), one(3) * one(4))],
        fill_scaled_vt_data => {
            vec![(0, 1, (0..one(3)).collect()), grid(1, one(3), one(2), one(4) * one(5))]
        }
        _ => vec![],
    }
}

/// Finite, and of magnitude at most 2^200.
pub fn allowed(bits: u64) -> bool {
    f64::from_bits(bits).abs() <= LARGEST
}

/// Answer 7: the first cell with a component that is not allowed.
fn component_refusal(call: &Call) -> Option<(u32, u64)> {
    let allowed = |bits: u64| match call.entry {
        chain_of_sites => f64::from_bits(bits).abs() <= CHAIN_LARGEST,
        _ => allowed(bits),
    };
    for (at, width, cells) in checked(call) {
        let numbers = call.many(at);
        for cell in cells {
            if !(0..width).all(|part| allowed(numbers[cell * width + part])) {
                return Some((7, cell as u64));
            }
        }
    }
    None
}

/// The refusal that the table gives, of 1 to 7, number and place.
pub fn refusal(call: &Call) -> Option<(u32, u64)> {
    if !sizes_allowed(call) {
        return Some((1, 0));
    }
    list_refusal(call).or_else(|| length_refusal(call)).or_else(|| component_refusal(call))
}
