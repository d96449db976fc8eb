//! Every small shape, in a fixed order: what a random draw could miss.

use crate::call::{Arg, Call, Entry, Entry::*};
use crate::cases::{self, Style, lent, numbers, one};
use crate::random::Random;
use crate::table::{self, LARGEST, Role};

/// Gives a call its lent slices, of just the needed lengths, or of any where the table refuses before it looks at them.
fn lend(rng: &mut Random, entry: Entry, mut args: Vec<Arg>) -> Call {
    let given = args.len();
    args.resize(entry.kinds().len(), Arg::Many(vec![]));
    let mut call = Call::new(entry, args);
    let early = matches!(table::refusal(&call), Some((1..=5, _)));
    let roles = if early { vec![] } else { table::roles(&call) };
    for (slice, at) in call.slices().into_iter().enumerate() {
        if at >= given {
            let needed = match roles.get(slice) {
                Some(Role::Output(needed) | Role::Scratch(needed)) => *needed,
                _ => 3,
            };
            *call.many_mut(at) = (0..needed).map(|_| rng.bits()).collect();
        }
    }
    call
}

/// All lists of up to `most` entries below `end`.
fn lists(end: u64, most: usize) -> Vec<Vec<u64>> {
    let mut all = vec![vec![]];
    let mut last = all.clone();
    for _ in 0..most {
        let mut next = vec![];
        for list in &last {
            for qubit in 0..end {
                let mut longer: Vec<u64> = list.clone();
                longer.push(qubit);
                next.push(longer);
            }
        }
        all.extend(next.iter().cloned());
        last = next;
    }
    all
}

fn on_lists(rng: &mut Random, entry: Entry, see: &mut impl FnMut(Call)) {
    for n in 0..=4usize {
        for list in lists(n as u64 + 1, 4) {
            for cap in [0, 1, 2, 3, 4, 5, 7, 8, 13, 14, usize::MAX] {
                let list = Arg::Many(list.clone());
                match entry {
                    validate_qubit_set | validate_subsystem => see(Call::new(entry, vec![list, one(n)])),
                    traced_base => {
                        for e in 0..=4 {
                            see(Call::new(entry, vec![one(e), list.clone(), one(n), one(cap)]));
                        }
                    }
                    row_offsets | smaller_side => see(lend(rng, entry, vec![list, one(n), one(cap)])),
                    _ => {
                        let style = rng.pick(&cases::STYLES);
                        let state = numbers(&cases::matrix_of(rng, 1, 1 << n, style, false, 9));
                        see(lend(rng, entry, vec![Arg::Many(state), one(n), list, one(cap)]));
                    }
                }
                if matches!(entry, validate_qubit_set | validate_subsystem) {
                    break;
                }
            }
        }
    }
    if matches!(entry, validate_qubit_set | validate_subsystem | row_offsets | smaller_side | traced_base) {
        for n in 5..=14usize {
            for k in 0..=14 {
                for cap in 0..=15 {
                    let list = Arg::Many((0..k as u64).rev().collect());
                    match entry {
                        validate_qubit_set | validate_subsystem => see(Call::new(entry, vec![list, one(n)])),
                        traced_base => {
                            let end = 1usize << n.saturating_sub(k);
                            for e in [0, 1, end - 1, end, end + 1] {
                                see(Call::new(entry, vec![one(e), list.clone(), one(n), one(cap)]));
                            }
                        }
                        _ => see(lend(rng, entry, vec![list, one(n), one(cap)])),
                    }
                }
            }
        }
    }
}

fn on_matrices(rng: &mut Random, entry: Entry, see: &mut impl FnMut(Call)) {
    for m in 0..=6usize {
        for n in 0..=6usize {
            for style in cases::STYLES {
                for kind in 0..10 {
                    let real = kind % 3 == 0;
                    let a = cases::matrix_of(rng, m, n.max(1), style, real, if m * n == 0 { 9 } else { kind });
                    let a = a[..m * n].to_vec();
                    see(lend(rng, entry, vec![Arg::Many(numbers(&a)), one(m), one(n)]));
                }
            }
        }
    }
    for (m, n) in [(4096, 1), (1, 4096), (4097, 1), (1, 4097), (64, 64), (2, 2049), (usize::MAX, 2), (1 << 32, 1 << 32)]
    {
        let length = if m < 5000 && n < 5000 { 2 * m * n } else { 2 };
        let zeros = Arg::Many(vec![0; length]);
        see(lend(rng, entry, vec![zeros, one(m), one(n)]));
    }
    // Of ones alone, some of which never grow quiet.
    for m in 1..=9usize {
        for n in 1..=9usize {
            see(lend(rng, entry, vec![Arg::Many(numbers(&vec![(1.0, 0.0); m * n])), one(m), one(n)]));
        }
    }
    // Cells of -1, 0 and 1.
    for (m, n) in [(2usize, 2usize), (2, 3), (3, 2)] {
        for code in 0..3usize.pow((m * n) as u32) {
            let a: Vec<(f64, f64)> =
                (0..m * n).map(|at| ((code / 3usize.pow(at as u32) % 3) as f64 - 1.0, 0.0)).collect();
            see(lend(rng, entry, vec![Arg::Many(numbers(&a)), one(m), one(n)]));
        }
    }
}

fn on_squares(rng: &mut Random, entry: Entry, see: &mut impl FnMut(Call)) {
    for dim in 0..=8usize {
        for style in cases::STYLES {
            for kind in 0..8 {
                let a = if dim == 0 { vec![] } else { cases::square_of(rng, dim, style, kind) };
                see(lend(rng, entry, vec![Arg::Many(numbers(&a)), one(dim)]));
            }
        }
    }
    for dim in [64, 65, 1 << 32, usize::MAX] {
        let zeros = Arg::Many(vec![0; if dim < 100 { 2 * dim * dim } else { 2 }]);
        see(lend(rng, entry, vec![zeros, one(dim)]));
    }
    // Every whole pair of diagonal and off-diagonal cells, the two zeros included.
    let few = [0.0, -0.0, 1.0, -1.0, 2.0];
    for p in few {
        for q in few {
            for re in few {
                for im in few {
                    let a = [(p, 0.0), (re, im), (re, -im), (q, 0.0)];
                    see(lend(rng, entry, vec![Arg::Many(numbers(&a)), one(2)]));
                }
            }
        }
    }
}

/// Every register, with caps about it, and all states of three qubits with amplitudes 0 and 1 on a page.
fn on_profiles(rng: &mut Random, see: &mut impl FnMut(Call)) {
    for n in 0..=14 {
        for cap in [0, n, n + 1, 13, 14, usize::MAX] {
            let state: Vec<(f64, f64)> = (0..1usize << n.min(7)).map(|_| (rng.unit(), rng.unit())).collect();
            see(lend(rng, cut_profile, vec![Arg::Many(numbers(&state)), one(n), one(cap)]));
        }
    }
    for code in 0..1u32 << 8 {
        let state: Vec<(f64, f64)> = (0..8).map(|at| (f64::from(code >> at & 1), 0.0)).collect();
        see(lend(rng, cut_profile, vec![Arg::Many(numbers(&state)), one(3), one(13)]));
    }
}

/// All states of four qubits with amplitudes 0 and 1, cut in half: a quarter of them never grows quiet.
fn on_whole_states(rng: &mut Random, see: &mut impl FnMut(Call)) {
    for code in 0..1u32 << 16 {
        let state: Vec<(f64, f64)> = (0..16).map(|at| (f64::from(code >> at & 1), 0.0)).collect();
        let args = vec![Arg::Many(numbers(&state)), one(4), Arg::Many(vec![0, 1]), one(13)];
        see(lend(rng, dense_schmidt_values, args));
    }
}

/// Chains of up to five qubits in states of every kind at every small limit and threshold, refused sizes, the longest chains, and
/// all states of three qubits with amplitudes -1, 0 and 1 and of four qubits with 0 and 1.
fn on_chains(rng: &mut Random, see: &mut impl FnMut(Call)) {
    let chain = |rng: &mut Random, cells: &[(f64, f64)], n: usize, epsilon: f64, limit: usize| {
        lend(rng, chain_of_sites, vec![Arg::Many(numbers(cells)), one(n), Arg::One(epsilon.to_bits()), one(limit)])
    };
    let thresholds = [1e-12, 0.0, -0.0, 1e-3, 0.5, 1.0, -1.0, f64::NAN, f64::INFINITY, f64::NEG_INFINITY];
    for n in 1..=5 {
        for kind in 0..cases::CHAIN_KINDS {
            for limit in [1, 2, 3, 4, 64, usize::MAX] {
                for epsilon in thresholds {
                    let cells = cases::chain_state_of(rng, n, kind);
                    see(chain(rng, &cells, n, epsilon, limit));
                }
            }
        }
    }
    for n in [0, 1, 12, 13, 64, usize::MAX] {
        for limit in [0, 1, 2, usize::MAX] {
            let cells = vec![(1.0, 0.0); if n == 12 || n == 13 { 1 << n } else { 2 }];
            see(chain(rng, &cells, n, 1e-12, limit));
        }
    }
    for (kind, limit) in [(1, 64), (2, 64), (3, 64), (12, 64), (13, 16), (10, 64), (10, 4), (14, 2), (15, 64)] {
        let cells = cases::chain_state_of(rng, 12, kind);
        see(chain(rng, &cells, 12, 1e-12, limit));
    }
    for code in 0..3usize.pow(8) {
        let cells: Vec<(f64, f64)> = (0..8).map(|at| ((code / 3usize.pow(at) % 3) as f64 - 1.0, 0.0)).collect();
        see(chain(rng, &cells, 3, 1e-12, 64));
    }
    for code in 0..1u32 << 16 {
        let cells: Vec<(f64, f64)> = (0..16).map(|at| (f64::from(code >> at & 1), 0.0)).collect();
        see(chain(rng, &cells, 4, 0.0, 64));
    }
}

fn on_bonds(rng: &mut Random, entry: Entry, see: &mut impl FnMut(Call)) {
    let few = [0usize, 1, 2, 3, 4, 5, 2047, 2048, 2049, 4095, 4096, 4097, usize::MAX];
    match entry {
        cut_rank | widest_block_cut => {
            for a in few {
                for b in few {
                    for c in [few.to_vec(), (6..=17).collect()].concat() {
                        see(Call::new(entry, vec![one(a), one(b), one(c)]));
                    }
                }
            }
        }
        fill_isometry_site_data | fill_scaled_u_site_data => {
            let mut shapes = vec![];
            for bond_left in 0..=3 {
                for chi in 0..=3 {
                    for stride in 0..=8 {
                        shapes.push((stride, bond_left, chi));
                    }
                }
            }
            shapes.extend([(0, 0, 4096), (0, 0, 4097), (4096, 0, 0), (4097, 0, 0), (4096, 2048, 1), (4095, 2048, 1)]);
            shapes.extend([
                (4096, 2048, 2),
                (2, 1, 2048),
                (2, 1, 2049),
                (4096, 2049, 0),
                (usize::MAX, usize::MAX, usize::MAX),
            ]);
            for (stride, bond_left, chi) in shapes {
                fill(rng, entry, stride, chi, vec![one(stride), one(bond_left), one(chi)], see);
            }
        }
        _ => {
            let mut shapes = vec![];
            for chi in 0..=3 {
                for physical_dim in 0..=3 {
                    for bond_right in 0..=2 {
                        for row_len in 0..=8 {
                            shapes.push((row_len, chi, physical_dim, bond_right));
                        }
                    }
                }
            }
            shapes.extend([
                (0, 4096, 0, 4096),
                (0, 4096, 4096, 0),
                (4096, 1, 4096, 1),
                (4096, 1, 1, 4096),
                (4096, 0, 4096, 1),
            ]);
            shapes.extend([
                (1, 4096, 1, 1),
                (1, 4097, 1, 1),
                (4096, 0, 4096, 4096),
                (4097, 0, 1, 1),
                (0, 0, 0, usize::MAX),
            ]);
            for (row_len, chi, physical_dim, bond_right) in shapes {
                fill(rng, entry, row_len, chi, vec![one(row_len), one(chi), one(physical_dim), one(bond_right)], see);
            }
        }
    }
}

fn fill(rng: &mut Random, entry: Entry, stride: usize, chi: usize, sizes: Vec<Arg>, see: &mut impl FnMut(Call)) {
    let cells = if stride <= 4096 && chi <= 4096 { stride * chi } else { 1 };
    let lines = Arg::Many(numbers(&cases::matrix_of(rng, cells, 1, Style::Whole, false, 9)));
    let values = Arg::Many((0..chi.min(4096)).map(|_| rng.unit().to_bits()).collect());
    let inputs = match entry {
        fill_scaled_u_site_data => vec![lines, values],
        fill_scaled_vt_data => vec![values, lines],
        _ => vec![lines],
    };
    see(lend(rng, entry, [inputs, sizes].concat()));
}

fn on_blocks(rng: &mut Random, see: &mut impl FnMut(Call)) {
    for dim in [0usize, 1, 2, 3, 4, 8, 16, 64, 128] {
        for positions in lists(4, 3) {
            for side in [0usize, 1, 2, 4, 8] {
                let cells = if dim <= 64 { dim * dim } else { 1 };
                let rho = numbers(&cases::matrix_of(rng, cells, 1, Style::Unit, false, 9));
                let factor = numbers(&cases::matrix_of(rng, side * side, 1, Style::Whole, false, 9));
                let args = vec![Arg::Many(rho), one(dim), Arg::Many(positions.clone()), Arg::Many(factor), one(side)];
                see(Call::new(multiply_block_factor, args));
            }
        }
    }
    let factor = numbers(&cases::square_of(rng, 64, Style::Unit, 7));
    let rho = numbers(&cases::square_of(rng, 64, Style::Unit, 0));
    for positions in
        [vec![0u64, 1, 2, 3, 4, 5], vec![5, 3, 1, 0, 2, 4], vec![0, 1, 2, 3, 4, 6], vec![0, 1, 2, 3, 4, 5, 5]]
    {
        let args = vec![Arg::Many(rho.clone()), one(64), Arg::Many(positions), Arg::Many(factor.clone()), one(64)];
        see(Call::new(multiply_block_factor, args));
    }
}

fn on_values(rng: &mut Random, entry: Entry, see: &mut impl FnMut(Call)) {
    let few = [0.0, -0.0, 1.0, -1.0, 0.5, 2.0, 1e-14, cases::power(-537), cases::power(-538), f64::NAN, f64::INFINITY];
    for length in 0..=3usize {
        for code in 0..few.len().pow(length as u32) {
            let values: Vec<u64> =
                (0..length).map(|at| few[code / few.len().pow(at as u32) % few.len()].to_bits()).collect();
            let values = Arg::Many(values);
            match entry {
                finish_schmidt_values => see(lend(rng, entry, vec![values])),
                truncated_svd_rank => {
                    for epsilon in [0.0, -0.0, 0.3, 1.0, -1.0, f64::NAN, f64::INFINITY, f64::NEG_INFINITY] {
                        for cap in [0, 1, 2, usize::MAX] {
                            see(Call::new(entry, vec![values.clone(), Arg::One(epsilon.to_bits()), one(cap)]));
                        }
                    }
                }
                _ => {
                    for chi in [0, 1, 2, 3, usize::MAX] {
                        see(Call::new(entry, vec![values.clone(), one(chi)]));
                    }
                }
            }
        }
    }
    if entry == finish_schmidt_values {
        for length in [63, 64, 65, 66] {
            let values = Arg::Many((0..length).map(|_| rng.unit().to_bits()).collect());
            see(lend(rng, entry, vec![values]));
        }
    }
}

/// Numbers on both sides of every step of the float's layout.
fn on_numbers(entry: Entry, see: &mut impl FnMut(Call)) {
    let mut words = vec![];
    for exponent in 0..0x800u64 {
        for fraction in [0, 1, 2, (1 << 51) - 1, 1 << 51, (1 << 52) - 1] {
            words.push(exponent << 52 | fraction);
        }
    }
    let edge = LARGEST.to_bits();
    words.extend([edge - 1, edge, edge + 1]);
    let signed: Vec<u64> = words.iter().flat_map(|&word| [word, word | 1 << 63]).collect();
    for (at, &word) in signed.iter().enumerate() {
        if matches!(entry, total_less | total_order | modulus) {
            for other in [signed[(at + 1) % signed.len()], word, word ^ 1 << 63, signed[(at * 31 + 7) % signed.len()]] {
                see(Call::new(entry, vec![Arg::One(word), Arg::One(other)]));
            }
        } else {
            see(Call::new(entry, vec![Arg::One(word)]));
        }
    }
    if entry == modulus {
        pairs_at_edges(see);
    }
    if matches!(entry, sqrt | sqrt_bits | sqrt_marked) {
        // Squares and their neighbours, where a root is exact or just not.
        for x in 1..=2000u64 {
            let square = ((x * x) as f64).to_bits();
            for word in [square - 1, square, square + 1] {
                see(Call::new(entry, vec![Arg::One(word)]));
            }
        }
    }
}

/// Every pair of parts at an edge: of the range, of the subnormal numbers, of squares, of what a square leaves in the sum.
fn pairs_at_edges(see: &mut impl FnMut(Call)) {
    let mut words =
        vec![0, 1, 2, 3, f64::INFINITY.to_bits(), f64::NAN.to_bits(), f64::MAX.to_bits(), 1e-170f64.to_bits()];
    for exponent in
        [-1074, -1073, -1023, -1022, -1021, -565, -538, -537, -511, -54, -53, -27, -26, 0, 1, 511, 512, 1022, 1023]
    {
        let word = cases::power(exponent).to_bits();
        words.extend([word - 1, word, word + 1]);
    }
    for &a in &words {
        for &b in &words {
            for signs in 0..4u64 {
                let parts = [a | (signs & 1) << 63, b | (signs >> 1) << 63];
                see(Call::new(modulus, parts.map(Arg::One).to_vec()));
            }
        }
    }
}

/// All small calls of an entry point, in order.
pub fn each(entry: Entry, see: &mut impl FnMut(Call)) {
    let rng = &mut Random::new(entry as u64);
    match entry {
        validate_qubit_set
        | validate_subsystem
        | row_offsets
        | traced_base
        | smaller_side
        | cut_matrix
        | dense_reduced_density => on_lists(rng, entry, see),
        dense_schmidt_values => {
            on_lists(rng, entry, see);
            on_whole_states(rng, see);
        }
        cut_profile => on_profiles(rng, see),
        mirror_lower_triangle
        | normalize_trace
        | hermitian_eigenvalues
        | schmidt_values_from_density
        | hermitian_eigen => on_squares(rng, entry, see),
        multiply_block_factor => on_blocks(rng, see),
        chain_of_sites => on_chains(rng, see),
        svd_jacobi | factorize_gram_schmidt => on_matrices(rng, entry, see),
        finish_schmidt_values | truncated_svd_rank | discards_resolvable_weight => on_values(rng, entry, see),
        cut_rank
        | widest_block_cut
        | fill_isometry_site_data
        | fill_scaled_u_site_data
        | fill_vt_site_data
        | fill_scaled_vt_data => on_bonds(rng, entry, see),
        sqrt | sqrt_bits | sqrt_marked | magnitude | sign | is_finite | component_allowed | total_less | total_order
        | modulus => {
            on_numbers(entry, see)
        }
    }
}

/// Of a call that a plan can stand for: every list that a cut accepts of registers of 2 to 5 qubits, in every order.
pub fn every_cut(entry: Entry, see: &mut impl FnMut(Call)) {
    if !matches!(entry, cut_matrix | dense_schmidt_values | dense_reduced_density) {
        return;
    }
    let rng = &mut Random::new(entry as u64);
    for n in 2..=5usize {
        for list in lists(n as u64, n - 1) {
            let twice = (0..list.len()).any(|at| list[..at].contains(&list[at]));
            if list.is_empty() || twice {
                continue;
            }
            let state: Vec<(f64, f64)> = (0..1usize << n).map(|_| (rng.unit(), rng.unit())).collect();
            see(lend(rng, entry, vec![Arg::Many(numbers(&state)), one(n), Arg::Many(list), one(13)]));
        }
    }
}

/// An accepted call with each slice in turn made shorter and longer by up to two numbers.
pub fn lengths(rng: &mut Random, call: &Call, see: &mut impl FnMut(Call)) {
    for at in call.slices() {
        let length = call.many(at).len();
        for change in [-2i64, -1, 1, 2] {
            let Some(new) = length.checked_add_signed(change as isize) else { continue };
            let mut other = call.clone();
            let more = lent(rng, 2);
            let slice = other.many_mut(at);
            slice.extend_from_slice(&more);
            slice.extend_from_slice(&[0, 0]);
            slice.truncate(new);
            see(other);
        }
    }
}
