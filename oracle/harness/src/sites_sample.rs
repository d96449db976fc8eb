//! Cases for `sites_cases`, in its own format: a long slice is counted up from a first word, and the text has what differs.

use crate::call::{Arg, Call, Entry, Entry::*};
use crate::cases::{self, Bounds, one};
use crate::oracle::{Build, NAN, outcome};
use crate::random::Random;

/// Number i of a slice that is read has these bits plus i, unless the text changes it; of a lent one the second.
pub const READ: u64 = 0x3FF0000000000000;
const LENT: u64 = 0xC000000000000000;
/// Slices of this length and more are printed as a digest.
pub const LONG: usize = 200;

pub fn counted(first: u64, length: usize) -> Vec<u64> {
    (0..length as u64).map(|i| first + i).collect()
}

fn word(line: &mut String, word: u64) {
    line.push_str(&format!(" {word:X}"));
}

/// The length, how many numbers differ from the count, and the place and bits of each.
fn source(line: &mut String, numbers: &[u64]) {
    let changes: Vec<usize> = (0..numbers.len()).filter(|&at| numbers[at] != READ + at as u64).collect();
    word(line, numbers.len() as u64);
    word(line, changes.len() as u64);
    for at in changes {
        word(line, at as u64);
        word(line, numbers[at]);
    }
}

/// A case's words: the kind, the sizes or values, then the slices, and how long the lent one is.
pub fn asked(number: usize, call: &Call) -> String {
    let mut line = format!("{number:X}");
    let slices = call.slices();
    if matches!(call.entry, truncated_svd_rank | discards_resolvable_weight) {
        word(&mut line, call.many(0).len() as u64);
        call.many(0).iter().for_each(|&value| word(&mut line, value));
    }
    for arg in &call.args {
        if let Arg::One(size) = arg {
            word(&mut line, *size);
        }
    }
    if is_fill(call.entry) {
        let (lent, read) = slices.split_last().expect("a lent slice");
        read.iter().for_each(|&at| source(&mut line, call.many(at)));
        word(&mut line, call.many(*lent).len() as u64);
    }
    line
}

fn is_fill(entry: Entry) -> bool {
    matches!(entry, fill_isometry_site_data | fill_scaled_u_site_data | fill_vt_site_data | fill_scaled_vt_data)
}

pub fn digest(words: &[u64]) -> u64 {
    const PRIME: u64 = 0x7FFFFFFF;
    let bits = |word: u64| if f64::from_bits(word).is_nan() { NAN } else { word };
    words.iter().fold(0, |sum, &word| (sum * 31 + bits(word) % PRIME) % PRIME)
}

/// What the case prints: the answer where the call can refuse, the number handed back, the site or its digest.
pub fn printed(call: &Call) -> String {
    let outcome = outcome(call, Build::Replaced);
    let mut words = vec![];
    if !matches!(call.entry, truncated_svd_rank | discards_resolvable_weight) {
        words.extend([u64::from(outcome.number), outcome.place]);
    }
    if is_fill(call.entry) {
        let site = outcome.slices.last().expect("a lent slice");
        if site.len() < LONG { words.extend_from_slice(site) } else { words.push(digest(site)) }
    } else {
        words.push(outcome.value);
    }
    words.iter().map(|word| format!("{word:016X} ")).collect()
}

/// The fill with its lent slice counted up.
pub fn filled(mut call: Call) -> Call {
    if is_fill(call.entry) {
        let at = *call.slices().last().expect("a lent slice");
        let length = call.many(at).len();
        *call.many_mut(at) = counted(LENT, length);
    }
    call
}

/// A fill of these sizes over slices that are counted up, of the lengths that it needs, with room for the site.
fn long_fill(entry: Entry, sizes: &[usize], cells: usize, values: usize, site: usize) -> Call {
    let cells = Arg::Many(counted(READ, 2 * cells));
    let values = Arg::Many(counted(READ, values));
    let mut args = match entry {
        fill_scaled_u_site_data => vec![cells, values],
        fill_scaled_vt_data => vec![values, cells],
        _ => vec![cells],
    };
    args.extend(sizes.iter().map(|&size| one(size)));
    args.push(Arg::Many(vec![0; 2 * site]));
    Call::new(entry, args)
}

/// Sizes at their ends: bonds of 0 and 4096, the largest sites, and the first that are too large.
fn ends(entry: Entry, calls: &mut Vec<Call>) {
    match entry {
        fill_isometry_site_data | fill_scaled_u_site_data => {
            for (stride, bond_left, chi) in
                [(0, 0, 0), (0, 0, 4096), (4096, 2048, 1), (2, 1, 2048), (4096, 2048, 0), (128, 32, 64)]
            {
                calls.push(long_fill(entry, &[stride, bond_left, chi], chi * stride, chi, 2 * bond_left * chi));
            }
            for (stride, bond_left, chi) in [(0, 0, 4097), (4097, 0, 0), (4095, 2048, 1), (4096, 2048, 2), (2, 1, 2049)]
            {
                calls.push(long_fill(entry, &[stride, bond_left, chi], 4, 4, 4));
            }
        }
        fill_vt_site_data | fill_scaled_vt_data => {
            for (row_len, chi, physical_dim, bond_right) in [
                (0, 0, 0, 0),
                (0, 4096, 0, 4096),
                (4096, 1, 4096, 1),
                (4096, 1, 2, 2048),
                (1, 4096, 1, 1),
                (100, 64, 2, 32),
            ] {
                let site = chi * physical_dim * bond_right;
                let sizes = [row_len, chi, physical_dim, bond_right];
                calls.push(long_fill(entry, &sizes, chi * row_len, chi, site));
            }
            for sizes in [[0, 4097, 0, 0], [4097, 0, 1, 1], [4096, 0, 4096, 4096], [5, 1, 2, 3], [4096, 2, 4096, 1]] {
                calls.push(long_fill(entry, &sizes, 4, 4, 4));
            }
        }
        _ => {}
    }
}

fn bonds(entry: Entry, calls: &mut Vec<Call>) {
    let last = if entry == cut_rank { [0, 1, 4096, 4097] } else { [0, 2, 16, 17] };
    for a in [0, 1, 4096] {
        for b in [0, 3, 4096, 4097] {
            for c in last {
                calls.push(Call::new(entry, vec![one(a), one(b), one(c)]));
            }
        }
    }
}

/// The cases of an entry point: at the ends, drawn, and damaged.
pub fn cases_of(rng: &mut Random, entry: Entry, calls: &mut Vec<Call>) {
    let bounds = Bounds { qubits: 2, side: 2 };
    if matches!(entry, cut_rank | widest_block_cut) {
        bonds(entry, calls);
    }
    ends(entry, calls);
    for _ in 0..if is_fill(entry) { 20 } else { 40 } {
        calls.push(cases::accepted(rng, entry, bounds));
    }
    for at in 0..if is_fill(entry) { 20 } else { 0 } {
        let mut call = cases::accepted(rng, entry, bounds);
        if at % 2 == 0 {
            cases::spoil(rng, &mut call)
        } else {
            cases::damage(rng, &mut call)
        }
        calls.push(call);
    }
    let list = |values: &[f64]| Arg::Many(values.iter().map(|value| value.to_bits()).collect());
    if entry == truncated_svd_rank {
        for (values, epsilon, cap) in [(&[1.0, 0.5, 0.25][..], 0.3, 8), (&[0.0, 0.0], 0.3, 8), (&[1.0, 1.0], 0.1, 0)] {
            calls.push(Call::new(entry, vec![list(values), Arg::One(f64::to_bits(epsilon)), one(cap)]));
        }
    }
}
