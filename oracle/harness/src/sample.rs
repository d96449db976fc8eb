//! Cases for the replay programs: a call as a line of hexadecimal words, and the line that its outcome must print.

use crate::call::{Arg, Call, Entry, Entry::*, Kind};
use crate::cases::{self, Bounds, Style, lent, numbers, one, power};
use crate::oracle::{Build, outcome};
use crate::random::Random;
use crate::table::{self, LARGEST, Role};
use crate::{chains_sample, sites_sample};

/// What stands in a lent slice before the call.
pub const BEFORE: u64 = 0x4008000000000000;

/// The entry points of a part of a replay program.
pub fn entries(part: &str) -> &'static [Entry] {
    match part {
        "svd" => &[svd_jacobi],
        "qr" => &[factorize_gram_schmidt],
        "spectra" => {
            &[hermitian_eigenvalues, finish_schmidt_values, schmidt_values_from_density, hermitian_eigen]
        }
        "schmidt" => &[dense_schmidt_values],
        "sites" => &[
            truncated_svd_rank,
            discards_resolvable_weight,
            cut_rank,
            widest_block_cut,
            fill_isometry_site_data,
            fill_scaled_u_site_data,
            fill_vt_site_data,
            fill_scaled_vt_data,
        ],
        "chain" => &[chain_of_sites],
        "profile" => &[cut_profile],
        _ => panic!("no such part of a replay program: {part}"),
    }
}

/// The number in its program of a part's first entry point; a case starts with its entry point's.
fn first(part: &str) -> usize {
    match part {
        "qr" | "profile" => 2,
        "spectra" => 3,
        "schmidt" => 7,
        _ => 1,
    }
}

/// A case's words: its kind, then each argument. A slice has its length first; one that is lent has only its length.
pub fn asked(part: &str, call: &Call) -> String {
    let number =
        entries(part).iter().position(|&entry| entry == call.entry).expect("an entry point of the part") + first(part);
    match part {
        "sites" => return sites_sample::asked(number, call),
        "chain" | "profile" => return chains_sample::asked(number, call),
        _ => {}
    }
    let mut line = format!("{number:X}");
    for (arg, what) in call.args.iter().zip(call.entry.kinds()) {
        match arg {
            Arg::One(word) => line.push_str(&format!(" {word:X}")),
            Arg::Many(words) => {
                line.push_str(&format!(" {:X}", words.len()));
                if matches!(what, Kind::Words | Kind::Floats) {
                    for word in words {
                        line.push_str(&format!(" {word:X}"));
                    }
                }
            }
        }
    }
    line
}

/// What the case prints: number, place, the number handed back where there is one, the sweeps, whether the last was quiet
/// (1 or 0) and the turned pairs where the call sweeps, whether its roots came out even (1 or 0) where it says so, and each lent
/// slice whole.
pub fn printed(part: &str, call: &Call) -> String {
    match part {
        "sites" => return sites_sample::printed(call),
        "chain" | "profile" => return chains_sample::printed(call),
        _ => {}
    }
    let outcome = outcome(call, Build::Counting);
    let mut words = vec![u64::from(outcome.number), outcome.place];
    if call.entry.returns() {
        words.push(outcome.value);
    }
    if let Some(sweeps) = outcome.sweeps {
        words.extend([sweeps.begun, u64::from(sweeps.quiet), sweeps.turned]);
    }
    words.extend(outcome.exact.map(u64::from));
    for (slice, at) in call.slices().into_iter().enumerate() {
        if matches!(call.entry.kinds()[at], Kind::MutFloats | Kind::MutWords) {
            words.extend_from_slice(&outcome.slices[slice]);
        }
    }
    words.iter().map(|word| format!("{word:016X} ")).collect()
}

/// The call with its lent slices filled as the replay programs fill them.
pub fn filled(mut call: Call) -> Call {
    for at in call.slices() {
        if matches!(call.entry.kinds()[at], Kind::MutFloats | Kind::MutWords) {
            call.many_mut(at).fill(BEFORE);
        }
    }
    call
}

/// Gives a call its lent slices.
pub fn lend(rng: &mut Random, entry: Entry, mut args: Vec<Arg>) -> Call {
    let given = args.len();
    args.resize(entry.kinds().len(), Arg::Many(vec![]));
    let mut call = Call::new(entry, args);
    if matches!(table::refusal(&call), Some((1..=5, _))) {
        return call;
    }
    let roles = table::roles(&call);
    for (slice, at) in call.slices().into_iter().enumerate() {
        if let (true, Role::Output(needed) | Role::Scratch(needed)) = (at >= given, roles[slice]) {
            *call.many_mut(at) = lent(rng, needed);
        }
    }
    call
}

fn on_matrix(rng: &mut Random, entry: Entry, cells: &[(f64, f64)], m: usize, n: usize) -> Call {
    lend(rng, entry, vec![Arg::Many(numbers(cells)), one(m), one(n)])
}

fn on_square(rng: &mut Random, entry: Entry, cells: &[(f64, f64)], dim: usize) -> Call {
    lend(rng, entry, vec![Arg::Many(numbers(cells)), one(dim)])
}

/// Matrices of every shape and kind, small ones so that the files stay small, then damaged calls.
fn matrices(rng: &mut Random, entry: Entry, calls: &mut Vec<Call>) {
    let shapes = [
        (1, 1),
        (1, 2),
        (2, 1),
        (2, 2),
        (3, 2),
        (2, 3),
        (3, 3),
        (4, 2),
        (2, 4),
        (1, 5),
        (5, 1),
        (2, 5),
        (5, 3),
        (3, 5),
    ];
    for style in cases::STYLES {
        for (at, &(m, n)) in shapes.iter().enumerate() {
            let real = at % 3 == 0;
            let cells = cases::matrix_of(rng, m, n, style, real, at % 10);
            calls.push(on_matrix(rng, entry, &cells, m, n));
        }
    }
    for style in [Style::Unit, Style::Whole] {
        for (m, n) in [(4, 4), (5, 5), (6, 4), (4, 6), (8, 8)] {
            for kind in [0, 9] {
                let cells = cases::matrix_of(rng, m, n, style, false, kind);
                calls.push(on_matrix(rng, entry, &cells, m, n));
            }
        }
    }
    let whole = |values: &[f64]| values.iter().map(|&value| (value, 0.0)).collect::<Vec<_>>();
    for exponent in [200, 100, -268, -269, -270, -280, -536, -537, -538, -1074] {
        calls.push(on_matrix(rng, entry, &whole(&[power(exponent); 4]), 2, 2));
    }
    // A pair whose phase the root of norm_sqr would make longer than 1, and sweeps that never grow quiet.
    calls.push(on_matrix(rng, entry, &whole(&[0.0, 0.0, -1.0, -1.0, -1.0, -1.0, -1.0, -1.0, 0.0]), 3, 3));
    calls.push(on_matrix(rng, entry, &whole(&[1.0; 18]), 3, 6));
    calls.push(on_matrix(rng, entry, &whole(&[0.0; 4]), 2, 2));
    calls.push(on_matrix(rng, entry, &whole(&[2.0, 0.0, 4.0, 0.0]), 2, 2));
    calls.push(on_matrix(rng, entry, &whole(&[-0.0; 6]), 2, 3));
    for (m, n) in [(0, 1), (1, 0), (4097, 1), (usize::MAX, 2), (1 << 32, 1 << 32)] {
        calls.push(on_matrix(rng, entry, &whole(&[1.0]), m, n));
    }
    damaged(rng, entry, 40, calls);
}

fn squares(rng: &mut Random, entry: Entry, calls: &mut Vec<Call>) {
    for style in cases::STYLES {
        for dim in 1..=4 {
            let kind = rng.below(8);
            let cells = cases::square_of(rng, dim, style, kind);
            calls.push(on_square(rng, entry, &cells, dim));
        }
    }
    for dim in [5, 6] {
        let cells = cases::square_of(rng, dim, Style::Unit, 3);
        calls.push(on_square(rng, entry, &cells, dim));
    }
    if entry == hermitian_eigen {
        larger_squares(rng, calls);
    }
    let zero = [(0.0, 0.0); 4];
    calls.push(on_square(rng, entry, &zero, 2));
    // Diagonal +0.0 and -0.0 with 1 off it.
    calls.push(on_square(rng, entry, &[(0.0, 0.0), (1.0, 0.0), (1.0, 0.0), (-0.0, 0.0)], 2));
    calls.push(on_square(rng, entry, &[(-0.0, 0.0), (1.0, 0.0), (1.0, 0.0), (0.0, 0.0)], 2));
    calls.push(on_square(rng, entry, &[(1.0, 0.0), (1.0, 2.0), (3.0, -4.0), (-2.0, 1.0)], 2));
    calls.push(on_square(rng, entry, &[(LARGEST, 0.0), (LARGEST, LARGEST), (LARGEST, -LARGEST), (LARGEST, 0.0)], 2));
    for dim in [0, 65, usize::MAX] {
        calls.push(on_square(rng, entry, &zero, dim));
    }
    damaged(rng, entry, 12, calls);
}

/// Hermitian and not, up to a side at which the order of the columns matters; zeros of both signs.
fn larger_squares(rng: &mut Random, calls: &mut Vec<Call>) {
    for dim in [5, 7, 8] {
        for kind in [0, 7] {
            let cells = cases::square_of(rng, dim, Style::Whole, kind);
            calls.push(on_square(rng, hermitian_eigen, &cells, dim));
        }
    }
    calls.push(on_square(rng, hermitian_eigen, &[(-0.0, -0.0); 9], 3));
}

fn finishes(rng: &mut Random, calls: &mut Vec<Call>) {
    let lists: [&[f64]; 12] = [
        &[],
        &[0.0, -0.0],
        &[1.0],
        &[-1.0, -2.0],
        &[3.0, 4.0, 0.0],
        &[power(-537)],
        &[power(-538)],
        &[power(-538), power(-540)],
        &[1.0, 1e-14, 1.0000000000000002e-14],
        &[0.5, 0.5, 0.5, 0.5],
        &[LARGEST, LARGEST, -LARGEST],
        &[0.25, -0.0, 0.0, 2.0, -3.0],
    ];
    for values in lists {
        let values = Arg::Many(values.iter().map(|value| value.to_bits()).collect());
        calls.push(lend(rng, finish_schmidt_values, vec![values]));
    }
    for length in [63, 64, 65] {
        let values = Arg::Many((0..length).map(|_| rng.unit().abs().to_bits()).collect());
        calls.push(lend(rng, finish_schmidt_values, vec![values]));
    }
    for _ in 0..20 {
        calls.push(cases::accepted(rng, finish_schmidt_values, Bounds { qubits: 2, side: 2 }));
    }
    damaged(rng, finish_schmidt_values, 12, calls);
}

/// Cuts of up to four qubits in states of every kind, the paper's cases on the bench, then damaged calls.
fn cuts(rng: &mut Random, calls: &mut Vec<Call>) {
    let cut = |rng: &mut Random, cells: &[(f64, f64)], n: usize, list: Vec<u64>, cap: usize| {
        lend(rng, dense_schmidt_values, vec![Arg::Many(numbers(cells)), one(n), Arg::Many(list), one(cap)])
    };
    for (n, k) in [(2, 1), (3, 1), (3, 2), (4, 1), (4, 2), (4, 3)] {
        for kind in 0..12 {
            let (cells, list) = (cases::state_of(rng, n, kind), cases::list(rng, n, k));
            calls.push(cut(rng, &cells, n, list, 13));
        }
    }
    let real = |values: &[f64]| values.iter().map(|&value| (value, 0.0)).collect::<Vec<_>>();
    let above = f64::from_bits(LARGEST.to_bits() + 1);
    for x in [power(-537), power(-538), LARGEST, above] {
        calls.push(cut(rng, &real(&[x, 0.0, 0.0, 0.0]), 2, vec![0], 13));
    }
    calls.push(cut(rng, &real(&[3.0, 4.0, 0.0, 0.0]), 2, vec![0], 13));
    calls.push(cut(rng, &real(&[0.0, -3.0 * power(-269), 0.0, -power(-269)]), 2, vec![0], 13));
    calls.push(cut(rng, &real(&[power(-280); 4]), 2, vec![0], 13));
    for (n, list, cap) in [
        (2, vec![1, 1], 13),
        (2, vec![5, 1], 13),
        (2, vec![0, 1], 13),
        (2, vec![], 13),
        (12, vec![0], 12),
        (0, vec![0], 13),
        (13, vec![0], 14),
        (2, vec![0], 2),
    ] {
        calls.push(cut(rng, &real(&[1.0; 4]), n, list, cap));
    }
    damaged(rng, dense_schmidt_values, 40, calls);
}

/// Calls that give up. Of `hermitian_eigen` none is known.
fn restless(rng: &mut Random, entry: Entry, calls: &mut Vec<Call>) {
    let real = |values: &[f64]| values.iter().map(|&value| (value, 0.0)).collect::<Vec<_>>();
    match entry {
        svd_jacobi => {
            for (m, n) in [(6, 3), (3, 7), (5, 7)] {
                calls.push(on_matrix(rng, entry, &real(&vec![1.0; m * n]), m, n));
            }
        }
        dense_schmidt_values => {
            // Amplitudes 1 at 0, 1, 4 and 8; the last sweep turns two, four and three pairs.
            for code in [275u32, 5655, 4406] {
                let state: Vec<f64> = (0..16).map(|at| f64::from(code >> at & 1)).collect();
                let args = vec![Arg::Many(numbers(&real(&state))), one(4), Arg::Many(vec![0, 1]), one(13)];
                calls.push(lend(rng, entry, args));
            }
        }
        hermitian_eigenvalues | schmidt_values_from_density | hermitian_eigen => {
            for a in [[-1.0, 1e-170, 1e-170, 0.0], [1.0, 1.0, -1.0, -1.0]] {
                calls.push(on_square(rng, entry, &real(&a), 2));
            }
        }
        _ => {}
    }
}

fn damaged(rng: &mut Random, entry: Entry, count: usize, calls: &mut Vec<Call>) {
    for at in 0..count {
        let mut call = cases::accepted(rng, entry, Bounds { qubits: 2, side: 2 });
        if at % 2 == 0 {
            cases::spoil(rng, &mut call);
        } else {
            cases::damage(rng, &mut call);
        }
        if call
            .args
            .iter()
            .all(|arg| matches!(arg, Arg::One(_)) || matches!(arg, Arg::Many(words) if words.len() < 400))
        {
            calls.push(call);
        }
    }
}

/// The cases of a part, the same for the same seed.
pub fn cases_of(part: &str, seed: u64) -> Vec<Call> {
    let rng = &mut Random::new(seed);
    let mut calls = vec![];
    for &entry in entries(part) {
        match entry {
            svd_jacobi | factorize_gram_schmidt => matrices(rng, entry, &mut calls),
            finish_schmidt_values => finishes(rng, &mut calls),
            hermitian_eigenvalues | schmidt_values_from_density | hermitian_eigen => squares(rng, entry, &mut calls),
            dense_schmidt_values => cuts(rng, &mut calls),
            chain_of_sites => chains_sample::cases_of(rng, &mut calls),
            cut_profile => chains_sample::pages_of(rng, &mut calls),
            _ => sites_sample::cases_of(rng, entry, &mut calls),
        }
    }
    for &entry in entries(part) {
        restless(rng, entry, &mut calls);
    }
    calls.into_iter().map(if part == "sites" { sites_sample::filled } else { filled }).collect()
}
