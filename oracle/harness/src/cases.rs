//! Inputs: matrices, states and lists of every kind that the paper's sizes allow, and calls damaged in one or two places.

use crate::call::{Arg, Call, Entry, Entry::*, Kind};
use crate::oracle::NAN;
use crate::random::Random;
use crate::table::{self, CHAIN_LARGEST, LARGEST, Role};

/// How the components of a matrix or state are drawn.
#[derive(Clone, Copy, Debug, PartialEq, Eq)]
pub enum Style {
    Unit,
    Whole,
    Zeros,
    Tiny,
    Faint,
    Huge,
    Wide,
    Powers,
}

use Style::*;

pub const STYLES: [Style; 8] = [Unit, Whole, Zeros, Tiny, Faint, Huge, Wide, Powers];

pub fn power(exponent: i32) -> f64 {
    // In two steps, so that subnormal powers are exact.
    let half = exponent / 2;
    2f64.powi(half) * 2f64.powi(exponent - half)
}

fn signed(rng: &mut Random, x: f64) -> f64 {
    if rng.chance(2) { -x } else { x }
}

pub fn component(rng: &mut Random, style: Style) -> f64 {
    match style {
        Unit => rng.unit(),
        Whole => {
            let x = rng.below(5) as f64;
            signed(rng, x)
        }
        Zeros => {
            let x = if rng.chance(4) { rng.pick(&[1.0, 2.0, 0.5]) } else { 0.0 };
            signed(rng, x)
        }
        // Around where a square leaves the floats.
        Tiny => rng.unit() * power(-(rng.within(530, 545) as i32)),
        // Around where the square of a product does.
        Faint => rng.unit() * power(-(rng.within(262, 282) as i32)),
        Huge => {
            let x = if rng.chance(3) { LARGEST } else { rng.unit().abs() * LARGEST };
            signed(rng, x)
        }
        Wide => rng.unit() * power(rng.within(0, 1270) as i32 - 1070),
        Powers => {
            let x = power(rng.within(0, 60) as i32 - 30);
            signed(rng, x)
        }
    }
}

/// A matrix or state in the making: cells as pairs.
pub type Cells = Vec<(f64, f64)>;

pub fn numbers(cells: &[(f64, f64)]) -> Vec<u64> {
    cells.iter().flat_map(|&(re, im)| [re.to_bits(), im.to_bits()]).collect()
}

fn cell(rng: &mut Random, style: Style, real: bool) -> (f64, f64) {
    let re = component(rng, style);
    let im = if real { signed(rng, 0.0) } else { component(rng, style) };
    (re, im)
}

fn times(a: (f64, f64), b: (f64, f64)) -> (f64, f64) {
    (a.0 * b.0 - a.1 * b.1, a.0 * b.1 + a.1 * b.0)
}

fn held(x: f64) -> f64 {
    x.clamp(-LARGEST, LARGEST)
}

/// An m by n matrix, column-major.
pub fn matrix(rng: &mut Random, m: usize, n: usize) -> Cells {
    let style = rng.pick(&STYLES);
    let real = rng.chance(3);
    let kind = rng.below(10);
    matrix_of(rng, m, n, style, real, kind)
}

pub fn matrix_of(rng: &mut Random, m: usize, n: usize, style: Style, real: bool, kind: usize) -> Cells {
    let mut a: Cells = (0..m * n).map(|_| cell(rng, style, real)).collect();
    match kind {
        // Equal columns.
        0 => {
            for at in m..m * n {
                a[at] = a[at % m];
            }
        }
        // Of rank one.
        1 => {
            let row: Cells = (0..n).map(|_| cell(rng, Unit, real)).collect();
            for at in 0..m * n {
                let (re, im) = times(a[at % m], row[at / m]);
                a[at] = (held(re), held(im));
            }
        }
        // Diagonal, with other cells of either sign of zero.
        2 => {
            for at in 0..m * n {
                if at % m != at / m {
                    a[at] = (signed(rng, 0.0), signed(rng, 0.0));
                }
            }
        }
        // Some columns zero.
        3 => {
            for column in 0..n {
                if rng.chance(3) {
                    let zero = (signed(rng, 0.0), signed(rng, 0.0));
                    a[column * m..(column + 1) * m].fill(zero);
                }
            }
        }
        // Columns of equal norm in another order: ties.
        4 => {
            for column in 1..n {
                let turn = rng.below(m);
                for row in 0..m {
                    a[column * m + row] = a[(row + turn) % m];
                }
            }
        }
        // One column a multiple of another.
        5 if n > 1 => {
            let (from, to) = (rng.below(n), rng.below(n));
            let factor = rng.pick(&[-1.0, 0.5, 0.25]);
            for row in 0..m {
                let (re, im) = a[from * m + row];
                a[to * m + row] = (re * factor, im * factor);
            }
        }
        _ => {}
    }
    a
}

/// A square matrix, row-major: Hermitian, a density, or as it comes.
pub fn square(rng: &mut Random, dim: usize) -> Cells {
    let style = rng.pick(&STYLES);
    let kind = rng.below(8);
    square_of(rng, dim, style, kind)
}

pub fn square_of(rng: &mut Random, dim: usize, style: Style, kind: usize) -> Cells {
    let real = rng.chance(4);
    let shape = rng.below(10);
    let mut a = matrix_of(rng, dim, dim, style, real, shape);
    match kind {
        // Hermitian.
        0..=2 => mirror(&mut a, dim),
        // A density: of the rows of another matrix, with rank below the side.
        3..=5 => {
            let rank = rng.within(1, dim);
            let rows: Cells =
                (0..dim * rank).map(|_| cell(rng, if style == Huge { Unit } else { style }, real)).collect();
            for t in 0..dim {
                for other in 0..=t {
                    let mut sum = (0.0, 0.0);
                    for e in 0..rank {
                        let (re, im) = rows[other * rank + e];
                        let (re, im) = times(rows[t * rank + e], (re, -im));
                        sum = (sum.0 + re, sum.1 + im);
                    }
                    a[t * dim + other] = (held(sum.0), held(sum.1));
                }
            }
            mirror(&mut a, dim);
        }
        // As it comes: not Hermitian.
        _ => {}
    }
    a
}

fn mirror(a: &mut Cells, dim: usize) {
    for t in 0..dim {
        a[t * dim + t].1 = 0.0;
        for other in 0..t {
            let (re, im) = a[t * dim + other];
            a[other * dim + t] = (re, -im);
        }
    }
}

/// A state of n qubits.
pub fn state(rng: &mut Random, n: usize) -> Cells {
    let kind = rng.below(12);
    state_of(rng, n, kind)
}

pub fn state_of(rng: &mut Random, n: usize, kind: usize) -> Cells {
    let size = 1usize << n;
    let full = size - 1;
    let plain = |x: f64| (x, 0.0);
    let mut cells: Cells = vec![(0.0, 0.0); size];
    match kind {
        // A product of one-qubit states.
        0 => {
            cells[0] = plain(1.0);
            for qubit in 0..n {
                let (zero, one) = (cell(rng, Unit, false), cell(rng, Unit, false));
                for at in 0..1 << qubit {
                    let amplitude = cells[at];
                    cells[at] = times(amplitude, zero);
                    cells[at | 1 << qubit] = times(amplitude, one);
                }
            }
        }
        // GHZ.
        1 => {
            let x = rng.pick(&[1.0, std::f64::consts::FRAC_1_SQRT_2, power(-269), power(-537), power(-280), LARGEST]);
            cells[0] = plain(x);
            cells[full] = plain(signed(rng, x));
        }
        // W.
        2 => {
            let x = rng.pick(&[1.0, 1.0 / (n as f64).sqrt(), power(-270)]);
            for qubit in 0..n {
                cells[1 << qubit] = plain(x);
            }
        }
        // A cluster state of a line.
        3 => {
            let x = (size as f64).sqrt().recip();
            for at in 0..size {
                let pairs = (at & (at >> 1)).count_ones();
                cells[at] = plain(if pairs % 2 == 0 { x } else { -x });
            }
        }
        // One amplitude.
        4 => {
            let x = rng.pick(&[1.0, -1.0, power(-537), power(-538), power(-1074), LARGEST]);
            cells[rng.below(size)] = plain(x);
        }
        // Nothing.
        5 => {
            for amplitude in &mut cells {
                *amplitude = (signed(rng, 0.0), signed(rng, 0.0));
            }
        }
        // All equal.
        6 => {
            let x = rng.pick(&[1.0, power(-280), power(-269), power(-540), 0.25, LARGEST]);
            cells.fill(plain(x));
        }
        // A sum of two products of rank one: few Schmidt values.
        7 => {
            let (a, b) = (state_of(rng, n, 0), state_of(rng, n, 0));
            for at in 0..size {
                cells[at] = (a[at].0 + b[at].0, a[at].1 + b[at].1);
            }
        }
        // Sparse.
        8 => {
            for _ in 0..rng.within(1, 4) {
                cells[rng.below(size)] = cell(rng, Unit, false);
            }
        }
        _ => {
            let style = rng.pick(&STYLES);
            let real = rng.chance(3);
            cells = (0..size).map(|_| cell(rng, style, real)).collect();
        }
    }
    cells
}

/// How many kinds of states a chain of sites is drawn from: those of `state_of`, and five more.
pub const CHAIN_KINDS: usize = 17;

/// A state that is taken apart into a chain of sites: no component above 2^190.
pub fn chain_state_of(rng: &mut Random, n: usize, kind: usize) -> Cells {
    let size = 1usize << n;
    let mut cells = match kind {
        12 => circuit(rng, n),
        // Dependent columns: later qubits' amplitudes are multiples of earlier ones.
        13 => {
            let style = rng.pick(&[Unit, Whole, Powers]);
            let period = 1 << rng.within(0, n);
            let first: Cells = (0..period).map(|_| cell(rng, style, false)).collect();
            let factors: Cells = (0..size / period).map(|_| cell(rng, Whole, false)).collect();
            (0..size).map(|at| times(first[at % period], factors[at / period])).collect()
        }
        // Every component at 2^190 or somewhat below, of either sign.
        14 => (0..2 * size)
            .map(|_| {
                let x = if rng.chance(2) { CHAIN_LARGEST } else { rng.unit() * CHAIN_LARGEST };
                signed(rng, x)
            })
            .collect::<Vec<f64>>()
            .chunks_exact(2)
            .map(|parts| (parts[0], parts[1]))
            .collect(),
        // Tiny amplitudes beside ones of 2^190: products near where the floats end.
        15 => (0..size)
            .map(|_| {
                let x = if rng.chance(4) { CHAIN_LARGEST } else { power(-(rng.within(720, 735) as i32)) };
                (signed(rng, x), if rng.chance(2) { x } else { 0.0 })
            })
            .collect(),
        // Small whole numbers, real.
        16 => (0..size).map(|_| cell(rng, Whole, true)).collect(),
        _ => state_of(rng, n, kind),
    };
    if cells.iter().any(|&(re, im)| re.abs() > CHAIN_LARGEST || im.abs() > CHAIN_LARGEST) {
        for amplitude in &mut cells {
            *amplitude = (amplitude.0 / 1024.0, amplitude.1 / 1024.0);
        }
    }
    cells
}

/// What a circuit of the gates H, S, T, CX and CZ makes of the first basis state.
pub fn circuit(rng: &mut Random, n: usize) -> Cells {
    let root = std::f64::consts::FRAC_1_SQRT_2;
    let mut cells: Cells = vec![(0.0, 0.0); 1 << n];
    cells[0] = (1.0, 0.0);
    for _ in 0..rng.within(n, 8 * n) {
        let (bit, gate) = (1usize << rng.below(n), rng.below(5));
        let other = 1usize << rng.below(n);
        for at in (0..1usize << n).filter(|at| at & bit != 0) {
            match gate {
                0 => {
                    let (a, b) = (cells[at ^ bit], cells[at]);
                    cells[at ^ bit] = (root * (a.0 + b.0), root * (a.1 + b.1));
                    cells[at] = (root * (a.0 - b.0), root * (a.1 - b.1));
                }
                1 => cells[at] = (-cells[at].1, cells[at].0),
                2 => cells[at] = times(cells[at], (root, root)),
                3 if other != bit && at & other != 0 => cells.swap(at, at ^ other),
                4 if other != bit && at & other != 0 => cells[at] = (-cells[at].0, -cells[at].1),
                _ => {}
            }
        }
    }
    cells
}

/// A threshold, special ones often.
pub fn threshold(rng: &mut Random) -> u64 {
    let few = [1e-12, 0.0, 1e-12, f64::NAN, f64::INFINITY, f64::NEG_INFINITY, -1.0, -0.0, 1e-14, 1e-6, 0.1, 0.5, 1.0];
    if rng.chance(8) { any_bits(rng) } else { rng.pick(&few).to_bits() }
}

/// A bond limit from 1 on, mostly at most 64.
pub fn limit(rng: &mut Random) -> usize {
    if rng.chance(3) { rng.within(1, 64) } else { rng.pick(&[1, 2, 3, 4, 8, 16, 64, 64, 65, 4096, usize::MAX]) }
}

/// k distinct qubits of n, in any order.
pub fn list(rng: &mut Random, n: usize, k: usize) -> Vec<u64> {
    let mut all: Vec<u64> = (0..n as u64).collect();
    for at in 0..k {
        let other = rng.within(at, n - 1);
        all.swap(at, other);
    }
    all.truncate(k);
    all
}

/// A lent slice: `needed` numbers and now and then some more, with anything in it.
pub fn lent(rng: &mut Random, needed: usize) -> Vec<u64> {
    let surplus = if rng.chance(3) { rng.within(1, 5) } else { 0 };
    (0..needed + surplus).map(|_| rng.bits()).collect()
}

pub fn one(x: usize) -> Arg {
    Arg::One(x as u64)
}

/// The widest n that a run draws, and the largest side of a matrix; small ones make more calls.
#[derive(Clone, Copy)]
pub struct Bounds {
    pub qubits: usize,
    pub side: usize,
}

fn shape(rng: &mut Random, bounds: Bounds) -> (usize, usize) {
    match rng.below(8) {
        0 => (1, rng.within(1, bounds.side)),
        1 => (rng.within(1, bounds.side), 1),
        2 => (rng.within(1, 3), rng.within(1, 4 * bounds.side)),
        3 => (rng.within(1, 4 * bounds.side), rng.within(1, 3)),
        4 | 5 => {
            let side = rng.within(1, bounds.side);
            (side, side)
        }
        _ => (rng.within(1, bounds.side), rng.within(1, bounds.side)),
    }
}

/// Fills in the lent slices that the table asks for after the given arguments.
fn with_lent(rng: &mut Random, entry: Entry, mut args: Vec<Arg>) -> Call {
    let given = args.len();
    for _ in given..entry.kinds().len() {
        args.push(Arg::Many(vec![]));
    }
    let mut call = Call::new(entry, args);
    let roles = table::roles(&call);
    for (slice, at) in call.slices().into_iter().enumerate() {
        if at >= given {
            let (Role::Output(needed) | Role::Scratch(needed)) = roles[slice] else { panic!("{entry:?} {at}") };
            *call.many_mut(at) = lent(rng, needed);
        }
    }
    call
}

/// Any bits at all, special ones often.
pub fn any_bits(rng: &mut Random) -> u64 {
    match rng.below(10) {
        0 => 0,
        1 => 1 << 63,
        2 => f64::INFINITY.to_bits(),
        3 => f64::NEG_INFINITY.to_bits(),
        4 => 0x7FF8000000000000,
        5 => 0xFFF8000000000001,
        6 => rng.bits(),
        7 => 1,
        _ => rng.unit().to_bits(),
    }
}

/// How the two parts of a complex number are drawn, for its modulus.
#[derive(Clone, Copy, Debug, PartialEq, Eq)]
pub enum Parts {
    /// In (-1, 1).
    Ordinary,
    /// Whole numbers of up to ten digits.
    Integers,
    /// The larger below 2^-511: its square is not a normal float.
    Underflow,
    /// About 1e-170.
    Dim,
    /// The larger at 2^512 or above: its square is infinite.
    Overflow,
    /// Exponents that are 20 to 60 apart.
    Near,
    /// Any two exponents.
    Apart,
    /// One part zero, of either sign.
    Axis,
    /// Two zeros of any signs.
    Nothing,
    /// Both below the normal range.
    Subnormal,
    /// About where the normal range begins.
    Least,
    /// The two largest exponents: the result may be above the floats.
    Largest,
    /// One part or both infinite or NaN.
    NotFinite,
}

pub const PARTS: [Parts; 13] = [
    Parts::Ordinary,
    Parts::Integers,
    Parts::Underflow,
    Parts::Dim,
    Parts::Overflow,
    Parts::Near,
    Parts::Apart,
    Parts::Axis,
    Parts::Nothing,
    Parts::Subnormal,
    Parts::Least,
    Parts::Largest,
    Parts::NotFinite,
];

/// A float of either sign whose exponent's field is one of `low` to `high`; its digits are random, or the first or last.
fn with_field(rng: &mut Random, low: usize, high: usize) -> u64 {
    let field = rng.within(low, high) as u64;
    let digits = (1 << 52) - 1;
    let fraction = match rng.below(12) {
        0 => 0,
        1 => digits,
        2 => rng.below(4) as u64,
        // Few digits, so that squares and their sum are exact or ties.
        3 => rng.bits() & digits & !((1 << rng.within(20, 51)) - 1),
        _ => rng.bits() & digits,
    };
    rng.bits() & 1 << 63 | field << 52 | fraction
}

/// A float below the normal range, of either sign and any length.
fn subnormal(rng: &mut Random) -> u64 {
    let size = rng.bits() & ((1 << 52) - 1);
    rng.bits() & 1 << 63 | size >> rng.below(52)
}

/// The bits of the two parts of a complex number, either one the larger.
pub fn parts(rng: &mut Random, kind: Parts) -> [u64; 2] {
    let two = |rng: &mut Random, low, high| [with_field(rng, low, high), with_field(rng, low, high)];
    let zero = |rng: &mut Random| rng.bits() & 1 << 63;
    let mut both = match kind {
        Parts::Ordinary => [rng.unit().to_bits(), rng.unit().to_bits()],
        Parts::Integers => [0, 1].map(|_| {
            let end = rng.pick(&[10usize, 1000, 10_000_000_000]);
            let x = rng.below(end) as f64;
            signed(rng, x).to_bits()
        }),
        Parts::Underflow => two(rng, 1, 511),
        Parts::Dim => two(rng, 450, 466),
        Parts::Overflow => two(rng, 1535, 2044),
        Parts::Near => {
            let (field, apart) = (rng.within(61, 2045), rng.within(20, 60));
            [with_field(rng, field, field), with_field(rng, field - apart, field - apart)]
        }
        Parts::Apart => two(rng, 0, 2046),
        Parts::Axis => [with_field(rng, 0, 2046), zero(rng)],
        Parts::Nothing => [zero(rng), zero(rng)],
        Parts::Subnormal => [subnormal(rng), subnormal(rng)],
        Parts::Least => [with_field(rng, 0, 2), if rng.chance(2) { subnormal(rng) } else { with_field(rng, 0, 2) }],
        Parts::Largest => two(rng, 2045, 2046),
        Parts::NotFinite => {
            let odd = [0x7FF << 52, 0xFFF << 52, NAN, NAN | 1 << 63, 0x7FF << 52 | 1, u64::MAX];
            let other = if rng.chance(2) { rng.pick(&odd) } else { any_bits(rng) };
            [rng.pick(&odd), other]
        }
    };
    if rng.chance(2) {
        both.swap(0, 1);
    }
    both
}

/// A list of singular values as a caller would have it, or anything.
fn singular_list(rng: &mut Random) -> Vec<u64> {
    let length = rng.below(9);
    if rng.chance(3) {
        return (0..length).map(|_| any_bits(rng)).collect();
    }
    let style = rng.pick(&[Unit, Powers]);
    let mut values: Vec<f64> = (0..length).map(|_| component(rng, style).abs()).collect();
    values.sort_by(|a, b| b.total_cmp(a));
    values.iter().map(|value| value.to_bits()).collect()
}

fn values_list(rng: &mut Random) -> Vec<u64> {
    let length = if rng.chance(8) { rng.pick(&[0, 1, 63, 64]) } else { rng.within(0, 12) };
    let style = rng.pick(&STYLES);
    let mut values: Vec<f64> = (0..length).map(|_| component(rng, style)).collect();
    if rng.chance(2) {
        for value in &mut values {
            *value = value.abs();
        }
    }
    if length > 0 && rng.chance(3) {
        // Values near the floor of the largest.
        let top = values[0].abs();
        for value in values.iter_mut().skip(1) {
            *value = top * 1e-14 * rng.pick(&[0.5, 1.0, 1.0000000000000002, 2.0, 1e14]);
        }
    }
    values.iter().map(|value| value.to_bits()).collect()
}

/// A call that the table accepts.
pub fn accepted(rng: &mut Random, entry: Entry, bounds: Bounds) -> Call {
    let cap = |rng: &mut Random, least: usize| one(if rng.chance(2) { 13 } else { rng.within(least, 20) });
    match entry {
        validate_qubit_set | validate_subsystem => {
            let n = rng.within(if entry == validate_subsystem { 2 } else { 1 }, 12);
            let k = rng.within(1, if entry == validate_subsystem { n - 1 } else { n });
            Call::new(entry, vec![Arg::Many(list(rng, n, k)), one(n)])
        }
        row_offsets => {
            let n = rng.within(1, 12);
            let k = rng.within(1, n.min(6));
            let args = vec![Arg::Many(list(rng, n, k)), one(n), cap(rng, 2 * k)];
            with_lent(rng, entry, args)
        }
        traced_base => {
            let n = rng.within(1, 12);
            let k = rng.within(1, n.min(6));
            let e = rng.below(1 << (n - k));
            Call::new(entry, vec![one(e), Arg::Many(list(rng, n, k)), one(n), cap(rng, 2 * k)])
        }
        smaller_side => {
            let n = rng.within(2, 12);
            let k = rng.within(1, n - 1);
            let args = vec![Arg::Many(list(rng, n, k)), one(n), cap(rng, n + 1)];
            with_lent(rng, entry, args)
        }
        cut_matrix | dense_schmidt_values => {
            let n = rng.within(2, bounds.qubits);
            let k = rng.within(1, n - 1);
            let args = vec![Arg::Many(numbers(&state(rng, n))), one(n), Arg::Many(list(rng, n, k)), cap(rng, n + 1)];
            with_lent(rng, entry, args)
        }
        cut_profile => {
            let n = rng.within(2, bounds.qubits);
            let args = vec![Arg::Many(numbers(&state(rng, n))), one(n), cap(rng, n + 1)];
            with_lent(rng, entry, args)
        }
        dense_reduced_density => {
            let n = rng.within(1, bounds.qubits);
            let k = rng.within(1, n.min(6));
            let args = vec![Arg::Many(numbers(&state(rng, n))), one(n), Arg::Many(list(rng, n, k)), cap(rng, 2 * k)];
            with_lent(rng, entry, args)
        }
        mirror_lower_triangle | normalize_trace => {
            let dim = rng.within(1, bounds.side.min(64));
            Call::new(entry, vec![Arg::Many(numbers(&square(rng, dim))), one(dim)])
        }
        multiply_block_factor => {
            let width = rng.within(1, (bounds.side.ilog2() as usize).min(6));
            let count = rng.within(1, width);
            let (dim, side) = (1 << width, 1 << count);
            let rho = numbers(&square(rng, dim));
            let factor = numbers(&square(rng, side));
            let positions = list(rng, width, count);
            Call::new(entry, vec![Arg::Many(rho), one(dim), Arg::Many(positions), Arg::Many(factor), one(side)])
        }
        svd_jacobi | factorize_gram_schmidt => {
            let (m, n) = shape(rng, bounds);
            let args = vec![Arg::Many(numbers(&matrix(rng, m, n))), one(m), one(n)];
            with_lent(rng, entry, args)
        }
        hermitian_eigenvalues | schmidt_values_from_density | hermitian_eigen => {
            let dim = rng.within(1, bounds.side.min(64));
            let args = vec![Arg::Many(numbers(&square(rng, dim))), one(dim)];
            with_lent(rng, entry, args)
        }
        finish_schmidt_values => {
            let args = vec![Arg::Many(values_list(rng))];
            with_lent(rng, entry, args)
        }
        truncated_svd_rank => {
            let epsilon =
                if rng.chance(2) { any_bits(rng) } else { rng.pick(&[0.0f64, 1e-12, 0.3, 0.5, 1.0]).to_bits() };
            let cap = rng.pick(&[0, 1, 2, 3, 8, 4096, usize::MAX]);
            Call::new(entry, vec![Arg::Many(singular_list(rng)), Arg::One(epsilon), one(cap)])
        }
        discards_resolvable_weight => {
            let mut values = singular_list(rng);
            if values.len() > 1 && rng.chance(2) {
                // Around the resolution of the largest.
                let top = f64::from_bits(values[0]);
                let factor = rng.pick(&[power(-50), power(-50) * 1.0000000000000002, power(-51), power(-49)]);
                let at = rng.within(1, values.len() - 1);
                values[at] = (top * factor).to_bits();
            }
            let chi = rng.pick(&[0, 1, 2, 3, 4, 7, 8, usize::MAX]);
            Call::new(entry, vec![Arg::Many(values), one(chi)])
        }
        cut_rank => {
            let bond =
                |rng: &mut Random| one(if rng.chance(4) { rng.pick(&[0, 1, 4095, 4096]) } else { rng.below(4097) });
            Call::new(entry, vec![bond(rng), bond(rng), bond(rng)])
        }
        widest_block_cut => {
            let bond =
                |rng: &mut Random| one(if rng.chance(4) { rng.pick(&[0, 1, 4095, 4096]) } else { rng.below(4097) });
            Call::new(entry, vec![bond(rng), bond(rng), one(rng.within(1, 16))])
        }
        fill_isometry_site_data | fill_scaled_u_site_data => {
            let bond_left = rng.within(0, 8);
            let chi = rng.within(0, 8);
            let stride = 2 * bond_left + if rng.chance(2) { 0 } else { rng.below(4) };
            let sizes = [one(stride), one(bond_left), one(chi)];
            let columns = numbers(&matrix(rng, stride, chi));
            fill(rng, entry, columns, stride, 2 * bond_left, chi, &sizes)
        }
        fill_vt_site_data | fill_scaled_vt_data => {
            let (chi, physical_dim, bond_right) = (rng.within(0, 8), rng.within(0, 4), rng.within(0, 6));
            let row_len = physical_dim * bond_right + if rng.chance(2) { 0 } else { rng.below(4) };
            let sizes = [one(row_len), one(chi), one(physical_dim), one(bond_right)];
            let rows = numbers(&matrix(rng, row_len, chi));
            fill(rng, entry, rows, row_len, physical_dim * bond_right, chi, &sizes)
        }
        chain_of_sites => {
            let n = rng.within(1, bounds.qubits);
            let kind = rng.below(CHAIN_KINDS);
            let state = Arg::Many(numbers(&chain_state_of(rng, n, kind)));
            let args = vec![state, one(n), Arg::One(threshold(rng)), one(limit(rng))];
            with_lent(rng, entry, args)
        }
        sqrt | magnitude | sign | is_finite | component_allowed | sqrt_bits => {
            Call::new(entry, vec![Arg::One(any_bits(rng))])
        }
        sqrt_marked => {
            // A quarter are squares of up to 27 digits times a power of four, or their neighbours.
            let near = (rng.below(1 << 27) as f64).powi(2).to_bits().wrapping_add(rng.below(3) as u64).wrapping_sub(1);
            let power = (rng.below(1000) as u64) << 53;
            let word = if rng.chance(4) { near.wrapping_add(power) & !(1 << 63) } else { any_bits(rng) };
            Call::new(entry, vec![Arg::One(word)])
        }
        total_less | total_order => {
            let a = any_bits(rng);
            let b = if rng.chance(3) { a.wrapping_add(rng.below(3) as u64).wrapping_sub(1) } else { any_bits(rng) };
            Call::new(entry, vec![Arg::One(a), Arg::One(b)])
        }
        modulus => {
            let kind = rng.pick(&PARTS);
            Call::new(entry, parts(rng, kind).map(Arg::One).to_vec())
        }
    }
}

/// A fill over `chi` lines of `stride` cells, `used` of each copied; the gaps and what follows hold anything.
fn fill(
    rng: &mut Random,
    entry: Entry,
    mut lines: Vec<u64>,
    stride: usize,
    used: usize,
    chi: usize,
    sizes: &[Arg],
) -> Call {
    for line in 0..chi {
        for gap in line * stride + used..(line + 1) * stride {
            lines[2 * gap] = any_bits(rng);
            lines[2 * gap + 1] = any_bits(rng);
        }
    }
    for _ in 0..if rng.chance(3) { rng.below(4) } else { 0 } {
        lines.push(any_bits(rng));
    }
    let style = rng.pick(&STYLES);
    let mut values: Vec<u64> = (0..chi).map(|_| component(rng, style).to_bits()).collect();
    if rng.chance(3) {
        values.push(any_bits(rng));
    }
    let mut args = match entry {
        fill_scaled_u_site_data => vec![Arg::Many(lines), Arg::Many(values)],
        fill_scaled_vt_data => vec![Arg::Many(values), Arg::Many(lines)],
        _ => vec![Arg::Many(lines)],
    };
    args.extend_from_slice(sizes);
    with_lent(rng, entry, args)
}

/// A component that the entry point does not allow, or the last one that it does.
fn edge_component(rng: &mut Random, entry: Entry) -> u64 {
    let largest = if entry == chain_of_sites { CHAIN_LARGEST } else { LARGEST };
    let above = f64::from_bits(largest.to_bits() + 1);
    rng.pick(&[
        f64::NAN.to_bits(),
        0xFFF0000000000001,
        f64::INFINITY.to_bits(),
        f64::NEG_INFINITY.to_bits(),
        above.to_bits(),
        (-above).to_bits(),
        f64::MAX.to_bits(),
        largest.to_bits(),
        (-largest).to_bits(),
    ])
}

/// The call with one number of an input replaced by one that is not allowed, or the last that is.
pub fn spoil(rng: &mut Random, call: &mut Call) {
    let inputs: Vec<usize> = call.slices().into_iter().filter(|&at| call.entry.kinds()[at] == Kind::Floats).collect();
    let inputs: Vec<usize> = inputs.into_iter().filter(|&at| !call.many(at).is_empty()).collect();
    if !inputs.is_empty() {
        let entry = call.entry;
        let numbers = call.many_mut(rng.pick(&inputs));
        let place = rng.below(numbers.len());
        numbers[place] = edge_component(rng, entry);
    }
}

/// The call with one argument made worse: a size, a list entry, a length or a component.
pub fn damage(rng: &mut Random, call: &mut Call) {
    let at = rng.below(call.args.len());
    match call.entry.kinds()[at] {
        Kind::Word if call.entry != sqrt_bits => {
            let old = call.one(at);
            let odd =
                [0, 1, 2, 6, 12, 13, 14, 16, 17, 63, 64, 65, 128, 4096, 4097, 1 << 20, 1 << 32, 1 << 63, usize::MAX];
            let new = match rng.below(4) {
                0 => old.wrapping_add(1),
                1 => old.wrapping_sub(1),
                _ => rng.pick(&odd),
            };
            call.args[at] = one(new);
        }
        Kind::Words => {
            let list = call.many_mut(at);
            match rng.below(5) {
                0 => list.clear(),
                1 if !list.is_empty() => {
                    let place = rng.below(list.len());
                    list[place] = rng.pick(&[1, 2, 5, 11, 12, 13, 1 << 40, u64::MAX]);
                }
                2 if list.len() > 1 => {
                    let (from, to) = (rng.below(list.len()), rng.below(list.len()));
                    list[to] = list[from];
                }
                3 => list.push(rng.below(13) as u64),
                _ => *list = (0..rng.within(1, 13) as u64).collect(),
            }
        }
        Kind::Floats | Kind::MutFloats if rng.chance(2) && !call.many(at).is_empty() => {
            let entry = call.entry;
            let numbers = call.many_mut(at);
            let place = if rng.chance(3) { rng.pick(&[0, numbers.len() - 1]) } else { rng.below(numbers.len()) };
            numbers[place] = edge_component(rng, entry);
        }
        Kind::Floats | Kind::MutFloats | Kind::MutWords => {
            let numbers = call.many_mut(at);
            match rng.below(4) {
                0 => numbers.clear(),
                1 => numbers.push(any_bits(rng)),
                _ => {
                    let less = rng.pick(&[1, 1, 2, 3]).min(numbers.len());
                    numbers.truncate(numbers.len() - less);
                }
            }
        }
        _ => {}
    }
}

/// Cells of 0 and 1, a third of the time of 1 alone.
fn zeros_and_ones(rng: &mut Random, count: usize) -> Cells {
    let ones = rng.chance(3);
    (0..count).map(|_| (if ones || rng.chance(2) { 1.0 } else { 0.0 }, 0.0)).collect()
}

/// An accepted call of an entry point that sweeps, of a kind that often gives up: columns of 0 and 1 cancel to leftovers that
/// turn in every sweep, and so do tiny cells beside a diagonal that is not positive.
pub fn restless(rng: &mut Random, entry: Entry) -> Call {
    let args = match entry {
        svd_jacobi => {
            let (m, n) = if rng.chance(3) { (3, 6) } else { (rng.within(2, 8), rng.within(2, 8)) };
            vec![Arg::Many(numbers(&zeros_and_ones(rng, m * n))), one(m), one(n)]
        }
        dense_schmidt_values => {
            let n = if rng.chance(4) { rng.within(3, 6) } else { 4 };
            let state = numbers(&zeros_and_ones(rng, 1 << n));
            vec![Arg::Many(state), one(n), Arg::Many(list(rng, n, n / 2)), one(13)]
        }
        chain_of_sites => {
            let n = if rng.chance(4) { rng.within(3, 6) } else { 4 };
            let state = numbers(&zeros_and_ones(rng, 1 << n));
            vec![Arg::Many(state), one(n), Arg::One(threshold(rng)), one(limit(rng))]
        }
        cut_profile => {
            let n = if rng.chance(4) { rng.within(3, 6) } else { 4 };
            vec![Arg::Many(numbers(&zeros_and_ones(rng, 1 << n))), one(n), one(13)]
        }
        _ => {
            let dim = rng.within(2, 5);
            let cells = [0.0, -1.0, 1e-170, 1.0];
            let mut a: Cells = (0..dim * dim).map(|_| (rng.pick(&cells), 0.0)).collect();
            if rng.chance(2) {
                mirror(&mut a, dim);
            }
            vec![Arg::Many(numbers(&a)), one(dim)]
        }
    };
    with_lent(rng, entry, args)
}

/// An accepted call, or one damaged in one or two places.
pub fn any(rng: &mut Random, entry: Entry, bounds: Bounds) -> Call {
    let sweeps = entry.sweeps() || matches!(entry, chain_of_sites | cut_profile);
    let mut call = if sweeps && rng.chance(8) { restless(rng, entry) } else { accepted(rng, entry, bounds) };
    if rng.chance(3) {
        damage(rng, &mut call);
        if rng.chance(3) {
            damage(rng, &mut call);
        }
    }
    call
}
