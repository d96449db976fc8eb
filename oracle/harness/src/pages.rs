//! Both pages of a certificate as text: the paper's layout of a cut file, then what the published Rust gives to the calls behind
//! each line. The digest and the entropy's band, which the Rust does not have, are stated here in whole numbers.

use crate::call::{Arg, Call, Entry, Entry::*, Outcome};
use crate::cases;
use crate::oracle::{Build, outcome};
use crate::random::Random;
use crate::table::{self, Role};

/// What is read of a file, and the cap of the program.
const READ: usize = 8480;
const CAP: usize = 10;

/// The file's answer, and what is printed: page one alone as `cutprint` has it, and both pages.
#[derive(Clone, Debug, PartialEq, Eq)]
pub struct Printed {
    pub number: u32,
    pub place: u64,
    pub one: String,
    pub both: String,
}

type State = (usize, Vec<u64>, Vec<u64>);

fn field(file: &[u8], at: usize) -> usize {
    u32::from_le_bytes(file[at..at + 4].try_into().unwrap()) as usize
}

/// n, the list and the amplitudes' bits, or the header's answer.
fn contents(file: &[u8]) -> Result<State, u32> {
    if file.len() < 24 || &file[..4] != b"CUT1" {
        return Err(10);
    }
    let [n, k, listed, start, length] = [4, 8, 12, 16, 20].map(|at| field(file, at));
    if !(1..=9).contains(&n) {
        return Err(1);
    }
    let right = (24 + 4 * k).next_multiple_of(8);
    let fits = k <= 64 && listed == 24 && start == right && length == right + (16 << n) && length == file.len();
    if !fits || file[24 + 4 * k..right].iter().any(|&byte| byte != 0) {
        return Err(10);
    }
    let list = (0..k).map(|i| field(file, 24 + 4 * i) as u64).collect();
    let state = file[right..].chunks_exact(8).map(|eight| u64::from_le_bytes(eight.try_into().unwrap())).collect();
    Ok((n, list, state))
}

/// What the Rust gives to a call whose lent slices have just the length that they need.
fn asked(entry: Entry, mut args: Vec<Arg>) -> Outcome {
    args.resize(entry.kinds().len(), Arg::Many(vec![]));
    let mut call = Call::new(entry, args);
    if let Some((6, _)) = table::refusal(&call) {
        for (at, role) in call.slices().into_iter().zip(table::roles(&call)) {
            if let Role::Output(needed) | Role::Scratch(needed) = role {
                *call.many_mut(at) = vec![0; needed];
            }
        }
    }
    outcome(&call, Build::Counting)
}

fn on_state(entry: Entry, (n, list, state): &State) -> Outcome {
    asked(entry, vec![Arg::Many(state.clone()), cases::one(*n), Arg::Many(list.clone()), cases::one(CAP)])
}

/// FNV-1a of 64 bits.
pub fn digest(bytes: &[u8]) -> u64 {
    bytes.iter().fold(0xCBF2_9CE4_8422_2325, |hash, &byte| (hash ^ u64::from(byte)).wrapping_mul(0x100_0000_01B3))
}

fn yes(mark: bool) -> &'static str {
    if mark { "yes" } else { "no" }
}

/// The floor of the square times 2^24; 0 from 2 on.
fn weight(bits: u64) -> u128 {
    let (field, low) = ((bits >> 52 & 2047) as u32, u128::from(bits & ((1 << 52) - 1)));
    let digits = if field == 0 { low } else { low | 1 << 52 };
    let down = 2 * (1075 - field.max(1)) - 24;
    if field >= 1024 || down >= 128 { 0 } else { digits * digits >> down }
}

/// The 4096th power of a number's 32 highest bits from below and above with its power of two, and how far they were moved up.
fn power(x: u128) -> (u128, u128, u128, u128, u128) {
    let up = u128::from(x.leading_zeros() - 96);
    let digits = x << up;
    let (mut low, mut high, mut power) = (digits / 2, digits.div_ceil(2), 1);
    for _ in 0..12 {
        let shift = if low * low < 1 << 61 { 30 } else { 31 };
        (low, high, power) = (low * low >> shift, (high * high).div_ceil(1 << shift), 2 * power + shift);
    }
    (digits, up, low, high, power)
}

/// 4096 times the logarithm of `whole` / `part` to base two, from below and above.
fn band(part: u128, whole: u128) -> (u128, u128) {
    let (digits, up, low, high, exponent) = power(part);
    let (all, all_up, all_low, all_high, all_exponent) = power(whole);
    if digits == all {
        return (4096 * (up - all_up), 4096 * (up - all_up));
    }
    let doublings = |b: u128, a: u128| if b <= a { 0 } else { 1 + u128::from(b > 2 * a) };
    let between = (all_exponent + 4096 * up).saturating_sub(exponent + 4096 * all_up);
    (between.saturating_sub(doublings(high, all_low)), between + doublings(all_high, low))
}

fn entropy(values: &[u64]) -> String {
    let weights: Vec<u128> = values.iter().map(|&bits| weight(bits)).filter(|&weight| weight > 0).collect();
    let whole = weights.iter().sum();
    let sum = |end: fn((u128, u128)) -> u128| weights.iter().map(|&part| part * end(band(part, whole))).sum::<u128>();
    format!("entropy {} {} {}\n", sum(|band| band.0), sum(|band| band.1), 4096 * whole)
}

fn listed(word: &str, list: &[u64]) -> String {
    list.iter().fold(word.to_string(), |line, qubit| format!("{line} {qubit}")) + "\n"
}

/// Page one's lines.
fn page_one((n, list, _): &State, cut: &Outcome) -> String {
    if cut.number != 0 {
        return format!("refused {} {}\n", cut.number, cut.place);
    }
    let side = list.len().min(n - list.len());
    let others: Vec<u64> = (0..*n as u64).filter(|qubit| !list.contains(qubit)).collect();
    let mut text = format!("cut {n} {} {} {}\n", list.len(), 1 << side, 1 << (n - side));
    text += &listed("side", if list.len() == side { list } else { &others });
    let values = &cut.slices[2][..cut.value as usize];
    for (rank, bits) in values.iter().enumerate() {
        text += &format!("value {rank} {bits:016X}\n");
    }
    let sweeps = cut.sweeps.expect("sweeps");
    text + &entropy(values) + &format!("end {} {} {}\n", cut.value, sweeps.begun, yes(sweeps.quiet))
}

/// The total of the squares of the kept singular values: of the Rust's own factors of the cut matrix, which it sorts downward.
fn kept(held: &State) -> u64 {
    let (n, list, _) = held;
    let side = list.len().min(n - list.len());
    let matrix = on_state(cut_matrix, held).slices[2].clone();
    let factors = asked(svd_jacobi, vec![Arg::Many(matrix), cases::one(1 << side), cases::one(1 << (n - side))]);
    let mut values: Vec<f64> = factors.slices[2].iter().map(|&bits| f64::from_bits(bits)).collect();
    values.sort_by(|a, b| b.total_cmp(a));
    let floor = values[0] * 1e-14;
    values.iter().take_while(|&&value| value > floor).map(|value| value * value).sum::<f64>().to_bits()
}

fn cells(word: &str, side: usize, bits: &[u64]) -> String {
    let line =
        |at: usize| format!("{word} {} {} {:016X} {:016X}\n", at / side, at % side, bits[2 * at], bits[2 * at + 1]);
    (0..side * side).map(line).collect()
}

/// Page two's lines before and after `kept`. That the density summed from the cut matrix is the same is what a theorem says, so
/// `yes` is expected.
fn page_two(held: &State) -> (String, String) {
    let density = on_state(dense_reduced_density, held);
    if density.number != 0 {
        return (format!("refused {} {}\n", density.number, density.place), String::new());
    }
    let side = 1 << held.1.len();
    let rho = &density.slices[2];
    let trace: f64 = (0..side).map(|t| f64::from_bits(rho[2 * (t * side + t)])).sum();
    let scaled = asked(normalize_trace, vec![Arg::Many(rho.clone()), cases::one(side)]);
    let below = match scaled.number {
        0 => cells("scaled", side, &scaled.slices[0]),
        number => format!("scaled refused {number} {}\n", scaled.place),
    };
    (cells("cell", side, rho) + &format!("trace {:016X}\n", trace.to_bits()), below + "summed yes\n")
}

/// What is printed of a file.
pub fn printed(file: &[u8]) -> Printed {
    let file = &file[..file.len().min(READ)];
    let whole = |number: u32, place: u64| {
        let text = format!("refused {number} {place}\n");
        Printed { number, place, one: text.clone(), both: text }
    };
    let held = match contents(file) {
        Ok(held) => held,
        Err(number) => return whole(number, 0),
    };
    let cut = on_state(dense_schmidt_values, &held);
    if (1..=7).contains(&cut.number) {
        return whole(cut.number, cut.place);
    }
    let one = page_one(&held, &cut);
    let head = format!("digest {:016X}\n", digest(file));
    let (exact, total) = match cut.number {
        0 => (format!("exact {}\n", yes(cut.exact == Some(true))), format!("kept {:016X}\n", kept(&held))),
        _ => Default::default(),
    };
    let (above, below) = page_two(&held);
    let both =
        format!("page 1\n{head}{one}{exact}page 2\n{head}{}{above}{total}{below}end pages\n", listed("list", &held.1));
    Printed { number: cut.number, place: cut.place, one, both }
}

/// A cut file of a list and a state, as they are.
pub fn file_of(n: u64, list: &[u64], state: &[u64]) -> Vec<u8> {
    let start = (24 + 4 * list.len()).next_multiple_of(8);
    let length = start + 8 * state.len();
    let mut file = b"CUT1".to_vec();
    for word in [n, list.len() as u64, 24, start as u64, length as u64].iter().chain(list) {
        file.extend((*word as u32).to_le_bytes());
    }
    file.resize(start, 0);
    file.extend(state.iter().flat_map(|bits| bits.to_le_bytes()));
    file
}

/// A drawn file: of the states and lists that the cut's values are asked of, damaged ones too, other lists, and of eight one whose
/// bytes are damaged.
pub fn drawn(rng: &mut Random) -> Vec<u8> {
    let qubits = match rng.below(100) {
        0 => 9,
        1..=3 => 8,
        4..=15 => 7,
        _ => 5,
    };
    let bounds = cases::Bounds { qubits, side: 1 };
    let call = match rng.below(4) {
        0 => cases::any(rng, dense_schmidt_values, bounds),
        _ => cases::accepted(rng, dense_schmidt_values, bounds),
    };
    let (n, mut list) = (call.one(1) as u64, call.many(2).to_vec());
    match rng.below(64) {
        0 => list.clear(),
        1 => list = (0..n.min(64)).collect(),
        2 => list.push(rng.below(n as usize + 2) as u64),
        _ => {}
    }
    let mut file = file_of(n, &list, call.many(0));
    if rng.chance(8) {
        let at = rng.below(file.len().min(64));
        match rng.below(4) {
            0 => file[at] ^= 1 << rng.below(8),
            1 => file.truncate(at),
            2 => file.push(0),
            _ => file[at] = rng.below(256) as u8,
        }
    }
    file
}
