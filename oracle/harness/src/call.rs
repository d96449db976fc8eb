//! A call of an entry point as plain data, and what it leaves behind. Floats are kept as their bits throughout.

/// Names each entry point once: as a case of `Entry`, and in `ENTRIES` in the same order.
macro_rules! entries {
    ($($name:ident,)*) => {
        /// Which of the entry points, by name.
        #[derive(Clone, Copy, Debug, PartialEq, Eq, Hash, PartialOrd, Ord)]
        #[allow(non_camel_case_types)]
        pub enum Entry {
            $($name,)*
        }

        pub const ENTRIES: &[Entry] = &[$(Entry::$name,)*];
    };
}

entries! {
    validate_qubit_set,
    validate_subsystem,
    row_offsets,
    traced_base,
    smaller_side,
    cut_matrix,
    dense_schmidt_values,
    cut_profile,
    dense_reduced_density,
    mirror_lower_triangle,
    normalize_trace,
    multiply_block_factor,
    svd_jacobi,
    factorize_gram_schmidt,
    hermitian_eigenvalues,
    finish_schmidt_values,
    schmidt_values_from_density,
    hermitian_eigen,
    truncated_svd_rank,
    discards_resolvable_weight,
    cut_rank,
    widest_block_cut,
    fill_isometry_site_data,
    fill_scaled_u_site_data,
    fill_vt_site_data,
    fill_scaled_vt_data,
    chain_of_sites,
    sqrt,
    sqrt_bits,
    sqrt_marked,
    magnitude,
    sign,
    is_finite,
    component_allowed,
    total_less,
    total_order,
    modulus,
}

/// What an argument is. Lent slices that a call may write are `mut`.
#[derive(Clone, Copy, Debug, PartialEq, Eq)]
pub enum Kind {
    Word,
    Float,
    Words,
    Floats,
    MutWords,
    MutFloats,
}

use Entry::*;
use Kind::*;

/// Which slice of `chain_of_sites` has the marks of its factorisations: of each cut the sweeps begun, 1 where the last was
/// quiet, and the pairs turned.
pub const MARKS: usize = 4;

impl Entry {
    pub fn name(self) -> String {
        format!("{self:?}")
    }

    /// The arguments in order.
    pub fn kinds(self) -> &'static [Kind] {
        match self {
            validate_qubit_set | validate_subsystem => &[Words, Word],
            row_offsets => &[Words, Word, Word, MutWords],
            traced_base => &[Word, Words, Word, Word],
            smaller_side => &[Words, Word, Word, MutWords],
            cut_matrix => &[Floats, Word, Words, Word, MutFloats],
            dense_schmidt_values | dense_reduced_density => &[Floats, Word, Words, Word, MutFloats, MutFloats],
            cut_profile => &[Floats, Word, Word, MutWords, MutFloats, MutFloats, MutWords, MutWords, MutFloats],
            mirror_lower_triangle | normalize_trace => &[MutFloats, Word],
            multiply_block_factor => &[MutFloats, Word, Words, Floats, Word],
            svd_jacobi => &[Floats, Word, Word, MutFloats, MutFloats, MutFloats, MutFloats],
            factorize_gram_schmidt => &[Floats, Word, Word, MutFloats, MutFloats, MutFloats],
            hermitian_eigenvalues | schmidt_values_from_density => &[Floats, Word, MutFloats, MutFloats],
            finish_schmidt_values => &[Floats, MutFloats],
            hermitian_eigen => &[Floats, Word, MutFloats, MutFloats, MutFloats],
            truncated_svd_rank => &[Floats, Float, Word],
            discards_resolvable_weight => &[Floats, Word],
            cut_rank | widest_block_cut => &[Word, Word, Word],
            fill_isometry_site_data => &[Floats, Word, Word, Word, MutFloats],
            fill_scaled_u_site_data => &[Floats, Floats, Word, Word, Word, MutFloats],
            fill_vt_site_data => &[Floats, Word, Word, Word, Word, MutFloats],
            fill_scaled_vt_data => &[Floats, Floats, Word, Word, Word, Word, MutFloats],
            chain_of_sites => &[
                Floats, Word, Float, Word, MutFloats, MutWords, MutWords, MutWords, MutFloats, MutFloats, MutFloats,
                MutFloats,
            ],
            sqrt | sqrt_marked | magnitude | sign | is_finite | component_allowed => &[Float],
            sqrt_bits => &[Word],
            total_less | total_order | modulus => &[Float, Float],
        }
    }

    /// Whether a call hands back a number beside its answer.
    pub fn returns(self) -> bool {
        !matches!(
            self,
            validate_qubit_set
                | validate_subsystem
                | row_offsets
                | smaller_side
                | cut_matrix
                | cut_profile
                | dense_reduced_density
                | mirror_lower_triangle
                | normalize_trace
                | multiply_block_factor
                | svd_jacobi
                | hermitian_eigenvalues
                | hermitian_eigen
                | fill_isometry_site_data
                | fill_scaled_u_site_data
                | fill_vt_site_data
                | fill_scaled_vt_data
        )
    }

    /// Whether a call sweeps, and so hands back how.
    pub fn sweeps(self) -> bool {
        matches!(
            self,
            svd_jacobi | hermitian_eigenvalues | schmidt_values_from_density | hermitian_eigen | dense_schmidt_values
        )
    }
}

impl Entry {
    /// Whether a call says if its roots came out even.
    pub fn marks(self) -> bool {
        matches!(self, dense_schmidt_values | sqrt_marked)
    }
}

/// The sweeps of a factorisation: how many were begun, the quiet one included, whether the last was quiet, and how many pairs
/// were turned in all. On a refusal 0, no and 0.
#[derive(Clone, Copy, Debug, Default, PartialEq, Eq)]
pub struct Sweeps {
    pub begun: u64,
    pub quiet: bool,
    pub turned: u64,
}

/// An argument: one word, or a slice of them.
#[derive(Clone, Debug, PartialEq, Eq)]
pub enum Arg {
    One(u64),
    Many(Vec<u64>),
}

#[derive(Clone, Debug, PartialEq, Eq)]
pub struct Call {
    pub entry: Entry,
    pub args: Vec<Arg>,
}

impl Call {
    pub fn new(entry: Entry, args: Vec<Arg>) -> Call {
        assert_eq!(args.len(), entry.kinds().len());
        for (arg, kind) in args.iter().zip(entry.kinds()) {
            assert_eq!(matches!(arg, Arg::One(_)), matches!(kind, Word | Float), "{entry:?}");
        }
        Call { entry, args }
    }

    pub fn one(&self, at: usize) -> usize {
        match self.args[at] {
            Arg::One(word) => word as usize,
            Arg::Many(_) => panic!("argument {at} of {:?} is a slice", self.entry),
        }
    }

    pub fn float(&self, at: usize) -> f64 {
        f64::from_bits(self.one(at) as u64)
    }

    pub fn many(&self, at: usize) -> &[u64] {
        match &self.args[at] {
            Arg::Many(words) => words,
            Arg::One(_) => panic!("argument {at} of {:?} is no slice", self.entry),
        }
    }

    pub fn many_mut(&mut self, at: usize) -> &mut Vec<u64> {
        match &mut self.args[at] {
            Arg::Many(words) => words,
            Arg::One(_) => panic!("no slice"),
        }
    }

    pub fn words(&self, at: usize) -> Vec<usize> {
        self.many(at).iter().map(|&word| word as usize).collect()
    }

    pub fn floats(&self, at: usize) -> Vec<f64> {
        self.many(at).iter().map(|&bits| f64::from_bits(bits)).collect()
    }

    /// The positions of the arguments that are slices, in the order in which answer 6 counts them.
    pub fn slices(&self) -> Vec<usize> {
        (0..self.args.len()).filter(|&at| matches!(self.args[at], Arg::Many(_))).collect()
    }

    /// One line that `compare replay` reads back: the name, then each argument, slices in brackets.
    pub fn line(&self) -> String {
        let mut line = self.entry.name();
        for arg in &self.args {
            match arg {
                Arg::One(word) => line.push_str(&format!(" {word:X}")),
                Arg::Many(words) => {
                    line.push_str(" [");
                    for word in words {
                        line.push_str(&format!(" {word:X}"));
                    }
                    line.push_str(" ]");
                }
            }
        }
        line
    }

    pub fn parse(line: &str) -> Call {
        let mut parts = line.split_whitespace();
        let name = parts.next().expect("a name");
        let entry = *ENTRIES.iter().find(|entry| entry.name() == name).expect("a known entry point");
        let hex = |part: &str| u64::from_str_radix(part, 16).expect("a hex word");
        let mut args = Vec::new();
        while let Some(part) = parts.next() {
            if part == "[" {
                let words = parts.by_ref().take_while(|&part| part != "]").map(hex).collect();
                args.push(Arg::Many(words));
            } else {
                args.push(Arg::One(hex(part)));
            }
        }
        Call::new(entry, args)
    }
}

/// What a call leaves: its answer, the number that it hands back, its sweeps where it has them and the build counts them,
/// whether its roots came out even where it says so and the build counts, and every slice as it stands afterwards.
#[derive(Clone, Debug, PartialEq, Eq)]
pub struct Outcome {
    pub number: u32,
    pub place: u64,
    pub value: u64,
    pub sweeps: Option<Sweeps>,
    pub exact: Option<bool>,
    pub slices: Vec<Vec<u64>>,
}

impl Outcome {
    /// Whether a factorisation of the call gave up: done, with a pair still turned in its last sweep.
    pub fn gave_up(&self, call: &Call) -> bool {
        let cuts = if call.entry == chain_of_sites && self.number == 0 { call.one(1) - 1 } else { 0 };
        let restless = (0..cuts).any(|cut| self.slices[MARKS][3 * cut + 1] == 0);
        self.number == 0 && (self.sweeps.is_some_and(|sweeps| !sweeps.quiet) || restless)
    }
}
