//! The port's entry points, as its static library has them, and calls of them as plain data on copies of the slices. Each
//! copy stands between guard words, so that a write outside of a slice is seen. An entry point that the library lacks is
//! not called.

use harness::call::{Call, Entry, Entry::*, Outcome, Sweeps};

const GUARD: u64 = 0xD1CE_0B5E_55ED_CAFE;
const GUARDS: usize = 8;

#[rustfmt::skip]
#[allow(dead_code)]
unsafe extern "C" {
    pub fn zg_validate_qubit_set(list: *const usize, list_len: usize, n: usize, place: *mut usize) -> u32;
    pub fn zg_validate_subsystem(list: *const usize, list_len: usize, n: usize, place: *mut usize) -> u32;
    pub fn zg_row_offsets(list: *const usize, list_len: usize, n: usize, cap: usize, out: *mut usize, out_len: usize, place: *mut usize) -> u32;
    pub fn zg_traced_base(e: usize, list: *const usize, list_len: usize, n: usize, cap: usize, place: *mut usize, base: *mut usize) -> u32;
    pub fn zg_smaller_side(list: *const usize, list_len: usize, n: usize, cap: usize, others: *mut usize, others_len: usize, place: *mut usize) -> u32;
    pub fn zg_cut_matrix(state: *const f64, state_len: usize, n: usize, list: *const usize, list_len: usize, cap: usize, out: *mut f64, out_len: usize, place: *mut usize) -> u32;
    pub fn zg_dense_schmidt_values(state: *const f64, state_len: usize, n: usize, list: *const usize, list_len: usize, cap: usize, out: *mut f64, out_len: usize, scratch: *mut f64, scratch_len: usize, place: *mut usize, count: *mut usize, sweeps: *mut usize, quiet: *mut bool, turned: *mut usize, exact: *mut bool) -> u32;
    pub fn zg_cut_profile(state: *const f64, state_len: usize, n: usize, cap: usize, header: *mut usize, header_len: usize, values: *mut f64, values_len: usize, largest: *mut f64, largest_len: usize, ranks: *mut usize, ranks_len: usize, marks: *mut usize, marks_len: usize, scratch: *mut f64, scratch_len: usize, place: *mut usize) -> u32;
    pub fn zg_dense_reduced_density(state: *const f64, state_len: usize, n: usize, list: *const usize, list_len: usize, cap: usize, out: *mut f64, out_len: usize, scratch: *mut f64, scratch_len: usize, place: *mut usize) -> u32;
    pub fn zg_mirror_lower_triangle(rho: *mut f64, rho_len: usize, dim: usize, place: *mut usize) -> u32;
    pub fn zg_normalize_trace(rho: *mut f64, rho_len: usize, dim: usize, place: *mut usize) -> u32;
    pub fn zg_multiply_block_factor(rho: *mut f64, rho_len: usize, dim: usize, positions: *const usize, positions_len: usize, factor: *const f64, factor_len: usize, side: usize, place: *mut usize) -> u32;
    // Not in the published Rust, so never compared with it.
    pub fn zg_version() -> u32;
    pub fn zg_density_from_cut(matrix: *const f64, matrix_len: usize, n: usize, list: *const usize, list_len: usize, cap: usize, out: *mut f64, out_len: usize, place: *mut usize) -> u32;
    pub fn zg_pages_agree(state: *const f64, state_len: usize, n: usize, list: *const usize, list_len: usize, cap: usize, place: *mut usize, yes: *mut bool) -> u32;
    pub fn zg_countersign(a: *const f64, a_len: usize, m: usize, n: usize, u: *const f64, u_len: usize, s: *const f64, s_len: usize, vt: *const f64, vt_len: usize, tolerance: u64, place: *mut usize, yes: *mut bool, test: *mut usize, cell: *mut usize) -> u32;
    pub fn zg_slab_put(cells: *mut f64, index: *mut u32, site: u32, data: *const f64, data_len: usize, place: *mut usize) -> u32;
    pub fn zg_slab_drop(cells: *mut f64, index: *mut u32, site: u32, place: *mut usize) -> u32;
    pub fn zg_slab_replace(cells: *mut f64, index: *mut u32, site: u32, data: *const f64, data_len: usize, place: *mut usize) -> u32;
    pub fn zg_entropy_band(state: *const f64, state_len: usize, n: usize, list: *const usize, list_len: usize, cap: usize, bands: *mut usize, bands_len: usize, scratch: *mut f64, scratch_len: usize, place: *mut usize, count: *mut usize, low: *mut u64, high: *mut u64, whole: *mut u64, sweeps: *mut usize, quiet: *mut bool, turned: *mut usize) -> u32;
    pub fn zg_lot_sheet(lot: *const u8, lot_len: usize, sheet: *mut usize, place: *mut usize) -> u32;
    pub fn zg_cut_plan(list: *const usize, list_len: usize, n: usize, cap: usize, plan: *mut usize, place: *mut usize) -> u32;
    pub fn zg_plan_add(plan: *mut usize, qubit: usize, place: *mut usize) -> u32;
    pub fn zg_plan_drop(plan: *mut usize, qubit: usize, place: *mut usize) -> u32;
    pub fn zg_plan_switch(plan: *mut usize, place: *mut usize) -> u32;
    pub fn zg_planned_cut_matrix(state: *const f64, state_len: usize, plan: *const usize, out: *mut f64, out_len: usize, place: *mut usize) -> u32;
    pub fn zg_planned_schmidt_values(state: *const f64, state_len: usize, plan: *const usize, out: *mut f64, out_len: usize, scratch: *mut f64, scratch_len: usize, place: *mut usize, count: *mut usize, sweeps: *mut usize, quiet: *mut bool, turned: *mut usize, exact: *mut bool) -> u32;
    pub fn zg_planned_reduced_density(state: *const f64, state_len: usize, plan: *const usize, out: *mut f64, out_len: usize, scratch: *mut f64, scratch_len: usize, place: *mut usize) -> u32;
    // Text: compared with the text that harness::pages makes of the published Rust's outcomes.
    pub fn zg_certificate(file: *const u8, file_len: usize, text: *mut u8, text_len: usize, place: *mut usize, length: *mut usize) -> u32;
    pub fn zg_certificate_pages(file: *const u8, file_len: usize, text: *mut u8, text_len: usize, place: *mut usize, length: *mut usize) -> u32;
    pub fn zg_svd_jacobi(a: *const f64, a_len: usize, m: usize, n: usize, u: *mut f64, u_len: usize, s: *mut f64, s_len: usize, vt: *mut f64, vt_len: usize, scratch: *mut f64, scratch_len: usize, place: *mut usize, sweeps: *mut usize, quiet: *mut bool, turned: *mut usize) -> u32;
    pub fn zg_factorize_gram_schmidt(a: *const f64, a_len: usize, rows: usize, cols: usize, q: *mut f64, q_len: usize, r: *mut f64, r_len: usize, scratch: *mut f64, scratch_len: usize, place: *mut usize, rank: *mut usize) -> u32;
    pub fn zg_hermitian_eigenvalues(a: *const f64, a_len: usize, dim: usize, out: *mut f64, out_len: usize, scratch: *mut f64, scratch_len: usize, place: *mut usize, sweeps: *mut usize, quiet: *mut bool, turned: *mut usize) -> u32;
    pub fn zg_finish_schmidt_values(values: *const f64, values_len: usize, out: *mut f64, out_len: usize, place: *mut usize, count: *mut usize) -> u32;
    pub fn zg_schmidt_values_from_density(rho: *const f64, rho_len: usize, dim: usize, out: *mut f64, out_len: usize, scratch: *mut f64, scratch_len: usize, place: *mut usize, count: *mut usize, sweeps: *mut usize, quiet: *mut bool, turned: *mut usize) -> u32;
    pub fn zg_hermitian_eigen(matrix: *const f64, matrix_len: usize, dim: usize, values: *mut f64, values_len: usize, vectors: *mut f64, vectors_len: usize, scratch: *mut f64, scratch_len: usize, place: *mut usize, sweeps: *mut usize, quiet: *mut bool, turned: *mut usize) -> u32;
    pub fn zg_truncated_svd_rank(values: *const f64, values_len: usize, epsilon: f64, max_bond_dim: usize, place: *mut usize, rank: *mut usize) -> u32;
    pub fn zg_discards_resolvable_weight(values: *const f64, values_len: usize, chi: usize, place: *mut usize, yes: *mut bool) -> u32;
    pub fn zg_cut_rank(bond_left: usize, bond_mid: usize, bond_right: usize, place: *mut usize, rank: *mut u64) -> u32;
    pub fn zg_widest_block_cut(bond_left: usize, bond_right: usize, n: usize, place: *mut usize, rank: *mut u64) -> u32;
    pub fn zg_fill_isometry_site_data(columns: *const f64, columns_len: usize, stride: usize, bond_left: usize, chi: usize, out: *mut f64, out_len: usize, place: *mut usize) -> u32;
    pub fn zg_fill_scaled_u_site_data(u: *const f64, u_len: usize, s: *const f64, s_len: usize, stride: usize, bond_left: usize, chi: usize, out: *mut f64, out_len: usize, place: *mut usize) -> u32;
    pub fn zg_fill_vt_site_data(vt: *const f64, vt_len: usize, row_len: usize, chi: usize, physical_dim: usize, bond_right: usize, out: *mut f64, out_len: usize, place: *mut usize) -> u32;
    pub fn zg_fill_scaled_vt_data(s: *const f64, s_len: usize, vt: *const f64, vt_len: usize, row_len: usize, chi: usize, physical_dim: usize, bond_right: usize, out: *mut f64, out_len: usize, place: *mut usize) -> u32;
    pub fn zg_chain_of_sites(state: *const f64, state_len: usize, n: usize, epsilon: f64, limit: usize, sites: *mut f64, sites_len: usize, bonds: *mut usize, bonds_len: usize, starts: *mut usize, starts_len: usize, marks: *mut usize, marks_len: usize, matrix: *mut f64, matrix_len: usize, u: *mut f64, u_len: usize, vt: *mut f64, vt_len: usize, scratch: *mut f64, scratch_len: usize, place: *mut usize, dropped: *mut usize) -> u32;
    pub fn zg_sqrt(x: f64) -> f64;
    pub fn zg_sqrt_bits(b: u64) -> u64;
    pub fn zg_sqrt_marked(x: f64, exact: *mut bool) -> f64;
    pub fn zg_magnitude(x: f64) -> f64;
    pub fn zg_sign(x: f64) -> f64;
    pub fn zg_is_finite(x: f64) -> bool;
    pub fn zg_total_less(x: f64, y: f64) -> bool;
    pub fn zg_total_order(x: f64, y: f64) -> u32;
    pub fn zg_component_allowed(x: f64) -> bool;
    pub fn zg_modulus(re: f64, im: f64) -> f64;
}

/// A call made ready: copies of its slices, each between guard words. It may be made again and again on the same copies.
pub struct Ready<'a> {
    call: &'a Call,
    words: Vec<Vec<u64>>,
    place: usize,
    value: u64,
    sweeps: usize,
    /// 0 or 1 once a call has said it.
    quiet: u8,
    turned: usize,
    /// 0 or 1 once a call has said it.
    exact: u8,
}

#[allow(dead_code)]
impl<'a> Ready<'a> {
    pub fn new(call: &'a Call) -> Ready<'a> {
        let fenced = |slice: &[u64]| [&[GUARD; GUARDS], slice, &[GUARD; GUARDS]].concat();
        let words = call.slices().iter().map(|&at| fenced(call.many(at))).collect();
        Ready { call, words, place: usize::MAX, value: u64::MAX, sweeps: usize::MAX, quiet: 2, turned: usize::MAX, exact: 2 }
    }

    fn pointer(&mut self, slice: usize) -> *mut u64 {
        self.words[slice][GUARDS..].as_mut_ptr()
    }

    fn length(&self, slice: usize) -> usize {
        self.words[slice].len() - 2 * GUARDS
    }

    /// What the call left, or none where a guard word was written or a yes or no was not.
    pub fn outcome(self, number: u32) -> Option<Outcome> {
        if self.call.entry.sweeps() && self.quiet > 1 || self.call.entry.marks() && self.exact > 1 {
            return None;
        }
        let mut slices = vec![];
        for words in self.words {
            let (front, rest) = words.split_at(GUARDS);
            let (slice, back) = rest.split_at(rest.len() - GUARDS);
            if front.iter().chain(back).any(|&word| word != GUARD) {
                return None;
            }
            slices.push(slice.to_vec());
        }
        let value = if self.call.entry.returns() { self.value } else { 0 };
        let said = Sweeps { begun: self.sweeps as u64, quiet: self.quiet == 1, turned: self.turned as u64 };
        let sweeps = self.call.entry.sweeps().then_some(said);
        let exact = self.call.entry.marks().then_some(self.exact == 1);
        Some(Outcome { number, place: self.place as u64, value, sweeps, exact, slices })
    }
}

/// Calls what the library has, and gives none where it does not have it.
macro_rules! ask {
    ($has:ident, $call:expr) => {{
        #[cfg($has)]
        {
            Some(unsafe { $call })
        }
        #[cfg(not($has))]
        {
            None
        }
    }};
}

/// The answer of a call that never refuses and so has none.
#[allow(dead_code)]
unsafe fn never(place: *mut usize) -> u32 {
    unsafe { *place = 0 };
    0
}

/// A NaN's bits are open except where the paper names them, at the square root.
#[allow(dead_code)]
fn one_nan(x: f64) -> u64 {
    if x.is_nan() { harness::oracle::NAN } else { x.to_bits() }
}

/// Whether the library has the entry point.
pub fn has(entry: Entry) -> bool {
    let bounds = harness::cases::Bounds { qubits: 2, side: 2 };
    let call = harness::cases::accepted(&mut harness::random::Random::new(0), entry, bounds);
    run(&call).is_some()
}

/// What the port leaves of a call; an inner none where it wrote outside of a slice.
pub fn run(call: &Call) -> Option<Option<Outcome>> {
    let mut ready = Ready::new(call);
    let number = ready.make()?;
    Some(ready.outcome(number))
}

impl Ready<'_> {
    /// Makes the call: its answer's number, or none where the library does not have it.
    #[rustfmt::skip]
    #[allow(unused_variables, unused_macros)]
    pub fn make(&mut self) -> Option<u32> {
        let call = self.call;
        let one = |at: usize| call.one(at);
        let p = &raw mut self.place;
        let v = &raw mut self.value;
        let (s, q, t) = (&raw mut self.sweeps, (&raw mut self.quiet).cast::<bool>(), &raw mut self.turned);
        let e = (&raw mut self.exact).cast::<bool>();
        // A slice's pointer to floats, its pointer to whole numbers, its length.
        macro_rules! f { ($slice:literal) => { self.pointer($slice).cast::<f64>() } }
        macro_rules! w { ($slice:literal) => { self.pointer($slice).cast::<usize>() } }
        macro_rules! l { ($slice:literal) => { self.length($slice) } }
        match call.entry {
            validate_qubit_set => ask!(has_zg_validate_qubit_set, zg_validate_qubit_set(w!(0), l!(0), one(1), p)),
            validate_subsystem => ask!(has_zg_validate_subsystem, zg_validate_subsystem(w!(0), l!(0), one(1), p)),
            row_offsets => ask!(has_zg_row_offsets, zg_row_offsets(w!(0), l!(0), one(1), one(2), w!(1), l!(1), p)),
            traced_base => ask!(has_zg_traced_base, zg_traced_base(one(0), w!(0), l!(0), one(2), one(3), p, v.cast())),
            smaller_side => ask!(has_zg_smaller_side, zg_smaller_side(w!(0), l!(0), one(1), one(2), w!(1), l!(1), p)),
            cut_matrix => ask!(has_zg_cut_matrix, zg_cut_matrix(f!(0), l!(0), one(1), w!(1), l!(1), one(3), f!(2), l!(2), p)),
            dense_schmidt_values => ask!(has_zg_dense_schmidt_values,
                zg_dense_schmidt_values(f!(0), l!(0), one(1), w!(1), l!(1), one(3), f!(2), l!(2), f!(3), l!(3), p, v.cast(), s, q, t, e)),
            cut_profile => ask!(has_zg_cut_profile,
                zg_cut_profile(f!(0), l!(0), one(1), one(2), w!(1), l!(1), f!(2), l!(2), f!(3), l!(3), w!(4), l!(4), w!(5), l!(5), f!(6), l!(6), p)),
            dense_reduced_density => ask!(has_zg_dense_reduced_density,
                zg_dense_reduced_density(f!(0), l!(0), one(1), w!(1), l!(1), one(3), f!(2), l!(2), f!(3), l!(3), p)),
            mirror_lower_triangle => ask!(has_zg_mirror_lower_triangle, zg_mirror_lower_triangle(f!(0), l!(0), one(1), p)),
            normalize_trace => ask!(has_zg_normalize_trace, zg_normalize_trace(f!(0), l!(0), one(1), p)),
            multiply_block_factor => ask!(has_zg_multiply_block_factor,
                zg_multiply_block_factor(f!(0), l!(0), one(1), w!(1), l!(1), f!(2), l!(2), one(4), p)),
            svd_jacobi => ask!(has_zg_svd_jacobi,
                zg_svd_jacobi(f!(0), l!(0), one(1), one(2), f!(1), l!(1), f!(2), l!(2), f!(3), l!(3), f!(4), l!(4), p, s, q, t)),
            factorize_gram_schmidt => ask!(has_zg_factorize_gram_schmidt,
                zg_factorize_gram_schmidt(f!(0), l!(0), one(1), one(2), f!(1), l!(1), f!(2), l!(2), f!(3), l!(3), p, v.cast())),
            hermitian_eigenvalues => ask!(has_zg_hermitian_eigenvalues,
                zg_hermitian_eigenvalues(f!(0), l!(0), one(1), f!(1), l!(1), f!(2), l!(2), p, s, q, t)),
            finish_schmidt_values => ask!(has_zg_finish_schmidt_values,
                zg_finish_schmidt_values(f!(0), l!(0), f!(1), l!(1), p, v.cast())),
            schmidt_values_from_density => ask!(has_zg_schmidt_values_from_density,
                zg_schmidt_values_from_density(f!(0), l!(0), one(1), f!(1), l!(1), f!(2), l!(2), p, v.cast(), s, q, t)),
            hermitian_eigen => ask!(has_zg_hermitian_eigen,
                zg_hermitian_eigen(f!(0), l!(0), one(1), f!(1), l!(1), f!(2), l!(2), f!(3), l!(3), p, s, q, t)),
            truncated_svd_rank => ask!(has_zg_truncated_svd_rank,
                zg_truncated_svd_rank(f!(0), l!(0), call.float(1), one(2), p, v.cast())),
            discards_resolvable_weight => ask!(has_zg_discards_resolvable_weight, {
                let mut yes = false;
                let number = zg_discards_resolvable_weight(f!(0), l!(0), one(1), p, &raw mut yes);
                self.value = u64::from(yes);
                number
            }),
            cut_rank => ask!(has_zg_cut_rank, zg_cut_rank(one(0), one(1), one(2), p, v)),
            widest_block_cut => ask!(has_zg_widest_block_cut, zg_widest_block_cut(one(0), one(1), one(2), p, v)),
            fill_isometry_site_data => ask!(has_zg_fill_isometry_site_data,
                zg_fill_isometry_site_data(f!(0), l!(0), one(1), one(2), one(3), f!(1), l!(1), p)),
            fill_scaled_u_site_data => ask!(has_zg_fill_scaled_u_site_data,
                zg_fill_scaled_u_site_data(f!(0), l!(0), f!(1), l!(1), one(2), one(3), one(4), f!(2), l!(2), p)),
            fill_vt_site_data => ask!(has_zg_fill_vt_site_data,
                zg_fill_vt_site_data(f!(0), l!(0), one(1), one(2), one(3), one(4), f!(1), l!(1), p)),
            fill_scaled_vt_data => ask!(has_zg_fill_scaled_vt_data,
                zg_fill_scaled_vt_data(f!(0), l!(0), f!(1), l!(1), one(2), one(3), one(4), one(5), f!(2), l!(2), p)),
            chain_of_sites => ask!(has_zg_chain_of_sites,
                zg_chain_of_sites(f!(0), l!(0), one(1), call.float(2), one(3), f!(1), l!(1), w!(2), l!(2), w!(3), l!(3), w!(4), l!(4),
                    f!(5), l!(5), f!(6), l!(6), f!(7), l!(7), f!(8), l!(8), p, v.cast())),
            sqrt => ask!(has_zg_sqrt, { self.value = zg_sqrt(call.float(0)).to_bits(); never(p) }),
            sqrt_bits => ask!(has_zg_sqrt_bits, { self.value = zg_sqrt_bits(one(0) as u64); never(p) }),
            sqrt_marked => ask!(has_zg_sqrt_marked, { self.value = zg_sqrt_marked(call.float(0), e).to_bits(); never(p) }),
            magnitude => ask!(has_zg_magnitude, { self.value = one_nan(zg_magnitude(call.float(0))); never(p) }),
            sign => ask!(has_zg_sign, { self.value = one_nan(zg_sign(call.float(0))); never(p) }),
            is_finite => ask!(has_zg_is_finite, { self.value = u64::from(zg_is_finite(call.float(0))); never(p) }),
            component_allowed => ask!(has_zg_component_allowed, { self.value = u64::from(zg_component_allowed(call.float(0))); never(p) }),
            total_less => ask!(has_zg_total_less, { self.value = u64::from(zg_total_less(call.float(0), call.float(1))); never(p) }),
            modulus => ask!(has_zg_modulus, { self.value = zg_modulus(call.float(0), call.float(1)).to_bits(); never(p) }),
            total_order => ask!(has_zg_total_order, { self.value = u64::from(zg_total_order(call.float(0), call.float(1))); never(p) }),
        }
    }
}

/// One root by the port; none where the library lacks it.
#[inline]
#[allow(unused_variables)]
pub fn root(x: f64) -> Option<f64> {
    #[cfg(has_zg_sqrt)]
    // SAFETY: a number is handed over and one comes back.
    return Some(unsafe { zg_sqrt(x) });
    #[allow(unreachable_code)]
    None
}

/// The sheet of a lot by the port; none where the library lacks it or refuses the lot.
#[allow(unused_variables)]
pub fn lot_sheet(lot: &[u8]) -> Option<[usize; 32]> {
    #[cfg(has_zg_lot_sheet)]
    {
        let (mut sheet, mut place) = ([0; 32], 0);
        // SAFETY: the lot is borrowed with its length, the sheet has the 32 numbers that are written.
        let number = unsafe { zg_lot_sheet(lot.as_ptr(), lot.len(), sheet.as_mut_ptr(), &raw mut place) };
        return (number == 0).then_some(sheet);
    }
    #[allow(unreachable_code)]
    None
}

/// Factors countersigned by the port: the answer's number, and yes or no, the test, its first failing cell; none where the library lacks it.
#[allow(unused_variables)]
pub fn countersign(a: &[f64], m: usize, n: usize, u: &[f64], s: &[f64], vt: &[f64], tolerance: u64) -> Option<(u32, (bool, usize, usize))> {
    #[cfg(has_zg_countersign)]
    {
        let (mut place, mut yes, mut test, mut cell) = (0, false, 0, 0);
        let [(a, a_len), (u, u_len), (s, s_len), (vt, vt_len)] = [a, u, s, vt].map(|slice| (slice.as_ptr(), slice.len()));
        let (p, y, t, c) = (&raw mut place, &raw mut yes, &raw mut test, &raw mut cell);
        // SAFETY: every slice is borrowed with its length, and the results are stored in locals.
        let number = unsafe { zg_countersign(a, a_len, m, n, u, u_len, s, s_len, vt, vt_len, tolerance, p, y, t, c) };
        return Some((number, (yes, test, cell)));
    }
    #[allow(unreachable_code)]
    None
}

/// A slab: its numbers as their bits, and its index. A call gives the answer's number, or none where the library lacks it.
pub struct Slab {
    pub cells: Vec<u64>,
    pub index: [u32; 193],
}

#[allow(unused_variables)]
impl Slab {
    #[allow(clippy::new_without_default)]
    pub fn new() -> Slab {
        Slab { cells: vec![0; 8192], index: [0; 193] }
    }

    /// The pointers that a call takes: to 8,192 numbers, and to 193.
    #[allow(dead_code)]
    fn lent(&mut self) -> (*mut f64, *mut u32) {
        assert_eq!(self.cells.len(), 8192);
        (self.cells.as_mut_ptr().cast(), self.index.as_mut_ptr())
    }

    // SAFETY of all three: a slab has the 8,192 numbers and the index of 193 that are read and written, and data is borrowed with its length.
    pub fn put(&mut self, site: u32, data: &[u64]) -> Option<u32> {
        #[cfg(has_zg_slab_put)]
        let ((cells, index), mut place) = (self.lent(), 0);
        ask!(has_zg_slab_put, zg_slab_put(cells, index, site, data.as_ptr().cast(), data.len(), &raw mut place))
    }

    pub fn drop(&mut self, site: u32) -> Option<u32> {
        #[cfg(has_zg_slab_drop)]
        let ((cells, index), mut place) = (self.lent(), 0);
        ask!(has_zg_slab_drop, zg_slab_drop(cells, index, site, &raw mut place))
    }

    pub fn replace(&mut self, site: u32, data: &[u64]) -> Option<u32> {
        #[cfg(has_zg_slab_replace)]
        let ((cells, index), mut place) = (self.lent(), 0);
        ask!(has_zg_slab_replace, zg_slab_replace(cells, index, site, data.as_ptr().cast(), data.len(), &raw mut place))
    }
}

/// A call of the entropy band under cap 13, in buffers that are lent: the answer's number, and the band's ends and whole; none where the
/// library lacks it.
#[allow(unused_variables)]
pub fn entropy_band(state: &[f64], n: usize, list: &[usize], bands: &mut [usize], scratch: &mut [f64]) -> Option<(u32, [u64; 3])> {
    #[cfg(has_zg_entropy_band)]
    {
        let (mut place, mut count, mut sweeps, mut quiet, mut turned) = (0, 0, 0, false, 0);
        let [mut low, mut high, mut whole] = [0; 3];
        // SAFETY: every slice is borrowed with its length, and the results are stored in locals.
        let number = unsafe {
            zg_entropy_band(
                state.as_ptr(),
                state.len(),
                n,
                list.as_ptr(),
                list.len(),
                13,
                bands.as_mut_ptr(),
                bands.len(),
                scratch.as_mut_ptr(),
                scratch.len(),
                &raw mut place,
                &raw mut count,
                &raw mut low,
                &raw mut high,
                &raw mut whole,
                &raw mut sweeps,
                &raw mut quiet,
                &raw mut turned,
            )
        };
        return Some((number, [low, high, whole]));
    }
    #[allow(unreachable_code)]
    None
}

/// The thirty numbers of the list's plan under cap 13, made at once and, where its qubits can be added one at a time, so made too; none
/// where the library refuses the list. An inner none where the two differ.
#[allow(unused_variables)]
pub fn plan_of(list: &[usize], n: usize) -> Option<Option<[usize; 30]>> {
    #[cfg(has_zg_cut_plan)]
    {
        let (mut plan, mut grown, mut place) = ([0; 30], [0; 30], 0);
        let p = &raw mut place;
        // SAFETY: the list is borrowed with its length, a plan has the thirty numbers that are read and written.
        let first = unsafe { zg_cut_plan(list.as_ptr(), list.len(), n, 13, plan.as_mut_ptr(), p) };
        if first != 0 {
            return None;
        }
        // SAFETY: as above.
        let mut number = unsafe { zg_cut_plan(list.as_ptr(), 1, n, 13, grown.as_mut_ptr(), p) };
        for &qubit in &list[1..] {
            // SAFETY: as above.
            number |= unsafe { zg_plan_add(grown.as_mut_ptr(), qubit, p) };
        }
        return Some((number == 0 && plan == grown).then_some(plan));
    }
    #[allow(unreachable_code)]
    None
}

/// What a call of the certificate leaves: its answer, the length that it says, and the whole lent text.
#[derive(Clone, Debug, PartialEq, Eq)]
pub struct Told {
    pub number: u32,
    pub place: usize,
    pub length: usize,
    pub text: Vec<u8>,
}

/// Page one, or both pages, into `room` bytes that hold `FILLED` before; none where the library lacks the call. What is written behind
/// the room shows as text that is longer than the room.
#[allow(unused_variables)]
pub fn certificate(file: &[u8], both: bool, room: usize) -> Option<Told> {
    #[cfg(all(has_zg_certificate, has_zg_certificate_pages))]
    {
        let mut text = vec![FILLED; room + 64];
        let (mut place, mut length) = (usize::MAX, usize::MAX);
        let call = if both { zg_certificate_pages } else { zg_certificate };
        // SAFETY: the file is borrowed with its length, and the text is longer than the length behind it says.
        let number =
            unsafe { call(file.as_ptr(), file.len(), text.as_mut_ptr(), room, &raw mut place, &raw mut length) };
        if text[room..].iter().all(|&byte| byte == FILLED) {
            text.truncate(room);
        }
        return Some(Told { number, place, length, text });
    }
    #[allow(unreachable_code)]
    None
}

/// No byte of a printout.
pub const FILLED: u8 = 0xA5;

/// What the planned call leaves, of a call of the cut matrix, the cut values or the density whose list has this plan.
#[allow(unused_variables, unused_mut)]
pub fn planned(call: &Call, plan: &[usize; 30]) -> Option<Option<Outcome>> {
    let mut ready = Ready::new(call);
    let number = ready.make_planned(plan)?;
    Some(ready.outcome(number))
}

impl Ready<'_> {
    /// Makes the planned call: its answer's number, or none where the library does not have it.
    #[rustfmt::skip]
    #[allow(unused_variables, unused_macros)]
    pub fn make_planned(&mut self, plan: &[usize; 30]) -> Option<u32> {
        let w = plan.as_ptr();
        let p = &raw mut self.place;
        let v = (&raw mut self.value).cast::<usize>();
        let (s, q, t) = (&raw mut self.sweeps, (&raw mut self.quiet).cast::<bool>(), &raw mut self.turned);
        let e = (&raw mut self.exact).cast::<bool>();
        macro_rules! f { ($slice:literal) => { self.pointer($slice).cast::<f64>() } }
        macro_rules! l { ($slice:literal) => { self.length($slice) } }
        match self.call.entry {
            cut_matrix => ask!(has_zg_planned_cut_matrix, zg_planned_cut_matrix(f!(0), l!(0), w, f!(2), l!(2), p)),
            dense_schmidt_values => ask!(has_zg_planned_schmidt_values,
                zg_planned_schmidt_values(f!(0), l!(0), w, f!(2), l!(2), f!(3), l!(3), p, v, s, q, t, e)),
            dense_reduced_density => ask!(has_zg_planned_reduced_density,
                zg_planned_reduced_density(f!(0), l!(0), w, f!(2), l!(2), f!(3), l!(3), p)),
            _ => None,
        }
    }
}
