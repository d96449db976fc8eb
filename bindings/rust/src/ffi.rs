//! The declarations of `include/zegrafult.h`.

extern "C" {
    pub fn zg_version() -> u32;

    pub fn zg_sqrt(x: f64) -> f64;
    pub fn zg_sqrt_bits(b: u64) -> u64;
    pub fn zg_sqrt_marked(x: f64, exact: &mut bool) -> f64;
    pub fn zg_modulus(re: f64, im: f64) -> f64;
    pub fn zg_magnitude(x: f64) -> f64;
    pub fn zg_sign(x: f64) -> f64;
    pub fn zg_is_finite(x: f64) -> bool;
    pub fn zg_component_allowed(x: f64) -> bool;
    pub fn zg_total_less(x: f64, y: f64) -> bool;
    pub fn zg_total_order(x: f64, y: f64) -> u32;

    pub fn zg_validate_qubit_set(list: *const usize, list_len: usize, n: usize, place: &mut usize) -> u32;
    pub fn zg_validate_subsystem(list: *const usize, list_len: usize, n: usize, place: &mut usize) -> u32;
    pub fn zg_row_offsets(
        list: *const usize,
        list_len: usize,
        n: usize,
        cap: usize,
        out: *mut usize,
        out_len: usize,
        place: &mut usize,
    ) -> u32;
    pub fn zg_traced_base(
        e: usize,
        list: *const usize,
        list_len: usize,
        n: usize,
        cap: usize,
        place: &mut usize,
        base: &mut usize,
    ) -> u32;
    pub fn zg_smaller_side(
        list: *const usize,
        list_len: usize,
        n: usize,
        cap: usize,
        others: *mut usize,
        others_len: usize,
        place: &mut usize,
    ) -> u32;
    pub fn zg_cut_matrix(
        state: *const f64,
        state_len: usize,
        n: usize,
        list: *const usize,
        list_len: usize,
        cap: usize,
        out: *mut f64,
        out_len: usize,
        place: &mut usize,
    ) -> u32;
    pub fn zg_dense_reduced_density(
        state: *const f64,
        state_len: usize,
        n: usize,
        list: *const usize,
        list_len: usize,
        cap: usize,
        out: *mut f64,
        out_len: usize,
        scratch: *mut f64,
        scratch_len: usize,
        place: &mut usize,
    ) -> u32;
    pub fn zg_density_from_cut(
        matrix: *const f64,
        matrix_len: usize,
        n: usize,
        list: *const usize,
        list_len: usize,
        cap: usize,
        out: *mut f64,
        out_len: usize,
        place: &mut usize,
    ) -> u32;
    pub fn zg_pages_agree(
        state: *const f64,
        state_len: usize,
        n: usize,
        list: *const usize,
        list_len: usize,
        cap: usize,
        place: &mut usize,
        yes: &mut bool,
    ) -> u32;
    pub fn zg_mirror_lower_triangle(rho: *mut f64, rho_len: usize, dim: usize, place: &mut usize) -> u32;
    pub fn zg_normalize_trace(rho: *mut f64, rho_len: usize, dim: usize, place: &mut usize) -> u32;
    pub fn zg_multiply_block_factor(
        rho: *mut f64,
        rho_len: usize,
        dim: usize,
        positions: *const usize,
        positions_len: usize,
        factor: *const f64,
        factor_len: usize,
        side: usize,
        place: &mut usize,
    ) -> u32;
    pub fn zg_svd_jacobi(
        a: *const f64,
        a_len: usize,
        m: usize,
        n: usize,
        u: *mut f64,
        u_len: usize,
        s: *mut f64,
        s_len: usize,
        vt: *mut f64,
        vt_len: usize,
        scratch: *mut f64,
        scratch_len: usize,
        place: &mut usize,
        sweeps: &mut usize,
        quiet: &mut bool,
        turned: &mut usize,
    ) -> u32;
    pub fn zg_factorize_gram_schmidt(
        a: *const f64,
        a_len: usize,
        rows: usize,
        cols: usize,
        q: *mut f64,
        q_len: usize,
        r: *mut f64,
        r_len: usize,
        scratch: *mut f64,
        scratch_len: usize,
        place: &mut usize,
        rank: &mut usize,
    ) -> u32;
    pub fn zg_hermitian_eigenvalues(
        a: *const f64,
        a_len: usize,
        dim: usize,
        out: *mut f64,
        out_len: usize,
        scratch: *mut f64,
        scratch_len: usize,
        place: &mut usize,
        sweeps: &mut usize,
        quiet: &mut bool,
        turned: &mut usize,
    ) -> u32;
    pub fn zg_hermitian_eigen(
        matrix: *const f64,
        matrix_len: usize,
        dim: usize,
        values: *mut f64,
        values_len: usize,
        vectors: *mut f64,
        vectors_len: usize,
        scratch: *mut f64,
        scratch_len: usize,
        place: &mut usize,
        sweeps: &mut usize,
        quiet: &mut bool,
        turned: &mut usize,
    ) -> u32;
    pub fn zg_finish_schmidt_values(
        values: *const f64,
        values_len: usize,
        out: *mut f64,
        out_len: usize,
        place: &mut usize,
        count: &mut usize,
    ) -> u32;
    pub fn zg_schmidt_values_from_density(
        rho: *const f64,
        rho_len: usize,
        dim: usize,
        out: *mut f64,
        out_len: usize,
        scratch: *mut f64,
        scratch_len: usize,
        place: &mut usize,
        count: &mut usize,
        sweeps: &mut usize,
        quiet: &mut bool,
        turned: &mut usize,
    ) -> u32;
    pub fn zg_dense_schmidt_values(
        state: *const f64,
        state_len: usize,
        n: usize,
        list: *const usize,
        list_len: usize,
        cap: usize,
        out: *mut f64,
        out_len: usize,
        scratch: *mut f64,
        scratch_len: usize,
        place: &mut usize,
        count: &mut usize,
        sweeps: &mut usize,
        quiet: &mut bool,
        turned: &mut usize,
        exact: &mut bool,
    ) -> u32;
    pub fn zg_cut_profile(
        state: *const f64,
        state_len: usize,
        n: usize,
        cap: usize,
        header: *mut usize,
        header_len: usize,
        values: *mut f64,
        values_len: usize,
        largest: *mut f64,
        largest_len: usize,
        ranks: *mut usize,
        ranks_len: usize,
        marks: *mut usize,
        marks_len: usize,
        scratch: *mut f64,
        scratch_len: usize,
        place: &mut usize,
    ) -> u32;
    pub fn zg_entropy_band(
        state: *const f64,
        state_len: usize,
        n: usize,
        list: *const usize,
        list_len: usize,
        cap: usize,
        bands: *mut usize,
        bands_len: usize,
        scratch: *mut f64,
        scratch_len: usize,
        place: &mut usize,
        count: &mut usize,
        low: &mut u64,
        high: &mut u64,
        whole: &mut u64,
        sweeps: &mut usize,
        quiet: &mut bool,
        turned: &mut usize,
    ) -> u32;
    pub fn zg_truncated_svd_rank(
        values: *const f64,
        values_len: usize,
        epsilon: f64,
        max_bond_dim: usize,
        place: &mut usize,
        rank: &mut usize,
    ) -> u32;
    pub fn zg_discards_resolvable_weight(
        values: *const f64,
        values_len: usize,
        chi: usize,
        place: &mut usize,
        yes: &mut bool,
    ) -> u32;
    pub fn zg_cut_rank(
        bond_left: usize,
        bond_mid: usize,
        bond_right: usize,
        place: &mut usize,
        rank: &mut u64,
    ) -> u32;
    pub fn zg_widest_block_cut(
        bond_left: usize,
        bond_right: usize,
        n: usize,
        place: &mut usize,
        rank: &mut u64,
    ) -> u32;
    pub fn zg_fill_isometry_site_data(
        columns: *const f64,
        columns_len: usize,
        stride: usize,
        bond_left: usize,
        chi: usize,
        out: *mut f64,
        out_len: usize,
        place: &mut usize,
    ) -> u32;
    pub fn zg_fill_scaled_u_site_data(
        u: *const f64,
        u_len: usize,
        s: *const f64,
        s_len: usize,
        stride: usize,
        bond_left: usize,
        chi: usize,
        out: *mut f64,
        out_len: usize,
        place: &mut usize,
    ) -> u32;
    pub fn zg_fill_vt_site_data(
        vt: *const f64,
        vt_len: usize,
        row_len: usize,
        chi: usize,
        physical_dim: usize,
        bond_right: usize,
        out: *mut f64,
        out_len: usize,
        place: &mut usize,
    ) -> u32;
    pub fn zg_fill_scaled_vt_data(
        s: *const f64,
        s_len: usize,
        vt: *const f64,
        vt_len: usize,
        row_len: usize,
        chi: usize,
        physical_dim: usize,
        bond_right: usize,
        out: *mut f64,
        out_len: usize,
        place: &mut usize,
    ) -> u32;
    pub fn zg_countersign(
        a: *const f64,
        a_len: usize,
        m: usize,
        n: usize,
        u: *const f64,
        u_len: usize,
        s: *const f64,
        s_len: usize,
        vt: *const f64,
        vt_len: usize,
        tolerance: u64,
        place: &mut usize,
        yes: &mut bool,
        test: &mut usize,
        cell: &mut usize,
    ) -> u32;

    pub fn zg_chain_of_sites(
        state: *const f64,
        state_len: usize,
        n: usize,
        epsilon: f64,
        limit: usize,
        sites: *mut f64,
        sites_len: usize,
        bonds: *mut usize,
        bonds_len: usize,
        starts: *mut usize,
        starts_len: usize,
        marks: *mut usize,
        marks_len: usize,
        matrix: *mut f64,
        matrix_len: usize,
        u: *mut f64,
        u_len: usize,
        vt: *mut f64,
        vt_len: usize,
        scratch: *mut f64,
        scratch_len: usize,
        place: &mut usize,
        dropped: &mut usize,
    ) -> u32;

    pub fn zg_slab_put(
        cells: *mut f64,
        index: *mut u32,
        site: u32,
        data: *const f64,
        data_len: usize,
        place: &mut usize,
    ) -> u32;
    pub fn zg_slab_drop(cells: *mut f64, index: *mut u32, site: u32, place: &mut usize) -> u32;
    pub fn zg_slab_replace(
        cells: *mut f64,
        index: *mut u32,
        site: u32,
        data: *const f64,
        data_len: usize,
        place: &mut usize,
    ) -> u32;

    pub fn zg_lot_sheet(lot: *const u8, lot_len: usize, sheet: *mut usize, place: &mut usize) -> u32;

    pub fn zg_cut_plan(
        list: *const usize,
        list_len: usize,
        n: usize,
        cap: usize,
        plan: *mut usize,
        place: &mut usize,
    ) -> u32;
    pub fn zg_plan_add(plan: *mut usize, qubit: usize, place: &mut usize) -> u32;
    pub fn zg_plan_drop(plan: *mut usize, qubit: usize, place: &mut usize) -> u32;
    pub fn zg_plan_switch(plan: *mut usize, place: &mut usize) -> u32;

    pub fn zg_planned_cut_matrix(
        state: *const f64,
        state_len: usize,
        plan: *const usize,
        out: *mut f64,
        out_len: usize,
        place: &mut usize,
    ) -> u32;
    pub fn zg_planned_schmidt_values(
        state: *const f64,
        state_len: usize,
        plan: *const usize,
        out: *mut f64,
        out_len: usize,
        scratch: *mut f64,
        scratch_len: usize,
        place: &mut usize,
        count: &mut usize,
        sweeps: &mut usize,
        quiet: &mut bool,
        turned: &mut usize,
        exact: &mut bool,
    ) -> u32;
    pub fn zg_planned_reduced_density(
        state: *const f64,
        state_len: usize,
        plan: *const usize,
        out: *mut f64,
        out_len: usize,
        scratch: *mut f64,
        scratch_len: usize,
        place: &mut usize,
    ) -> u32;
    pub fn zg_certificate(
        file: *const u8,
        file_len: usize,
        text: *mut u8,
        text_len: usize,
        place: &mut usize,
        length: &mut usize,
    ) -> u32;
    pub fn zg_certificate_pages(
        file: *const u8,
        file_len: usize,
        text: *mut u8,
        text_len: usize,
        place: &mut usize,
        length: &mut usize,
    ) -> u32;
}
