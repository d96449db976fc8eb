/* The answers of zegrafult.h by name, and how many numbers each lent slice needs: zg_CALL_SLICE_len for every slice that a call
 * writes, and the exact lengths of what it reads. Lengths are in numbers, as the calls take them: a complex cell is two.
 *
 *    double *scratch = malloc(zg_svd_jacobi_scratch_len(m, n) * sizeof *scratch);
 *
 * For sizes that the library does not take, a length is 0 and never wraps around: the call then refuses by 1 before it looks at a
 * slice. Nothing here is proved; bindings/c/sizes.c tries each: the length is taken, one less is refused by 6. */
#ifndef ZEGRAFULT_SIZES_H
#define ZEGRAFULT_SIZES_H

#include <stddef.h>
#include <stdint.h>

#ifdef __cplusplus
extern "C" {
#endif

/* The largest cap that counts, the most qubits of a register, the most cells of a matrix, and the arrays of a slab. */
#define ZG_CAP 13
#define ZG_QUBITS 12
#define ZG_CELLS 4096
#define ZG_SIDE 64
#define ZG_SLAB_NUMBERS 8192
#define ZG_SLAB_INDEX 193

/* What a call answers. */
enum zg_answer {
    ZG_DONE = 0,
    ZG_SIZE = 1,              /* a size is broken */
    ZG_QUBIT_OUTSIDE = 2,     /* a listed qubit is n or more; place: list position */
    ZG_QUBIT_TWICE = 3,       /* a listed qubit stood earlier; place: list position */
    ZG_LIST_EMPTY = 4,        /* the list is empty */
    ZG_LIST_WHOLE = 5,        /* a cut's list names every qubit */
    ZG_LENGTH = 6,            /* a length is wrong; place: which slice */
    ZG_COMPONENT = 7,         /* a component is not finite or above 2^200; place: cell */
    ZG_NO_WEIGHT = 8,         /* nothing is left above a floor, or a trace is zero */
    ZG_NOT_FINITE = 9,        /* a result is not finite */
    ZG_FILE = 10,             /* a malformed file */
    ZG_OFF_GRID = 11,         /* a component off the grid; place: cell */
    ZG_QUBIT_NOT_LISTED = 12, /* a qubit is not listed */
    ZG_SITE_NUMBER = 13,      /* a site number is not held, or is held already */
    ZG_NO_RUN = 14,           /* no free run is long enough */
    ZG_SITES_FULL = 15,       /* sixty-four sites are held */
    ZG_LOT = 16               /* a broken lot */
};

/* The meaning of an answer, for people. */
static inline const char *zg_answer_text(uint32_t answer) {
    switch (answer) {
    case ZG_DONE: return "done";
    case ZG_SIZE: return "a size is out of the range that the library takes";
    case ZG_QUBIT_OUTSIDE: return "a listed qubit is not in the register";
    case ZG_QUBIT_TWICE: return "a qubit is listed twice";
    case ZG_LIST_EMPTY: return "the list of qubits is empty";
    case ZG_LIST_WHOLE: return "the list names every qubit, so nothing is cut off";
    case ZG_LENGTH: return "a slice has a wrong length";
    case ZG_COMPONENT: return "a cell is not a number, infinite or above 2^200 in magnitude";
    case ZG_NO_WEIGHT: return "the data have no weight: nothing is left above the floor, or the trace is zero";
    case ZG_NOT_FINITE: return "the arithmetic gave a number that is not finite";
    case ZG_FILE: return "the file is not a cut file";
    case ZG_OFF_GRID: return "a cell is not a whole number of 2^-18 of magnitude at most 1";
    case ZG_QUBIT_NOT_LISTED: return "the qubit is not listed";
    case ZG_SITE_NUMBER: return "the site number is not held, or is held already";
    case ZG_NO_RUN: return "no run of free cells is long enough";
    case ZG_SITES_FULL: return "sixty-four sites are held";
    case ZG_LOT: return "the lot's header is broken";
    default: return "the answer is not in the table";
    }
}

/* ---- what the lengths are made of */

/* 2^q for q up to 12, else 0. */
static inline size_t zg_power(size_t q) { return q <= ZG_QUBITS ? (size_t)1 << q : 0; }
/* a*b where that is at most 4096, else 0. */
static inline size_t zg_area(size_t a, size_t b) { return b != 0 && a > ZG_CELLS / b ? 0 : a * b; }
/* The smaller of k and n - k, the side of a cut. */
static inline size_t zg_side(size_t n, size_t k) { return n < k ? 0 : k < n - k ? k : n - k; }
/* The smaller of m and n where a matrix may be m by n, else 0. */
static inline size_t zg_thin(size_t m, size_t n) { return zg_area(m, n) == 0 ? 0 : m < n ? m : n; }

/* ---- what is read: exact lengths */

/* A state of n qubits, and a cut matrix. */
static inline size_t zg_state_len(size_t n) { return 2 * zg_power(n); }
/* A matrix of m by n cells. */
static inline size_t zg_matrix_len(size_t m, size_t n) { return 2 * zg_area(m, n); }
/* A square matrix of dim by dim cells. */
static inline size_t zg_square_len(size_t dim) { return 2 * zg_area(dim, dim); }

/* ---- lists and the cut; k is the length of the list */

static inline size_t zg_row_offsets_out_len(size_t k) { return zg_power(k); }
/* 0 where the list is the smaller side. */
static inline size_t zg_smaller_side_others_len(size_t n, size_t k) {
    return n <= ZG_QUBITS && k <= n && n - k < k ? n - k : 0;
}
static inline size_t zg_cut_matrix_out_len(size_t n) { return zg_state_len(n); }

/* ---- densities */

static inline size_t zg_dense_reduced_density_out_len(size_t k) { return zg_square_len(zg_power(k)); }
static inline size_t zg_dense_reduced_density_scratch_len(size_t k) { return 2 * zg_power(k); }
static inline size_t zg_density_from_cut_out_len(size_t k) { return zg_square_len(zg_power(k)); }
static inline size_t zg_mirror_lower_triangle_rho_len(size_t dim) { return zg_square_len(dim); }
static inline size_t zg_normalize_trace_rho_len(size_t dim) { return zg_square_len(dim); }
static inline size_t zg_multiply_block_factor_rho_len(size_t dim) { return zg_square_len(dim); }

/* ---- factors */

static inline size_t zg_svd_jacobi_u_len(size_t m, size_t n) { return 2 * zg_thin(m, n) * m; }
static inline size_t zg_svd_jacobi_s_len(size_t m, size_t n) { return zg_thin(m, n); }
static inline size_t zg_svd_jacobi_vt_len(size_t m, size_t n) { return 2 * zg_thin(m, n) * n; }
static inline size_t zg_svd_jacobi_scratch_len(size_t m, size_t n) { return 6 * zg_area(m, n) + 2 * zg_thin(m, n); }
static inline size_t zg_factorize_gram_schmidt_q_len(size_t rows, size_t cols) { return 2 * zg_thin(rows, cols) * rows; }
static inline size_t zg_factorize_gram_schmidt_r_len(size_t rows, size_t cols) { return 2 * zg_thin(rows, cols) * cols; }
static inline size_t zg_factorize_gram_schmidt_scratch_len(size_t rows, size_t cols) {
    return zg_area(rows, cols) == 0 ? 0 : 2 * rows;
}

/* ---- spectra */

static inline size_t zg_finish_schmidt_values_out_len(size_t values) { return values <= ZG_SIDE ? values : 0; }
static inline size_t zg_hermitian_eigenvalues_out_len(size_t dim) { return zg_thin(dim, dim); }
static inline size_t zg_hermitian_eigenvalues_scratch_len(size_t dim) { return zg_square_len(dim); }
static inline size_t zg_schmidt_values_from_density_out_len(size_t dim) { return zg_thin(dim, dim); }
static inline size_t zg_schmidt_values_from_density_scratch_len(size_t dim) { return zg_square_len(dim); }
static inline size_t zg_hermitian_eigen_values_len(size_t dim) { return zg_thin(dim, dim); }
static inline size_t zg_hermitian_eigen_vectors_len(size_t dim) { return zg_square_len(dim); }
static inline size_t zg_hermitian_eigen_scratch_len(size_t dim) { return 6 * zg_area(dim, dim) + 2 * zg_thin(dim, dim); }
static inline size_t zg_dense_schmidt_values_out_len(size_t n, size_t k) { return zg_power(zg_side(n, k)); }
static inline size_t zg_dense_schmidt_values_scratch_len(size_t n, size_t k) {
    return 8 * zg_power(n) + 2 * zg_power(zg_side(n, k));
}
/* Of a plan's n and k. */
static inline size_t zg_planned_cut_matrix_out_len(size_t n) { return zg_state_len(n); }
static inline size_t zg_planned_schmidt_values_out_len(size_t n, size_t k) { return zg_dense_schmidt_values_out_len(n, k); }
static inline size_t zg_planned_schmidt_values_scratch_len(size_t n, size_t k) {
    return zg_dense_schmidt_values_scratch_len(n, k);
}
static inline size_t zg_planned_reduced_density_out_len(size_t k) { return zg_dense_reduced_density_out_len(k); }
static inline size_t zg_planned_reduced_density_scratch_len(size_t k) { return zg_dense_reduced_density_scratch_len(k); }
static inline size_t zg_entropy_band_bands_len(size_t n, size_t k) { return 3 * zg_power(zg_side(n, k)); }
static inline size_t zg_entropy_band_scratch_len(size_t n, size_t k) {
    return 8 * zg_power(n) + 2 * zg_power(zg_side(n, k));
}
/* All cuts of n qubits on one page. */
static inline size_t zg_cut_profile_cuts(size_t n) { return n < 2 || n > ZG_QUBITS ? 0 : n - 1; }
static inline size_t zg_cut_profile_header_len(size_t n) { return 2 * zg_cut_profile_cuts(n); }
static inline size_t zg_cut_profile_values_len(size_t n) {
    size_t k, values = 0;
    for (k = 1; k <= zg_cut_profile_cuts(n); k++)
        values += zg_power(zg_side(n, k));
    return values;
}
static inline size_t zg_cut_profile_largest_len(size_t n) { return zg_cut_profile_cuts(n); }
static inline size_t zg_cut_profile_ranks_len(size_t n) { return zg_cut_profile_cuts(n); }
static inline size_t zg_cut_profile_marks_len(size_t n) { return 4 * zg_cut_profile_cuts(n); }
static inline size_t zg_cut_profile_scratch_len(size_t n) { return zg_power(n) == 0 ? 0 : 8 * zg_power(n) + 2 * zg_power(n / 2); }

/* ---- sites */

static inline size_t zg_fill_isometry_site_data_out_len(size_t bond_left, size_t chi) {
    return 2 * zg_area(zg_area(2, bond_left), chi);
}
static inline size_t zg_fill_scaled_u_site_data_out_len(size_t bond_left, size_t chi) {
    return 2 * zg_area(zg_area(2, bond_left), chi);
}
static inline size_t zg_fill_vt_site_data_out_len(size_t chi, size_t physical_dim, size_t bond_right) {
    return 2 * zg_area(zg_area(chi, physical_dim), bond_right);
}
static inline size_t zg_fill_scaled_vt_data_out_len(size_t chi, size_t physical_dim, size_t bond_right) {
    return 2 * zg_area(zg_area(chi, physical_dim), bond_right);
}

/* ---- the chain */

/* The most that bond j of n qubits can be: 1 at both ends, inside the smallest of the limit, 2^j and 2^(n-j). */
static inline size_t zg_chain_bond(size_t n, size_t j, size_t limit) {
    size_t side = zg_power(zg_side(n, j));
    return j == 0 || j >= n ? 1 : side < limit ? side : limit;
}
static inline size_t zg_chain_of_sites_sites_len(size_t n, size_t limit) {
    size_t j, cells = 0;
    for (j = 0; zg_power(n) != 0 && j < n; j++)
        cells += 2 * zg_chain_bond(n, j, limit) * zg_chain_bond(n, j + 1, limit);
    return 2 * cells;
}
static inline size_t zg_chain_of_sites_bonds_len(size_t n) { return zg_power(n) == 0 ? 0 : n + 1; }
static inline size_t zg_chain_of_sites_starts_len(size_t n) { return zg_power(n) == 0 ? 0 : n + 1; }
static inline size_t zg_chain_of_sites_marks_len(size_t n) { return zg_power(n) == 0 || n == 0 ? 0 : 3 * (n - 1); }
static inline size_t zg_chain_of_sites_matrix_len(size_t n) { return zg_state_len(n); }
static inline size_t zg_chain_of_sites_u_len(size_t n) { return zg_state_len(n); }
static inline size_t zg_chain_of_sites_vt_len(size_t n) { return zg_state_len(n); }
static inline size_t zg_chain_of_sites_scratch_len(size_t n) { return zg_power(n) == 0 ? 0 : 6 * zg_power(n) + 2 * zg_power(n / 2); }

/* ---- the certificate as text, in bytes: of page one, and of both pages */

static inline size_t zg_certificate_text_len(void) { return 2048; }
static inline size_t zg_certificate_pages_text_len(void) { return 102400; }

#ifdef __cplusplus
}
#endif
#endif
