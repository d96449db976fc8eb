/* Each length of zegrafult_sizes.h: lent slices of that length are taken, and one number less is refused by 6 at that slice. Also C++.
 * Build: cc -std=c99 -I include bindings/c/sizes.c target/staticlib/libexports.a -o sizes */
#include "zegrafult.h"
#include "zegrafult_sizes.h"
#include "zegrafult_version.h"

#include <stdio.h>
#include <string.h>

enum { ROOM = 8 * ZG_CELLS + 4 * ZG_SIDE, MOST = 9 };

static double state[2 * ZG_CELLS], matrix[2 * ZG_CELLS], square[2 * ZG_CELLS], ones[2 * ZG_CELLS], lent[MOST][ROOM];
static const size_t list[] = {0, 1, 2, 3, 4, 5, 6, 7, 8, 9, 10, 11};
static size_t whole[ZG_CELLS], heads[22], ranks[11], bonds[13], starts[13], place, count, sweeps, turned;
static uint64_t low, high, all;
static bool quiet, exact;

/* The sizes that are tried: qubits and listed qubits, rows and columns, a square's side. */
static size_t n, k, m, c, dim;

/* A call whose slices have the lengths len[0], len[1].. in the order of their numbers, those of lists left out. */
typedef uint32_t call_of(const size_t *len);

static uint32_t row_offsets(const size_t *len) { return zg_row_offsets(list, k, n, ZG_CAP, whole, len[0], &place); }
static uint32_t smaller_side(const size_t *len) { return zg_smaller_side(list, k, n, ZG_CAP, whole, len[0], &place); }
static uint32_t cut_matrix(const size_t *len) { return zg_cut_matrix(state, len[0], n, list, k, ZG_CAP, lent[0], len[1], &place); }
static uint32_t density(const size_t *len) {
    return zg_dense_reduced_density(state, len[0], n, list, k, ZG_CAP, lent[0], len[1], lent[1], len[2], &place);
}
static uint32_t from_cut(const size_t *len) {
    return zg_density_from_cut(state, len[0], n, list, k, ZG_CAP, lent[0], len[1], &place);
}
static uint32_t mirror(const size_t *len) {
    memcpy(lent[0], square, sizeof square);
    return zg_mirror_lower_triangle(lent[0], len[0], dim, &place);
}
static uint32_t trace(const size_t *len) {
    memcpy(lent[0], square, sizeof square);
    return zg_normalize_trace(lent[0], len[0], dim, &place);
}
static uint32_t block(const size_t *len) {
    memcpy(lent[0], square, sizeof square);
    return zg_multiply_block_factor(lent[0], len[0], 4, list, 1, ones, len[1], 2, &place);
}
static uint32_t svd(const size_t *len) {
    return zg_svd_jacobi(matrix, len[0], m, c, lent[0], len[1], lent[1], len[2], lent[2], len[3], lent[3], len[4], &place, &sweeps,
                         &quiet, &turned);
}
static uint32_t qr(const size_t *len) {
    return zg_factorize_gram_schmidt(matrix, len[0], m, c, lent[0], len[1], lent[1], len[2], lent[2], len[3], &place, &count);
}
static uint32_t finish(const size_t *len) { return zg_finish_schmidt_values(ones, dim, lent[0], len[0], &place, &count); }
static uint32_t eigenvalues(const size_t *len) {
    return zg_hermitian_eigenvalues(square, len[0], dim, lent[0], len[1], lent[1], len[2], &place, &sweeps, &quiet, &turned);
}
static uint32_t from_density(const size_t *len) {
    return zg_schmidt_values_from_density(square, len[0], dim, lent[0], len[1], lent[1], len[2], &place, &count, &sweeps, &quiet, &turned);
}
static uint32_t eigen(const size_t *len) {
    return zg_hermitian_eigen(square, len[0], dim, lent[0], len[1], lent[1], len[2], lent[2], len[3], &place, &sweeps, &quiet, &turned);
}
static uint32_t cut_values(const size_t *len) {
    return zg_dense_schmidt_values(state, len[0], n, list, k, ZG_CAP, lent[0], len[1], lent[1], len[2], &place, &count, &sweeps, &quiet,
                                   &turned, &exact);
}
/* The plan of the list at hand. */
static zg_plan kept;
static uint32_t planned_cut(const size_t *len) { return zg_planned_cut_matrix(state, len[0], &kept, lent[0], len[1], &place); }
static uint32_t planned_values(const size_t *len) {
    return zg_planned_schmidt_values(state, len[0], &kept, lent[0], len[1], lent[1], len[2], &place, &count, &sweeps, &quiet, &turned,
                                     &exact);
}
static uint32_t planned_density(const size_t *len) {
    return zg_planned_reduced_density(state, len[0], &kept, lent[0], len[1], lent[1], len[2], &place);
}
static uint32_t entropy(const size_t *len) {
    return zg_entropy_band(state, len[0], n, list, k, ZG_CAP, whole, len[1], lent[0], len[2], &place, &count, &low, &high, &all, &sweeps,
                           &quiet, &turned);
}
static uint32_t chain(const size_t *len) {
    return zg_chain_of_sites(state, len[0], n, 1e-12, k, lent[0], len[1], bonds, len[2], starts, len[3], whole, len[4], lent[1], len[5],
                             lent[2], len[6], lent[3], len[7], lent[4], len[8], &place, &count);
}
static uint32_t profile(const size_t *len) {
    return zg_cut_profile(state, len[0], n, ZG_CAP, heads, len[1], lent[0], len[2], lent[1], len[3], ranks, len[4], whole, len[5], lent[2],
                          len[6], &place);
}
static uint32_t isometry(const size_t *len) {
    return zg_fill_isometry_site_data(matrix, 2 * ZG_CELLS, 2 * m, m, c, lent[0], len[0], &place);
}
static uint32_t scaled_u(const size_t *len) {
    return zg_fill_scaled_u_site_data(matrix, 2 * ZG_CELLS, ones, 2 * ZG_CELLS, 2 * m, m, c, lent[0], len[0], &place);
}
static uint32_t fill_vt(const size_t *len) {
    return zg_fill_vt_site_data(matrix, 2 * ZG_CELLS, 2 * c, m, 2, c, lent[0], len[0], &place);
}
static uint32_t scaled_vt(const size_t *len) {
    return zg_fill_scaled_vt_data(ones, 2 * ZG_CELLS, matrix, 2 * ZG_CELLS, 2 * c, m, 2, c, lent[0], len[0], &place);
}

static int tried, failed;

static void wrong(const char *name, size_t slice, uint32_t answer) {
    printf("%s: slice %lu, answer %lu at %lu: %s\n", name, (unsigned long)slice, (unsigned long)answer, (unsigned long)place,
           zg_answer_text(answer));
    failed = 1;
}

/* count slices, their numbers in the header, their lengths. */
static void shown(const char *name, call_of *call, size_t slices, const size_t *numbers, const size_t *lengths) {
    size_t len[MOST], i;
    uint32_t answer;

    memcpy(len, lengths, slices * sizeof *len);
    answer = call(len);
    if (answer != ZG_DONE)
        wrong(name, 99, answer);
    for (i = 0; i < slices; i++) {
        if (len[i] == 0)
            continue;
        len[i]--;
        answer = call(len);
        if (answer != ZG_LENGTH || place != numbers[i])
            wrong(name, numbers[i], answer);
        len[i]++;
        tried++;
    }
}

#define SHOW(call, slices, numbers, ...)                         \
    do {                                                         \
        const size_t at_[] = numbers, need_[] = {__VA_ARGS__};   \
        shown(#call, call, slices, at_, need_);                  \
    } while (0)
#define ONE {1}
#define ZERO {0}
#define TWO {2}
#define ZERO_TWO {0, 2}
#define ZERO_TWO_THREE {0, 2, 3}
#define TO_TWO {0, 1, 2}
#define TO_THREE {0, 1, 2, 3}
#define TO_FOUR {0, 1, 2, 3, 4}
#define TO_SIX {0, 1, 2, 3, 4, 5, 6}
#define TO_EIGHT {0, 1, 2, 3, 4, 5, 6, 7, 8}

static void lists(void) {
    SHOW(row_offsets, 1, ONE, zg_row_offsets_out_len(k));
    SHOW(density, 3, ZERO_TWO_THREE, zg_state_len(n), zg_dense_reduced_density_out_len(k), zg_dense_reduced_density_scratch_len(k));
    SHOW(chain, 9, TO_EIGHT, zg_state_len(n), zg_chain_of_sites_sites_len(n, k), zg_chain_of_sites_bonds_len(n),
         zg_chain_of_sites_starts_len(n), zg_chain_of_sites_marks_len(n), zg_chain_of_sites_matrix_len(n), zg_chain_of_sites_u_len(n),
         zg_chain_of_sites_vt_len(n), zg_chain_of_sites_scratch_len(n));
    if (n > 1)
        SHOW(profile, 7, TO_SIX, zg_state_len(n), zg_cut_profile_header_len(n), zg_cut_profile_values_len(n), zg_cut_profile_largest_len(n),
             zg_cut_profile_ranks_len(n), zg_cut_profile_marks_len(n), zg_cut_profile_scratch_len(n));
    if (k == n)
        return;
    SHOW(smaller_side, 1, ONE, zg_smaller_side_others_len(n, k));
    SHOW(cut_matrix, 2, ZERO_TWO, zg_state_len(n), zg_cut_matrix_out_len(n));
    SHOW(from_cut, 2, ZERO_TWO, zg_state_len(n), zg_density_from_cut_out_len(k));
    SHOW(cut_values, 3, ZERO_TWO_THREE, zg_state_len(n), zg_dense_schmidt_values_out_len(n, k), zg_dense_schmidt_values_scratch_len(n, k));
    SHOW(entropy, 3, ZERO_TWO_THREE, zg_state_len(n), zg_entropy_band_bands_len(n, k), zg_entropy_band_scratch_len(n, k));
    if (zg_cut_plan(list, k, n, ZG_CAP, &kept, &place) != ZG_DONE)
        failed = 1;
    SHOW(planned_cut, 2, ZERO_TWO, zg_state_len(n), zg_planned_cut_matrix_out_len(n));
    SHOW(planned_values, 3, ZERO_TWO_THREE, zg_state_len(n), zg_planned_schmidt_values_out_len(n, k),
         zg_planned_schmidt_values_scratch_len(n, k));
    SHOW(planned_density, 3, ZERO_TWO_THREE, zg_state_len(n), zg_planned_reduced_density_out_len(k),
         zg_planned_reduced_density_scratch_len(k));
}

static void matrices(void) {
    SHOW(svd, 5, TO_FOUR, zg_matrix_len(m, c), zg_svd_jacobi_u_len(m, c), zg_svd_jacobi_s_len(m, c), zg_svd_jacobi_vt_len(m, c),
         zg_svd_jacobi_scratch_len(m, c));
    SHOW(qr, 4, TO_THREE, zg_matrix_len(m, c), zg_factorize_gram_schmidt_q_len(m, c), zg_factorize_gram_schmidt_r_len(m, c),
         zg_factorize_gram_schmidt_scratch_len(m, c));
    if (2 * m * c > ZG_CELLS)
        return;
    SHOW(isometry, 1, ONE, zg_fill_isometry_site_data_out_len(m, c));
    SHOW(scaled_u, 1, TWO, zg_fill_scaled_u_site_data_out_len(m, c));
    SHOW(fill_vt, 1, ONE, zg_fill_vt_site_data_out_len(m, 2, c));
    SHOW(scaled_vt, 1, TWO, zg_fill_scaled_vt_data_out_len(m, 2, c));
}

/* A Hermitian matrix of the side at hand. */
static void squares(void) {
    size_t i;

    memset(square, 0, sizeof square);
    for (i = 0; i < dim; i++)
        square[2 * (i * dim + i)] = (double)(1 + i % 5);
    SHOW(mirror, 1, ZERO, zg_mirror_lower_triangle_rho_len(dim));
    SHOW(trace, 1, ZERO, zg_normalize_trace_rho_len(dim));
    if (dim == 4)
        SHOW(block, 2, ZERO_TWO, zg_multiply_block_factor_rho_len(dim), zg_square_len(2));
    SHOW(finish, 1, ONE, zg_finish_schmidt_values_out_len(dim));
    SHOW(eigenvalues, 3, TO_TWO, zg_square_len(dim), zg_hermitian_eigenvalues_out_len(dim), zg_hermitian_eigenvalues_scratch_len(dim));
    SHOW(from_density, 3, TO_TWO, zg_square_len(dim), zg_schmidt_values_from_density_out_len(dim),
         zg_schmidt_values_from_density_scratch_len(dim));
    SHOW(eigen, 4, TO_THREE, zg_square_len(dim), zg_hermitian_eigen_values_len(dim), zg_hermitian_eigen_vectors_len(dim),
         zg_hermitian_eigen_scratch_len(dim));
}

/* The certificates of a file of two qubits. */
static unsigned char file[96], text[1 << 17];
static uint32_t certificate(const size_t *len) { return zg_certificate(file, sizeof file, text, len[0], &place, &count); }
static uint32_t certificate_pages(const size_t *len) { return zg_certificate_pages(file, sizeof file, text, len[0], &place, &count); }
static void certificates(void) {
    static const uint32_t head[] = {0x31545543, 2, 1, 24, 32, 96, 0, 0};
    const double one = 1.0;
    memcpy(file, head, sizeof head);
    memcpy(file + 32, &one, sizeof one);
    SHOW(certificate, 1, ONE, zg_certificate_text_len());
    SHOW(certificate_pages, 1, ONE, zg_certificate_pages_text_len());
}

int main(void) {
    static const size_t qubits[][2] = {{1, 1}, {2, 1}, {3, 2}, {5, 4}, {6, 3}, {12, 6}, {7, 6}};
    static const size_t shapes[][2] = {{1, 1}, {2, 3}, {7, 4}, {32, 64}, {1, 4096}, {64, 64}};
    static const size_t sides[] = {1, 2, 4, 17, 64};
    const size_t huge = (size_t)-1;
    size_t i;

    for (i = 0; i < ZG_CELLS; i++) {
        state[2 * i] = matrix[2 * i] = 1.0 / (double)(1 + i % 97);
        state[2 * i + 1] = matrix[2 * i + 1] = 1.0 / (double)(1 + i % 89);
        ones[2 * i] = ones[2 * i + 1] = 1.0;
    }
    for (i = 0; i < sizeof qubits / sizeof qubits[0]; i++)
        n = qubits[i][0], k = qubits[i][1], lists();
    for (i = 0; i < sizeof shapes / sizeof shapes[0]; i++)
        m = shapes[i][0], c = shapes[i][1], matrices();
    for (i = 0; i < sizeof sides / sizeof sides[0]; i++)
        dim = sides[i], squares();
    certificates();
    if (zg_state_len(13) || zg_state_len(64) || zg_matrix_len(huge, huge) || zg_svd_jacobi_u_len(huge, 2) || zg_thin(0, 5) ||
        zg_square_len((size_t)1 << 33) || zg_fill_vt_site_data_out_len(huge, huge, huge) || zg_svd_jacobi_scratch_len(65, 64) ||
        zg_dense_reduced_density_out_len(7) || zg_side(2, 3)) {
        puts("a size that the library does not take has a length");
        failed = 1;
    }
    if (zg_version() != ZEGRAFULT_VERSION_NUMBER || strcmp(zg_version_text(), ZEGRAFULT_VERSION) != 0) {
        printf("the library's version is %lu, the headers' %s\n", (unsigned long)zg_version(), ZEGRAFULT_VERSION);
        failed = 1;
    }
    if (!failed)
        printf("sizes: %d lengths are taken, and one less is refused by 6 at its slice\n", tried);
    return failed;
}
