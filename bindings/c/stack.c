/* The stack that each call needs, measured: a thread's stack is painted, the call works on its largest input there, and the depth
 * that is no longer painted is held to what docs/CONVENTIONS.md promises. Prints each call's need; status 1 where one needs more.
 * Build: cc -I include bindings/c/stack.c target/staticlib/libexports.a -lm -lpthread -o stack */
#define _GNU_SOURCE
#include "zegrafult.h"

#include <pthread.h>
#include <stdio.h>
#include <stdlib.h>
#include <string.h>

enum { STACK = 4 << 20, PAINT = 0xA5, CELLS = 4096, KB = 1024 };

static double state[2 * CELLS], matrix[2 * CELLS], square[2 * CELLS], out[2 * CELLS], more[2 * CELLS], third[2 * CELLS];
static double scratch[8 * CELLS + 128], factor[2 * CELLS];
static const size_t six[] = {0, 2, 4, 6, 8, 10}, low[] = {0, 1, 2, 3, 4, 5};
static const size_t eleven[] = {0, 1, 2, 3, 4, 5, 6, 7, 8, 9, 10};
static double sites[21840];
static size_t offsets[CELLS], bonds[13], starts[13], marks[44], place, count, sweeps, turned;
static size_t header[22], page_ranks[11];
static bool quiet, exact;
static uint64_t wide;
static uint32_t answer;
static volatile double number;
static volatile uint64_t bits;
static bool yes;

static void nothing(void) {}
static void numbers(void) {
    number = zg_sqrt(2.0) + zg_sqrt_marked(2.0, &exact) + zg_modulus(3.0, 4.0) + zg_magnitude(-1.0) + zg_sign(-0.0);
    bits = zg_sqrt_bits(0x4000000000000000u) + zg_is_finite(1.0) + zg_component_allowed(1.0) + zg_total_less(0.0, 1.0) + zg_total_order(0.0, 1.0) + zg_version();
    answer = 0;
}
static void qubit_set(void) { answer = zg_validate_qubit_set(eleven, 11, 12, &place); }
static void subsystem(void) { answer = zg_validate_subsystem(eleven, 11, 12, &place); }
static void row_offsets(void) { answer = zg_row_offsets(six, 6, 12, 13, offsets, CELLS, &place); }
static void traced_base(void) { answer = zg_traced_base(63, six, 6, 12, 13, &place, &count); }
static void smaller_side(void) { answer = zg_smaller_side(eleven, 11, 12, 13, offsets, CELLS, &place); }
static void cut_matrix(void) { answer = zg_cut_matrix(state, 2 * CELLS, 12, six, 6, 13, out, 2 * CELLS, &place); }
static void density(void) {
    answer = zg_dense_reduced_density(state, 2 * CELLS, 12, six, 6, 13, out, 2 * CELLS, scratch, 128, &place);
}
static void from_cut(void) { answer = zg_density_from_cut(state, 2 * CELLS, 12, six, 6, 13, out, 2 * CELLS, &place); }
static void pages(void) { answer = zg_pages_agree(state, 2 * CELLS, 12, six, 6, 13, &place, &yes); }
static void mirror(void) { answer = zg_mirror_lower_triangle(matrix, 2 * CELLS, 64, &place); }
static void trace(void) { answer = zg_normalize_trace(matrix, 2 * CELLS, 64, &place); }
static void block(void) { answer = zg_multiply_block_factor(matrix, 2 * CELLS, 64, low, 6, factor, 2 * CELLS, 64, &place); }
static void svd(void) {
    answer = zg_svd_jacobi(square, 2 * CELLS, 64, 64, out, 2 * CELLS, more, 64, third, 2 * CELLS, scratch, 6 * CELLS + 128, &place, &sweeps, &quiet, &turned);
}
static void qr(void) {
    answer = zg_factorize_gram_schmidt(square, 2 * CELLS, 64, 64, out, 2 * CELLS, third, 2 * CELLS, scratch, 128, &place, &count);
}
static void tall_qr(void) {
    answer = zg_factorize_gram_schmidt(square, 2 * CELLS, 4096, 1, out, 2 * CELLS, third, 2 * CELLS, scratch, 2 * CELLS, &place, &count);
}
static void finish(void) { answer = zg_finish_schmidt_values(factor, 64, out, 64, &place, &count); }
static void eigenvalues(void) {
    answer = zg_hermitian_eigenvalues(matrix, 2 * CELLS, 64, out, 64, scratch, 2 * CELLS, &place, &sweeps, &quiet, &turned);
}
static void from_density(void) {
    answer = zg_schmidt_values_from_density(matrix, 2 * CELLS, 64, out, 64, scratch, 2 * CELLS, &place, &count, &sweeps, &quiet, &turned);
}
static void eigen(void) {
    answer = zg_hermitian_eigen(matrix, 2 * CELLS, 64, more, 64, out, 2 * CELLS, scratch, 6 * CELLS + 128, &place, &sweeps, &quiet, &turned);
}
static void cut_values(void) {
    answer = zg_dense_schmidt_values(state, 2 * CELLS, 12, six, 6, 13, out, 64, scratch, 8 * CELLS + 128, &place, &count, &sweeps, &quiet, &turned, &exact);
}
static void profile(void) {
    answer = zg_cut_profile(state, 2 * CELLS, 12, 13, header, 22, more, 188, out, 11, page_ranks, 11, marks, 44, scratch, 8 * CELLS + 128, &place);
}
static void entropy(void) {
    static uint64_t sums[3];
    answer = zg_entropy_band(state, 2 * CELLS, 12, six, 6, 13, offsets, 192, scratch, 8 * CELLS + 128, &place, &count, &sums[0], &sums[1],
                             &sums[2], &sweeps, &quiet, &turned);
}
static void ranks(void) {
    answer = zg_truncated_svd_rank(factor, 64, 1e-3, 8, &place, &count) + zg_discards_resolvable_weight(factor, 64, 8, &place, &yes) +
             zg_cut_rank(4096, 4096, 4096, &place, &wide) + zg_widest_block_cut(4096, 4096, 16, &place, &wide);
}
static void fills(void) {
    answer = zg_fill_isometry_site_data(state, 2 * CELLS, 64, 32, 64, out, 2 * CELLS, &place) +
             zg_fill_scaled_u_site_data(state, 2 * CELLS, factor, 64, 64, 32, 64, out, 2 * CELLS, &place) +
             zg_fill_vt_site_data(state, 2 * CELLS, 64, 64, 2, 32, out, 2 * CELLS, &place) +
             zg_fill_scaled_vt_data(factor, 64, state, 2 * CELLS, 64, 64, 2, 32, out, 2 * CELLS, &place);
}
static void chain(void) {
    answer = zg_chain_of_sites(state, 2 * CELLS, 12, 1e-12, 64, sites, 21840, bonds, 13, starts, 13, marks, 33, out, 2 * CELLS, more, 2 * CELLS,
                               third, 2 * CELLS, scratch, 6 * CELLS + 128, &place, &count);
}
/* The largest matrix, 16 by 256, of identities' columns: A = U S V-dagger. */
static void signed_factors(void) {
    static double a[2 * CELLS], u[2 * 256], s[16], vt[2 * CELLS];
    size_t i, test, cell;
    for (i = 0; i < 16; i++)
        u[2 * (17 * i)] = s[i] = vt[2 * (257 * i)] = a[2 * (17 * i)] = 1.0;
    answer = zg_countersign(a, 2 * CELLS, 16, 256, u, 512, s, 16, vt, 2 * CELLS, 0, &place, &yes, &test, &cell);
}
static void slab(void) {
    static double cells[8192];
    static uint32_t index[193];
    answer = zg_slab_put(cells, index, 7, state, 4000, &place) + zg_slab_put(cells, index, 8, state, 2, &place) +
             zg_slab_replace(cells, index, 7, state, 4096, &place) + zg_slab_drop(cells, index, 8, &place);
}
/* A lot of one file of nine qubits, four of them named, all amplitudes 1. */
static void lot(void) {
    static const uint32_t head[] = {1, 8232, 0x31545543, 9, 4, 24, 40, 8232, 0, 1, 2, 3};
    static unsigned char bytes[8 + 8232];
    size_t sheet[32], i;
    double one = 1.0;
    memcpy(bytes, head, sizeof head);
    for (i = 0; i < 512; i++)
        memcpy(bytes + sizeof head + 16 * i, &one, sizeof one);
    answer = zg_lot_sheet(bytes, sizeof bytes, sheet, &place) + (uint32_t)(sheet[0] != 1);
}

/* Ten and eleven of twelve qubits named, so that the list of the others is worked out. */
static void plan(void) {
    static const size_t list[] = {11, 9, 7, 5, 3, 1, 0, 2, 4, 6};
    zg_plan kept;
    answer = zg_cut_plan(list, 10, 12, 13, &kept, &place) + zg_plan_add(&kept, 8, &place) + zg_plan_drop(&kept, 11, &place) +
             zg_plan_switch(&kept, &place);
    if (sizeof kept != 30 * sizeof(size_t) || kept.n != 12 || kept.k != 2 || kept.row_mask != 0xC00 || kept.column_mask != 0x3FF ||
        kept.rows != 4 || kept.columns != 1024 || kept.named[1] != 11 || kept.named[2] != 0 || kept.smaller[0] != 10)
        answer = 99;
}

/* Of twelve qubits, six named. */
static zg_plan half_named(void) {
    zg_plan kept;
    zg_cut_plan(six, 6, 12, 13, &kept, &place);
    return kept;
}
static void planned_cut(void) {
    zg_plan kept = half_named();
    answer = zg_planned_cut_matrix(state, 2 * CELLS, &kept, out, 2 * CELLS, &place);
}
static void planned_values(void) {
    zg_plan kept = half_named();
    answer = zg_planned_schmidt_values(state, 2 * CELLS, &kept, out, 64, scratch, 8 * CELLS + 128, &place, &count, &sweeps, &quiet, &turned, &exact);
}
static void planned_density(void) {
    zg_plan kept = half_named();
    answer = zg_planned_reduced_density(state, 2 * CELLS, &kept, out, 2 * CELLS, scratch, 128, &place);
}

/* The certificates of a file of nine qubits, five of them named, all amplitudes 1 / 3. */
static unsigned char nine[44 + 4 + 8192], text[1 << 17];
static void make_nine(void) {
    static const uint32_t head[] = {0x31545543, 9, 5, 24, 48, 48 + 8192, 0, 2, 4, 6, 8, 0};
    size_t i;
    double third_part = 1.0 / 3.0;
    memcpy(nine, head, sizeof head);
    for (i = 0; i < 1024; i++)
        memcpy(nine + sizeof head + 8 * i, &third_part, sizeof third_part);
}
static void certificate(void) {
    make_nine();
    answer = zg_certificate(nine, sizeof nine, text, sizeof text, &place, &count);
}
static void certificate_pages(void) {
    make_nine();
    answer = zg_certificate_pages(nine, sizeof nine, text, sizeof text, &place, &count);
}

static const struct {
    const char *name;
    void (*call)(void);
    size_t most;
} CALLS[] = {{"zg_pages_agree", pages, 96 * KB},
             {"zg_dense_reduced_density", density, 96 * KB},
             {"numbers", numbers, 16 * KB},
             {"zg_validate_qubit_set", qubit_set, 16 * KB},
             {"zg_validate_subsystem", subsystem, 16 * KB},
             {"zg_row_offsets", row_offsets, 16 * KB},
             {"zg_traced_base", traced_base, 16 * KB},
             {"zg_smaller_side", smaller_side, 16 * KB},
             {"zg_cut_matrix", cut_matrix, 16 * KB},
             {"zg_density_from_cut", from_cut, 16 * KB},
             {"zg_mirror_lower_triangle", mirror, 16 * KB},
             {"zg_normalize_trace", trace, 16 * KB},
             {"zg_multiply_block_factor", block, 16 * KB},
             {"zg_svd_jacobi", svd, 16 * KB},
             {"zg_factorize_gram_schmidt", qr, 16 * KB},
             {"the same, 4096 by 1", tall_qr, 16 * KB},
             {"zg_finish_schmidt_values", finish, 16 * KB},
             {"zg_hermitian_eigenvalues", eigenvalues, 16 * KB},
             {"zg_schmidt_values_from_density", from_density, 16 * KB},
             {"zg_hermitian_eigen", eigen, 16 * KB},
             {"zg_dense_schmidt_values", cut_values, 16 * KB},
             {"zg_cut_profile", profile, 16 * KB},
             {"zg_entropy_band", entropy, 16 * KB},
             {"ranks", ranks, 16 * KB},
             {"the four fills", fills, 16 * KB},
             {"zg_chain_of_sites", chain, 16 * KB},
             {"zg_countersign", signed_factors, 96 * KB},
             {"zg_slab_put, replace, drop", slab, 16 * KB},
             {"zg_lot_sheet", lot, 96 * KB},
             {"zg_cut_plan, add, drop, switch", plan, 16 * KB},
             {"zg_planned_cut_matrix", planned_cut, 16 * KB},
             {"zg_planned_schmidt_values", planned_values, 16 * KB},
             {"zg_planned_reduced_density", planned_density, 96 * KB},
             {"zg_certificate", certificate, 96 * KB},
             {"zg_certificate_pages", certificate_pages, 160 * KB}};

static void *run(void *call) {
    (*(void (**)(void))call)();
    return NULL;
}

/* How deep a thread went that made the call. */
static size_t depth(unsigned char *stack, void (*call)(void)) {
    pthread_attr_t attributes;
    pthread_t thread;
    size_t i = 0;

    memset(stack, PAINT, STACK);
    pthread_attr_init(&attributes);
    if (pthread_attr_setstack(&attributes, stack, STACK) != 0 || pthread_create(&thread, &attributes, run, &call) != 0)
        exit(2);
    pthread_join(thread, NULL);
    while (i < STACK && stack[i] == PAINT)
        i++;
    return STACK - i;
}

int main(void) {
    unsigned char *stack = aligned_alloc(4096, STACK);
    size_t i, empty, failed = 0;

    if (stack == NULL)
        return 2;
    for (i = 0; i < CELLS; i++) {
        size_t row = i / 64, column = i % 64;
        state[2 * i] = 1.0 / (double)(1 + i % 97), state[2 * i + 1] = 1.0 / (double)(1 + i % 89);
        square[2 * i] = state[2 * i], square[2 * i + 1] = state[2 * i + 1];
        matrix[2 * i] = 1.0 / (double)(1 + row + column) + (row == column), factor[2 * i] = factor[2 * i + 1] = 1.0;
    }
    empty = depth(stack, nothing);
    for (i = 0; i < sizeof CALLS / sizeof CALLS[0]; i++) {
        size_t need;
        answer = 99;
        need = depth(stack, CALLS[i].call) - empty;
        printf("%-32s answer %u, %zu bytes\n", CALLS[i].name, (unsigned)answer, need);
        if (answer != 0 || need > CALLS[i].most) {
            printf("%s: more than the %zu bytes promised, or refused\n", CALLS[i].name, CALLS[i].most);
            failed = 1;
        }
    }
    free(stack);
    return (int)failed;
}
