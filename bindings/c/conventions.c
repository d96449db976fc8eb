/* What docs/CONVENTIONS.md says of every call, tried from C: the floating-point environment, NULL with length 0, the order of
 * qubits, rows and columns, and threads. Prints one line for each; compared with conventions.txt.
 * Build: cc -std=c99 -I include bindings/c/conventions.c target/staticlib/libexports.a -lm -lpthread -o conventions */
#include "zegrafult.h"
#include "zegrafult_environment.h"

#include <fenv.h>
#include <pthread.h>
#include <stdio.h>
#include <string.h>
#include <xmmintrin.h>

enum { FLUSH_RESULTS = 0x8000, FLUSH_OPERANDS = 0x0040, THREADS = 8, N = 9, CELLS = 512, SIDE = 16 };

static const char *told(bool yes) { return yes ? "as promised" : "not as promised"; }

/* The answer for two qubits, both 0 or both 1, with amplitudes 1e-160. */
static unsigned tiny_answer(void) {
    const double state[8] = {1e-160, 0, 0, 0, 0, 0, 1e-160, 0};
    const size_t named[] = {0};
    double out[2], scratch[8 * 4 + 2 * 2];
    size_t place, count, sweeps, turned;
    bool quiet, exact;

    return (unsigned)zg_dense_schmidt_values(state, 8, 2, named, 1, 13, out, 2, scratch, 36, &place, &count, &sweeps, &quiet,
                                             &turned, &exact);
}

static void environments(void) {
    static const int modes[] = {FE_UPWARD, FE_DOWNWARD, FE_TOWARDZERO};
    unsigned before = _mm_getcsr();
    size_t i;

    printf("environment: %s, at 1e-160 the answer %u\n", told(zg_environment()), tiny_answer());
    for (i = 0; i < 3; i++) {
        fesetround(modes[i]);
        printf("rounding mode %zu: %s\n", i, told(zg_environment()));
        fesetround(FE_TONEAREST);
    }
    _mm_setcsr(before | FLUSH_RESULTS);
    printf("results flushed: %s\n", told(zg_environment()));
    _mm_setcsr(before | FLUSH_OPERANDS);
    printf("operands flushed: %s\n", told(zg_environment()));
    _mm_setcsr(before | FLUSH_RESULTS | FLUSH_OPERANDS);
    printf("both, as -ffast-math sets them: %s, at 1e-160 the answer %u\n", told(zg_environment()), tiny_answer());
    _mm_setcsr(before);
    printf("set back: %s\n", told(zg_environment()));
}

static void empty_slices(void) {
    size_t place = 7, count = 7;
    unsigned answer = (unsigned)zg_validate_qubit_set(NULL, 0, 3, &place);

    printf("an empty list at NULL: answer %u at %zu\n", answer, place);
    answer = (unsigned)zg_finish_schmidt_values(NULL, 0, NULL, 0, &place, &count);
    printf("no values at NULL: answer %u, %zu values\n", answer, count);
    answer = (unsigned)zg_cut_matrix(NULL, 0, 3, NULL, 0, 13, NULL, 0, &place);
    printf("no state at NULL, no list: answer %u\n", answer);
}

/* Qubit q is bit q of the index: of three qubits only qubit 2 is 1, so amplitude 4 is 1. */
static void orders(void) {
    double state[16] = {0}, cut[16], rho[8], scratch[4];
    const size_t named[] = {2};
    size_t place;

    state[2 * 4] = 1.0;
    zg_cut_matrix(state, 16, 3, named, 1, 13, cut, 16, &place);
    printf("cut of qubit 2, column-major: row 1 of column 0 is %g, row 0 of column 1 is %g\n", cut[2 * 1], cut[2 * 2]);
    state[2 * 4 + 1] = 0.0, state[0] = 0.0, state[1] = 1.0;
    zg_dense_reduced_density(state, 16, 3, named, 1, 13, rho, 8, scratch, 4, &place);
    printf("its density, row-major: row 1 of column 0 is %g%+gi, row 0 of column 1 is %g%+gi\n", rho[4], rho[5], rho[2], rho[3]);
}

static double shared[2 * CELLS];

static void *work(void *room) {
    const size_t named[] = {1, 3, 5, 7};
    double scratch[8 * CELLS + 2 * SIDE];
    size_t place, count, sweeps, turned;
    bool quiet, exact;
    int i;

    for (i = 0; i < 50; i++)
        zg_dense_schmidt_values(shared, 2 * CELLS, N, named, 4, 13, room, SIDE, scratch, 8 * CELLS + 2 * SIDE, &place, &count, &sweeps, &quiet,
                                &turned, &exact);
    return NULL;
}

static void threads(void) {
    static double values[THREADS + 1][SIDE];
    pthread_t started[THREADS];
    size_t i, same = 0;

    for (i = 0; i < CELLS; i++)
        shared[2 * i] = 1.0 / (double)(1 + i % 37), shared[2 * i + 1] = 1.0 / (double)(1 + i % 41);
    work(values[THREADS]);
    for (i = 0; i < THREADS; i++)
        if (pthread_create(&started[i], NULL, work, values[i]) != 0)
            return;
    for (i = 0; i < THREADS; i++) {
        pthread_join(started[i], NULL);
        same += memcmp(values[i], values[THREADS], sizeof values[i]) == 0;
    }
    printf("threads with the same bits: %zu of %d\n", same, THREADS);
}

int main(int words, char **word) {
    if (words > 1 && strcmp(word[1], "environment") == 0) {
        printf("environment: %s, at 1e-160 the answer %u\n", told(zg_environment()), tiny_answer());
        return 0;
    }
    environments();
    empty_slices();
    orders();
    threads();
    return 0;
}
