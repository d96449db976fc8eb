/* A certificate's numbers from C: the Schmidt values of two states with the sweeps that they took, a density matrix, and four
 * refusals.
 * Build: cc -I include bindings/c/certificate.c target/staticlib/libexports.a -o certificate */
#include "zegrafult.h"
#include "zegrafult_environment.h"

#include <math.h>
#include <stdio.h>
#include <string.h>

enum { N = 4, AMPLITUDES = 16, SIDE = 4, SCRATCH = 6 * AMPLITUDES + 2 * SIDE };

/* What comes beside the answer. */
struct found {
    double values[SIDE];
    size_t place, count, sweeps;
    bool quiet;
    size_t turned;
};

/* The Schmidt values: the cut matrix, its singular values, the finish. */
static uint32_t values_of(const double *state, size_t length, const size_t *list, size_t k, struct found *found) {
    static double cut[2 * AMPLITUDES], u[2 * SIDE * SIDE], s[SIDE], vt[2 * SIDE * SIDE], scratch[SCRATCH];
    uint32_t answer = zg_cut_matrix(state, length, N, list, k, 13, cut, 2 * AMPLITUDES, &found->place);

    if (answer == 0)
        answer = zg_svd_jacobi(cut, 2 * AMPLITUDES, SIDE, SIDE, u, 2 * SIDE * SIDE, s, SIDE, vt, 2 * SIDE * SIDE,
                               scratch, SCRATCH, &found->place, &found->sweeps, &found->quiet, &found->turned);
    if (answer == 0)
        answer = zg_finish_schmidt_values(s, SIDE, found->values, SIDE, &found->place, &found->count);
    return answer;
}

static void show(const double *state, const size_t *list) {
    struct found found;

    printf("answer %u,", values_of(state, 2 * AMPLITUDES, list, 2, &found));
    printf(" %zu values, the first %g;", found.count, found.values[0]);
    printf(" sweeps %zu, the last quiet: %s\n", found.sweeps, found.quiet ? "yes" : "no");
}

int main(void) {
    double state[2 * AMPLITUDES] = {0};
    double restless[2 * AMPLITUDES] = {0};
    double density[2 * SIDE * SIDE];
    double pair[2 * SIDE];
    const size_t named[] = {0, 1};
    const size_t twice[] = {2, 2};
    struct found found;
    size_t place;

    if (!zg_environment()) {
        fputs("the floating-point environment is not the one that the promises are about\n", stderr);
        return 1;
    }
    state[2 * 0] = state[2 * 5] = state[2 * 10] = state[2 * 15] = 1.0;
    show(state, named);
    restless[2 * 0] = restless[2 * 1] = restless[2 * 4] = restless[2 * 8] = 1.0;
    show(restless, named);

    printf("answer %u,", zg_dense_reduced_density(state, 2 * AMPLITUDES, N, named, 2, 13, density,
                                                  2 * SIDE * SIDE, pair, 2 * SIDE, &place));
    printf(" trace %g\n", density[0] + density[2 * 5] + density[2 * 10] + density[2 * 15]);

    printf("a wrong length: %u", values_of(state, 2 * AMPLITUDES - 1, named, 2, &found));
    printf(" at %zu\n", found.place);
    printf("a qubit twice: %u", values_of(state, 2 * AMPLITUDES, twice, 2, &found));
    printf(" at %zu\n", found.place);
    state[2 * 7] = NAN;
    printf("a NaN: %u", values_of(state, 2 * AMPLITUDES, named, 2, &found));
    printf(" at %zu\n", found.place);
    memset(state, 0, sizeof state);
    printf("a zero state: %u", values_of(state, 2 * AMPLITUDES, named, 2, &found));
    printf(" at %zu\n", found.place);
    return 0;
}
