/* The certificate of a cut file: its values by zg_dense_schmidt_values and its entropy by zg_entropy_band, in buffers of the lengths that
 * zegrafult_sizes.h gives, printed as certify prints it.
 *    cc -I include bindings/c/from_file.c target/staticlib/libexports.a -o from_file && ./from_file examples/ghz.cut
 * It shows the calls; the proved reading of the file and the proved printing are certify's. Status 0 a certificate, 1 refused (why, in
 * words, on standard error), 2 wrong use, 3 the machine failed. */
#include "zegrafult.h"
#include "zegrafult_environment.h"
#include "zegrafult_sizes.h"
#include "zegrafult_version.h"

#include <inttypes.h>
#include <stdio.h>
#include <stdlib.h>
#include <string.h>

enum { ROOM = 8480, HEAD = 24, MOST_QUBITS = 9, MOST_LISTED = 64 };

static uint64_t little_endian(const unsigned char *bytes, size_t count) {
    uint64_t whole = 0;

    while (count-- > 0)
        whole = whole << 8 | bytes[count];
    return whole;
}

static size_t field(const unsigned char *file, size_t at) { return (size_t)little_endian(file + at, 4); }

/* The answer for the file's head: 10 where it is no cut file, 1 for a count of qubits that is not taken. */
static uint32_t head(const unsigned char *file, size_t length, size_t *n, size_t *k, size_t *amplitudes) {
    if (length < HEAD || memcmp(file, "CUT1", 4) != 0)
        return ZG_FILE;
    *n = field(file, 4), *k = field(file, 8), *amplitudes = field(file, 16);
    if (*n < 1 || *n > MOST_QUBITS)
        return ZG_SIZE;
    if (*k > MOST_LISTED || field(file, 12) != HEAD || *amplitudes != (HEAD + 4 * *k + 7) / 8 * 8 ||
        field(file, 20) != length || length != *amplitudes + 16 * zg_power(*n))
        return ZG_FILE;
    return ZG_DONE;
}

/* What is lent, taken once for all calls; 0 where there is no memory. */
struct lent {
    double *state, *out, *scratch;
    size_t *others, *bands;
};

static int lend(struct lent *lent, size_t n, size_t k) {
    size_t scratch = zg_dense_schmidt_values_scratch_len(n, k), entropy = zg_entropy_band_scratch_len(n, k);

    lent->state = (double *)malloc(zg_state_len(n) * sizeof *lent->state);
    lent->out = (double *)malloc((zg_dense_schmidt_values_out_len(n, k) + 1) * sizeof *lent->out);
    lent->scratch = (double *)malloc((scratch > entropy ? scratch : entropy) * sizeof *lent->scratch);
    lent->others = (size_t *)malloc((zg_smaller_side_others_len(n, k) + 1) * sizeof *lent->others);
    lent->bands = (size_t *)malloc((zg_entropy_band_bands_len(n, k) + 1) * sizeof *lent->bands);
    return lent->state && lent->out && lent->scratch && lent->others && lent->bands;
}

/* Prints the certificate, or gives the answer and its place. */
static uint32_t certificate(const struct lent *lent, size_t n, const size_t *list, size_t k, size_t *place) {
    size_t count, weights, sweeps, turned, again, turned_again, i, side = zg_side(n, k);
    uint64_t low = 0, high = 0, whole = 0;
    bool quiet, quiet_again, exact;
    uint32_t answer = zg_dense_schmidt_values(lent->state, zg_state_len(n), n, list, k, ZG_CAP, lent->out, zg_dense_schmidt_values_out_len(n, k),
                                              lent->scratch, zg_dense_schmidt_values_scratch_len(n, k), place, &count, &sweeps, &quiet, &turned, &exact);

    if (answer == ZG_DONE)
        answer = zg_entropy_band(lent->state, zg_state_len(n), n, list, k, ZG_CAP, lent->bands, zg_entropy_band_bands_len(n, k), lent->scratch,
                                 zg_entropy_band_scratch_len(n, k), place, &weights, &low, &high, &whole, &again, &quiet_again, &turned_again);
    if (answer == ZG_DONE)
        answer = zg_smaller_side(list, k, n, ZG_CAP, lent->others, zg_smaller_side_others_len(n, k), place);
    if (answer != ZG_DONE)
        return answer;
    printf("cut %lu %lu %lu %lu\nside", (unsigned long)n, (unsigned long)k, (unsigned long)zg_power(side), (unsigned long)zg_power(n - side));
    for (i = 0; i < side; i++)
        printf(" %lu", (unsigned long)(n - k < k ? lent->others[i] : list[i]));
    puts("");
    for (i = 0; i < count; i++)
        printf("value %lu %016" PRIX64 "\n", (unsigned long)i, zg_to_bits(lent->out[i]));
    printf("entropy %" PRIu64 " %" PRIu64 " %" PRIu64 "\n", low, high, whole);
    printf("end %lu %lu %s\n", (unsigned long)count, (unsigned long)sweeps, quiet ? "yes" : "no");
    return ZG_DONE;
}

int main(int words, char **word) {
    static unsigned char file[ROOM];
    size_t list[MOST_LISTED], n = 0, k = 0, amplitudes = 0, length, i, place = 0;
    struct lent lent = {NULL, NULL, NULL, NULL, NULL};
    uint32_t answer;
    FILE *from = words == 2 ? fopen(word[1], "rb") : NULL;

    if (from == NULL) {
        fputs("usage: from_file FILE.cut\n", stderr);
        return 2;
    }
    length = fread(file, 1, ROOM, from);
    fclose(from);
    if (!zg_environment() || zg_version() != ZEGRAFULT_VERSION_NUMBER) {
        fputs("the floating-point environment is not the one that the promises are about, or the library is of another version\n", stderr);
        return 3;
    }
    answer = head(file, length, &n, &k, &amplitudes);
    if (answer == ZG_DONE) {
        if (!lend(&lent, n, k))
            return 3;
        for (i = 0; i < k; i++)
            list[i] = field(file, HEAD + 4 * i);
        for (i = 0; i < zg_state_len(n); i++)
            lent.state[i] = zg_from_bits(little_endian(file + amplitudes + 8 * i, 8));
        answer = certificate(&lent, n, list, k, &place);
        free(lent.state), free(lent.out), free(lent.scratch), free(lent.others), free(lent.bands);
    }
    if (answer != ZG_DONE) {
        printf("refused %lu %lu\n", (unsigned long)answer, (unsigned long)place);
        fprintf(stderr, "%s\n", zg_answer_text(answer));
    }
    if (fflush(stdout) != 0)
        return 3;
    return answer != ZG_DONE;
}
