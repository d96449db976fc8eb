/* Both pages of a cut file's certificate, by one call of the library: no folder and no process.
 *    cc -I include bindings/c/pages.c target/staticlib/libexports.a -o pages && ./pages examples/circuit.cut
 * It prints what pageprint prints, byte for byte. Status: 0 page one stands, 1 it or the file is refused, 2 wrong use, 3 the machine failed. */
#include "zegrafult.h"
#include "zegrafult_environment.h"
#include "zegrafult_sizes.h"

#include <stdio.h>
#include <stdlib.h>

enum { ROOM = 8480 }; /* no valid file is longer, and a longer one is refused by its first bytes and its length */

int main(int words, char **word) {
    static unsigned char file[ROOM];
    size_t room = zg_certificate_pages_text_len(), got, place = 0, length = 0;
    unsigned char *text;
    uint32_t answer;
    FILE *from = words == 2 ? fopen(word[1], "rb") : NULL;

    if (from == NULL) {
        fputs("usage: pages FILE.cut\n", stderr);
        return 2;
    }
    got = fread(file, 1, ROOM, from);
    text = (unsigned char *)malloc(room);
    if (ferror(from) || fclose(from) != 0 || text == NULL || !zg_environment()) {
        fputs("pages: the file cannot be read, or this thread's floating-point environment is not as promised\n", stderr);
        return 3;
    }
    answer = zg_certificate_pages(file, got, text, room, &place, &length);
    if (fwrite(text, 1, length, stdout) != length || fflush(stdout) != 0)
        return 3;
    free(text);
    return answer == ZG_DONE ? 0 : 1;
}
