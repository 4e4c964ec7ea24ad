/* score [FILE]: a sheet's report on standard output; standard input is read where no file is named, or -. Exit status: 0 COVERED,
 * 1 SHORT, 2 SENT BACK, 3 where no sheet could be read or no report written, which standard error says. After ./install PREFIX:
 *     cc -IPREFIX/include examples/score.c PREFIX/lib/libmakhroeng.a -o score
 */
#include <errno.h>
#include <stdio.h>
#include <string.h>
#include "makhroeng.h"

static int fail(const char *what) {
    fprintf(stderr, "%s: %s\n", what, strerror(errno));
    return 3;
}

static int ends_in(const uint8_t *report, size_t length, const char *word) {
    size_t size = strlen(word);
    return length >= size && memcmp(report + length - size, word, size) == 0;
}

int main(int count, char **words) {
    if (count > 2) {
        fprintf(stderr, "usage: score [FILE]\n");
        return 3;
    }
    int named = count == 2 && strcmp(words[1], "-") != 0;
    const char *name = named ? words[1] : "standard input";
    FILE *in = named ? fopen(name, "rb") : stdin;
    if (in == NULL) return fail(name);

    /* a sheet has at most 65,536 bytes; one more is enough to know that it is too long, and the library then says 14 */
    static uint8_t text[65537];
    size_t got = fread(text, 1, sizeof text, in);
    if (ferror(in)) return fail(name);
    fclose(in);

    uint8_t report[1512];
    size_t length = (size_t)makhroeng_report(text, got, report, sizeof report);
    /* a full disk may show itself only where what is held back is written */
    if (fwrite(report, 1, length, stdout) != length || fclose(stdout) != 0) return fail("standard output");
    return ends_in(report, length, " COVERED\n") ? 0 : ends_in(report, length, " SHORT\n") ? 1 : 2;
}
