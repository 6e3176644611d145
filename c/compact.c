/* compact CHARACTERS [TRACE]: writes a trace without the lines that say nothing into room for so many characters; as
 * many as the trace has are always enough. Without TRACE it reads standard input. A refusal is printed as the report
 * program prints it, and told on standard error. Ends with status 0 for a trace, 1 for a refusal, 2 for wrong usage, 3
 * where input or output failed. */
#include <errno.h>
#include <stdio.h>
#include <stdlib.h>
#include <string.h>

#include "nyolifuwe.h"

enum { DEPTH = 64, SITES = 255, MOST_CHARS = NYO_LINE_CHARS * NYO_MOST_LINES };

enum { DONE, REFUSED, MISUSED, FAILED };

static void fail(const char *what) {
    fprintf(stderr, "compact: %s: %s\n", what, strerror(errno));
    exit(FAILED);
}

/* A file, or standard input where there is none, up to one character more than a trace may have; and its length. */
static size_t read_all(uint8_t *chars, const char *name) {
    FILE *file = name ? fopen(name, "rb") : stdin;
    size_t len = file ? fread(chars, 1, MOST_CHARS + 1, file) : 0;
    if (!file || ferror(file)) fail(name ? name : "standard input");
    return len;
}

/* Prints what was written, or the refusal that is given. */
static int print(const uint8_t *out, uint64_t written, uint64_t given) {
    unsigned number = (unsigned)NYO_NUMBER(given), line = (unsigned)NYO_LINE(given);
    uint8_t refusal[NYO_REFUSAL_CHARS];
    if (given) nyo_refusal(number, line, refusal, sizeof refusal, &written, 1);
    if (fwrite(given ? refusal : out, 1, written, stdout) != written || fclose(stdout)) fail("standard output");
    if (!given) return DONE;
    fprintf(stderr, "compact: refusal %u, line %u\n", number, line);
    return REFUSED;
}

int main(int argc, char **argv) {
    static uint8_t trace[MOST_CHARS + 1];
    char *end = "";
    size_t room = argc > 1 ? strtoull(argv[1], &end, 10) : 0;
    if (argc < 2 || argc > 3 || *end) {
        fputs("usage: compact CHARACTERS [TRACE]\n", stderr);
        return MISUSED;
    }
    uint64_t written = 0;
    uint8_t *out = malloc(room + 1);
    if (!out) fail("memory");
    size_t len = read_all(trace, argv[2]);
    uint64_t given = nyo_compact(trace, len, DEPTH, SITES, out, room, &written, 1);
    return print(out, written, given);
}
