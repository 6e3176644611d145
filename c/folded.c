/* folded CHARACTERS PROJECT STOCK [TRACE]: writes a trace as folded stacks, for a flame view, into room for so many
 * characters, with the names of two lists. Without TRACE it reads standard input. A refusal is printed as the report program
 * prints it, and told on standard error. Ends with status 0 for a text, 1 for a refusal, 2 for wrong usage, 3 where input or
 * output failed. */
#include <errno.h>
#include <stdio.h>
#include <stdlib.h>
#include <string.h>

#include "nyolifuwe.h"

enum { DEPTH = 32, SITES = 31, MOST_CHARS = NYO_LINE_CHARS * NYO_MOST_LINES };

enum { DONE, REFUSED, MISUSED, FAILED };

static void fail(const char *what) {
    fprintf(stderr, "folded: %s: %s\n", what, strerror(errno));
    exit(FAILED);
}

/* A file, or standard input where there is none, up to one character more than a trace may have. */
typedef struct {
    uint8_t chars[MOST_CHARS + 1];
    size_t len;
} Text;

static void read_all(Text *text, const char *name) {
    FILE *file = name ? fopen(name, "rb") : stdin;
    text->len = file ? fread(text->chars, 1, sizeof text->chars, file) : 0;
    if (!file || ferror(file)) fail(name ? name : "standard input");
}

/* Prints what was written, or the refusal that is given. */
static int print(const uint8_t *out, uint64_t written, uint64_t given) {
    unsigned number = (unsigned)NYO_NUMBER(given), line = (unsigned)NYO_LINE(given);
    uint8_t refusal[NYO_REFUSAL_CHARS];
    if (given) nyo_refusal(number, line, refusal, sizeof refusal, &written, 1);
    if (fwrite(given ? refusal : out, 1, written, stdout) != written || fclose(stdout)) fail("standard output");
    if (!given) return DONE;
    fprintf(stderr, "folded: refusal %u, %s %u\n", number, number == NYO_NAME ? "row" : "line", line);
    return REFUSED;
}

int main(int argc, char **argv) {
    static Text project, stock, trace;
    char *end = "";
    size_t room = argc > 1 ? strtoull(argv[1], &end, 10) : 0;
    if (argc < 4 || argc > 5 || *end) {
        fputs("usage: folded CHARACTERS PROJECT STOCK [TRACE]\n", stderr);
        return MISUSED;
    }
    uint64_t scratch[NYO_FOLDED_SCRATCH(DEPTH)], written = 0;
    uint8_t *out = malloc(room + 1);
    if (!out) fail("memory");
    read_all(&project, argv[2]), read_all(&stock, argv[3]), read_all(&trace, argv[4]);
    uint64_t given = nyo_folded(trace.chars, trace.len, DEPTH, SITES, project.chars, project.len, stock.chars, stock.len,
                                scratch, sizeof scratch / 8, out, room, &written, 1);
    return print(out, written, given);
}
