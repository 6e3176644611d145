/* why LINE [TRACE]: says why a line of a trace, counted from 0, is not on the span, or that it is, and then prints the lines of
 * the chain that is marked, each with its number. Without TRACE it reads standard input. A refusal is printed as the report
 * program prints it, and told on standard error. Ends with status 0 for an answer, 1 for a refusal, 2 for wrong usage, 3 where
 * input or output failed. */
#include <errno.h>
#include <inttypes.h>
#include <stdio.h>
#include <stdlib.h>
#include <string.h>

#include "nyolifuwe.h"

enum { DEPTH = 64, SITES = 255, MOST_CHARS = NYO_LINE_CHARS * NYO_MOST_LINES };

enum { DONE, REFUSED, MISUSED, FAILED };

static void fail(const char *what) {
    fprintf(stderr, "why: %s: %s\n", what, strerror(errno));
    exit(FAILED);
}

/* A file, or standard input where there is none, up to one character more than a trace may have; and its length. */
static size_t read_all(uint8_t *chars, const char *name) {
    FILE *file = name ? fopen(name, "rb") : stdin;
    size_t len = file ? fread(chars, 1, MOST_CHARS + 1, file) : 0;
    if (!file || ferror(file)) fail(name ? name : "standard input");
    return len;
}

/* The line number that a word is; none where it is no number of 32 bits. */
static int number(const char *word, uint32_t *n) {
    char *end = NULL;
    errno = 0;
    unsigned long long all = *word >= '0' && *word <= '9' ? strtoull(word, &end, 10) : 0;
    *n = (uint32_t)all;
    return end && !*end && !errno && all <= UINT32_MAX;
}

/* Prints the refusal that is given, and tells it. */
static int refuse(uint64_t given) {
    uint8_t text[NYO_REFUSAL_CHARS];
    uint64_t written = 0;
    nyo_refusal(NYO_NUMBER(given), NYO_LINE(given), text, sizeof text, &written, 1);
    if (fwrite(text, 1, written, stdout) != written || fclose(stdout)) fail("standard output");
    fprintf(stderr, "why: refusal %u, line %" PRIu64 "\n", NYO_NUMBER(given), NYO_LINE(given));
    return REFUSED;
}

/* The answer in words. */
static void say(uint32_t line, const uint64_t *answer) {
    printf("line %" PRIu32, line);
    switch (answer[0]) {
    case NYO_NOT_COST: puts(" is not a cost line"); break;
    case NYO_ON_CHAIN: puts(" is on the chosen chain"); break;
    case NYO_SLACK:
        printf(" has slack %" PRIu64 ": the heaviest chain through it weighs that much less than the span\n", answer[1]);
        break;
    default:
        printf(" is tied with line %" PRIu64 ", which the chosen chain has and the first heaviest through it has not\n",
               answer[1]);
    }
}

int main(int argc, char **argv) {
    static uint8_t trace[MOST_CHARS + 1], marks[NYO_MOST_LINES];
    static uint64_t scratch[NYO_MARKS_SCRATCH(DEPTH)];
    uint64_t answer[NYO_WHY];
    uint32_t line = 0;
    if (argc < 2 || argc > 3 || !number(argv[1], &line)) {
        fputs("usage: why LINE [TRACE]\n", stderr);
        return MISUSED;
    }
    size_t len = read_all(trace, argv[2]);
    uint64_t given = nyo_why(trace, len, DEPTH, SITES, line, scratch, sizeof scratch / 8, marks, sizeof marks, answer, NYO_WHY);
    if (given) return refuse(given);
    say(line, answer);
    for (size_t n = 0; n < len / NYO_LINE_CHARS; n++)
        if (marks[n]) printf("%5zu %.*s", n, NYO_LINE_CHARS, (const char *)trace + n * NYO_LINE_CHARS);
    if (fclose(stdout)) fail("standard output");
    return DONE;
}
