/* forecast each FACTOR [TRACE]: for the root and each site in turn, the span if its own costs were divided by the factor,
 * beside what the plain profile says of the row.
 * forecast with ENTRIES [TRACE]: prints the report of a trace forecast with entries, ROW/FACTOR,ROW/FACTOR and on.
 * Without TRACE it reads standard input. A refusal is printed as the report program prints it, and told on standard error.
 * Ends with status 0 for a table or report, 1 for a refusal, 2 for wrong usage, 3 where input or output failed. */
#include <errno.h>
#include <inttypes.h>
#include <stdio.h>
#include <stdlib.h>
#include <string.h>

#include "nyolifuwe.h"

enum { DEPTH = 32, SITES = 31, MOST_CHARS = NYO_LINE_CHARS * NYO_MOST_LINES };

static uint8_t trace[MOST_CHARS + 1], out[NYO_REPORT_CHARS(SITES)];
static size_t trace_len;

enum { DONE, REFUSED, MISUSED, FAILED };

static void fail(const char *what) {
    fprintf(stderr, "forecast: %s: %s\n", what, strerror(errno));
    exit(FAILED);
}

/* All of a file, or of standard input where there is none, up to one character more than a trace may have. */
static void read_all(const char *name) {
    FILE *file = name ? fopen(name, "rb") : stdin;
    trace_len = file ? fread(trace, 1, sizeof trace, file) : 0;
    if (!file || ferror(file)) fail(name ? name : "standard input");
}

/* What a profile says: the rows, then total work, total span, sites and lines. */
typedef struct {
    uint64_t rows[NYO_ROWS(SITES)], answer[NYO_ANSWER];
} Profile;

static uint64_t forecast(Profile *p, const nyo_entry *entries, size_t n) {
    static uint64_t scratch[NYO_TABLES_SCRATCH(DEPTH, SITES)];
    return nyo_forecast_tables(trace, trace_len, DEPTH, SITES, entries, n, scratch, sizeof scratch / 8, p->rows,
                               sizeof p->rows / 8, p->answer, NYO_ANSWER);
}

/* Closes standard output: all that was printed has arrived, or the program fails. */
static int printed(int status) {
    if (fclose(stdout)) fail("standard output");
    return status;
}

/* Prints the refusal that is given, and tells it. */
static int refuse(uint64_t given) {
    unsigned number = (unsigned)NYO_NUMBER(given), line = (unsigned)NYO_LINE(given);
    uint64_t written = 0;
    nyo_refusal(number, line, out, sizeof out, &written, 1);
    fwrite(out, 1, written, stdout);
    printed(REFUSED);
    fprintf(stderr, "forecast: refusal %u, line %u\n", number, line);
    return REFUSED;
}

/* A line for each row: its work, its own costs, what of them stands on the span; then the span of the forecast, and how much
 * less that is. */
static int each(uint64_t factor) {
    Profile plain, faster;
    nyo_entry entry = {0, factor};
    uint64_t given = forecast(&plain, &entry, 0);
    if (given) return refuse(given);
    uint64_t span = plain.answer[1];
    for (; entry.row <= plain.answer[2]; entry.row++) {
        const uint64_t *row = plain.rows + NYO_COLUMNS * entry.row;
        given = forecast(&faster, &entry, 1);
        if (given) return refuse(given);
        if (entry.row == 0) puts("row      work     local   on span      span      gain");
        printf("%3" PRIu64 "%10" PRIu64 "%10" PRIu64 "%10" PRIu64 "%10" PRIu64 "%10" PRIu64 "\n", entry.row, row[NYO_WORK],
               row[NYO_LOCAL], row[NYO_ON_SPAN], faster.answer[1], span - faster.answer[1]);
    }
    return printed(DONE);
}

static int with(const nyo_entry *entries, size_t n) {
    Profile p;
    uint64_t written = 0, given = forecast(&p, entries, n);
    if (given) return refuse(given);
    nyo_full_report(p.rows, sizeof p.rows / 8, p.answer[2], out, sizeof out, &written, 1);
    fwrite(out, 1, written, stdout);
    printed(DONE);
    fprintf(stderr, "forecast: work %" PRIu64 ", span %" PRIu64 "\n", p.answer[0], p.answer[1]);
    return DONE;
}

/* A number at the front of a word, and the word behind it and the character that must follow; none where it is no number. */
static const char *number(const char *word, char behind, uint64_t *n) {
    char *end = NULL;
    if (!word || *word < '0' || *word > '9') return NULL;
    *n = strtoull(word, &end, 10);
    return *end != behind ? NULL : *end ? end + 1 : end;
}

/* The entries that a word lists, and how many they are; none where it is no list. The empty word is the empty list. */
static nyo_entry *list(const char *word, size_t *n) {
    nyo_entry *entries = calloc(strlen(word) + 1, sizeof *entries);
    if (!entries) fail("memory");
    int more = *word != 0;
    for (*n = 0; more; ++*n) {
        word = number(word, '/', &entries[*n].row);
        more = word && strchr(word, ',');
        word = number(word, more ? ',' : 0, &entries[*n].factor);
    }
    return word ? entries : NULL;
}

int main(int argc, char **argv) {
    uint64_t factor = 0;
    size_t n = 0;
    int all = argc > 2 && argc < 5 && !strcmp(argv[1], "each") && number(argv[2], 0, &factor);
    nyo_entry *entries = argc > 2 && argc < 5 && !strcmp(argv[1], "with") ? list(argv[2], &n) : NULL;
    if (!all && !entries) {
        fputs("usage: forecast each FACTOR [TRACE] | forecast with ROW/FACTOR,... [TRACE]\n", stderr);
        return MISUSED;
    }
    read_all(argv[3]);
    int status = all ? each(factor) : with(entries, n);
    free(entries);
    return status;
}
