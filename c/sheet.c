/* sheet write [TRACE]: profiles a trace and writes its rows as comma-separated text.
 * sheet read SITES [TEXT]: reads such text into room for the root and so many sites, and prints its report.
 * Without a file it reads standard input. A refusal is printed as the report program prints it, and told on standard
 * error. Ends with status 0 for a text, 1 for a refusal, 2 for wrong usage, 3 where input or output failed. */
#include <errno.h>
#include <stdio.h>
#include <stdlib.h>
#include <string.h>

#include "nyolifuwe.h"

enum { DEPTH = 32, SITES = 31, MOST_CHARS = NYO_LINE_CHARS * NYO_MOST_LINES };

static uint8_t text[MOST_CHARS + 1], out[NYO_CSV_CHARS(NYO_MOST_SITES)];
static uint64_t rows[NYO_ROWS(NYO_MOST_SITES)], scratch[NYO_TABLES_SCRATCH(DEPTH, SITES)];

enum { DONE, REFUSED, MISUSED, FAILED };

static void fail(const char *what) {
    fprintf(stderr, "sheet: %s: %s\n", what, strerror(errno));
    exit(FAILED);
}

/* All of a file, or of standard input where there is none, up to one character more than a trace may have. */
static size_t read_all(const char *name) {
    FILE *file = name ? fopen(name, "rb") : stdin;
    size_t len = file ? fread(text, 1, sizeof text, file) : 0;
    if (!file || ferror(file)) fail(name ? name : "standard input");
    return len;
}

/* Prints what was written, or the refusal that is given. */
static int print(uint64_t given, uint64_t written) {
    unsigned number = (unsigned)NYO_NUMBER(given), line = (unsigned)NYO_LINE(given);
    if (given) nyo_refusal(number, line, out, sizeof out, &written, 1);
    if (fwrite(out, 1, written, stdout) != written || fclose(stdout)) fail("standard output");
    if (!given) return DONE;
    fprintf(stderr, "sheet: refusal %u, %s %u\n", number, number == NYO_CSV_RECORD ? "record" : "line", line);
    return REFUSED;
}

static int write_sheet(const char *name) {
    uint64_t answer[NYO_ANSWER], written = 0;
    uint64_t given = nyo_tables(text, read_all(name), DEPTH, SITES, scratch, sizeof scratch / 8, rows, sizeof rows / 8, answer, NYO_ANSWER);
    if (!given) given = nyo_csv_write(rows, sizeof rows / 8, answer[2], out, sizeof out, &written, 1);
    return print(given, written);
}

static int read_sheet(const char *name, uint64_t sites) {
    uint64_t count = 0, written = 0;
    uint64_t given = nyo_csv_read(text, read_all(name), rows, NYO_ROWS(sites), &count, 1);
    if (!given) given = nyo_full_report(rows, NYO_ROWS(sites), count, out, sizeof out, &written, 1);
    return print(given, written);
}

int main(int argc, char **argv) {
    int last = argc - 1, reads = argc > 2 && !strcmp(argv[1], "read");
    uint64_t sites = reads ? strtoull(argv[2], NULL, 10) : 0;
    if (reads && last <= 3 && sites <= NYO_MOST_SITES) return read_sheet(last == 3 ? argv[3] : NULL, sites);
    if (argc > 1 && !strcmp(argv[1], "write") && last <= 2) return write_sheet(last == 2 ? argv[2] : NULL);
    fputs("usage: sheet write [TRACE] | sheet read SITES [TEXT]; at most 255 sites\n", stderr);
    return MISUSED;
}
