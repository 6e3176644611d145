/* profile [-d DEPTH] [-s SITES] [-i] [-f] [FILE]: prints the full report of a trace, with -i without the rows of sites
 * that were not called, and on standard error a summary with the chosen chain; with -f the trace is one of asyncs and
 * finishes. Without FILE it reads standard input. The limits are 32 and 31 if not said, at most 64 and 255. Ends with
 * status 0 for a report, 1 for a refusal, 2 for wrong usage, 3 where input or output failed. */
#include <errno.h>
#include <inttypes.h>
#include <stdio.h>
#include <stdlib.h>
#include <string.h>

#include "nyolifuwe.h"

enum { REPORTED, REFUSED, MISUSED, FAILED };

static void fail(const char *what) {
    fprintf(stderr, "profile: %s: %s\n", what, strerror(errno));
    exit(FAILED);
}

static void misuse(const char *word, const char *fault) {
    fprintf(stderr, "profile: %s: %s\nusage: profile [-d DEPTH] [-s SITES] [-i] [-f] [FILE]\n", word, fault);
    exit(MISUSED);
}

/* Memory for n elements of a size; never null. */
static void *room(size_t n, size_t size) {
    void *p = calloc(n + 1, size);
    if (!p) fail("memory");
    return p;
}

/* All of a file, and its length. */
static uint8_t *read_all(FILE *file, const char *name, size_t *len) {
    size_t most = 1 << 16;
    uint8_t *text = room(most, 1);
    *len = 0;
    for (;;) {
        *len += fread(text + *len, 1, most - *len, file);
        if (*len < most) break;
        most *= 2;
        text = realloc(text, most);
        if (!text) fail("memory");
    }
    if (ferror(file)) fail(name);
    return text;
}

/* Prints a text, the only one that goes to standard output: all of it has arrived, or the program fails. */
static void print(const uint8_t *text, size_t len) {
    if (fwrite(text, 1, len, stdout) != len || fclose(stdout)) fail("standard output");
}

/* Prints a refusal as the report program does, and says on standard error what it is. */
static int refuse(uint64_t answer) {
    static const char *const why[] = {
        [NYO_LIMITS] = "the depth limit is 1 to 64 and the site limit 0 to 255",
        [NYO_LENGTH] = "the length is not a multiple of 23: a line is cut or has characters too many",
        [NYO_TOO_MANY] = "there are more than 65,536 lines",
        [NYO_ROOM] = "a lent slice is too short",
        [NYO_CHARACTER] = "a character is not 0-9, a-f or A-F, or the line feed is not the 23rd",
        [NYO_TABLE] = "the kind is unknown, an unused field is not zero, or a value is outside the table",
        [NYO_AFTER_END] = "the root has returned before this line",
        [NYO_SITE_ORDER] = "site lines are numbered 1, 2, 3 and on",
        [NYO_SITE_LIMIT] = "the site's number is above the site limit: raise it with -s",
        [NYO_PLACE] = "another site has the same file, line and column",
        [NYO_UNDECLARED] = "the site that is called, spawned or run by async has no site line before",
        [NYO_DEPTH] = "more invocations and finishes are open than the depth limit: raise it with -d",
        [NYO_UNFINISHED] = "the lines end before the root's return",
        [NYO_STRAY] = "the line before this kind 07 line is no cost line",
    };
    uint8_t text[NYO_REFUSAL_CHARS];
    uint64_t written = 0;
    nyo_refusal(NYO_NUMBER(answer), NYO_LINE(answer), text, sizeof text, &written, 1);
    print(text, written);
    fprintf(stderr, "profile: refusal %u, line %" PRIu64 ": %s\n", NYO_NUMBER(answer), NYO_LINE(answer),
            why[NYO_NUMBER(answer)]);
    return REFUSED;
}

/* Prints the rows of an accepted trace, idle ones too unless they are left off, then what is on its chosen chain. */
static void show(const uint64_t *rows, int idle, const uint64_t *answer, const uint8_t *marks) {
    size_t most = NYO_REPORT_CHARS(answer[2]);
    uint8_t *text = room(most, 1);
    uint64_t written = 0;
    (idle ? nyo_full_report : nyo_report)(rows, NYO_ROWS(answer[2]), answer[2], text, most, &written, 1);
    print(text, written);
    free(text);
    fprintf(stderr, "work %" PRIu64 ", span %" PRIu64 ", %" PRIu64 " sites, %" PRIu64 " lines; on the chosen chain:",
            answer[0], answer[1], answer[2], answer[3]);
    for (size_t line = 0; line < answer[3]; line++)
        if (marks[line]) fprintf(stderr, " %zu", line);
    fputc('\n', stderr);
}

/* The limit that follows a flag. */
static uint64_t limit(const char *flag, const char *word) {
    char *end = NULL;
    uint64_t n = word && *word >= '0' && *word <= '9' ? strtoull(word, &end, 10) : 0;
    if (!end || *end) misuse(flag, "a number must follow");
    return n;
}

int main(int argc, char **argv) {
    uint64_t depth = 32, sites = 31, answer[NYO_ANSWER];
    const char *name = "standard input";
    FILE *file = stdin;
    int idle = 1, finishes = 0;
    for (int i = 1; i < argc; i++) {
        if (!strcmp(argv[i], "-d"))
            depth = limit("-d", argv[i + 1]), i++;
        else if (!strcmp(argv[i], "-s"))
            sites = limit("-s", argv[i + 1]), i++;
        else if (!strcmp(argv[i], "-i"))
            idle = 0;
        else if (!strcmp(argv[i], "-f"))
            finishes = 1;
        else if (argv[i][0] == '-')
            misuse(argv[i], "no such flag");
        else if (file != stdin)
            misuse(argv[i], "a second file");
        else if (!(file = fopen(name = argv[i], "rb")))
            fail(name);
    }
    size_t len, lines;
    uint8_t *trace = read_all(file, name, &len);
    if (depth < 1 || depth > NYO_MOST_DEPTH || sites > NYO_MOST_SITES) return refuse(NYO_LIMITS);
    lines = len / NYO_LINE_CHARS;
    uint64_t *scratch = room(NYO_MARKS_SCRATCH(depth), sizeof *scratch), *rows = room(NYO_ROWS(sites), sizeof *rows);
    uint8_t *marks = room(lines, 1);
    uint64_t given = (finishes ? nyo_finish_marks : nyo_marks)(trace, len, depth, sites, scratch, NYO_MARKS_SCRATCH(depth),
                                                               marks, lines, rows, NYO_ROWS(sites), answer, NYO_ANSWER);
    int status = REPORTED;
    if (given)
        status = refuse(given);
    else
        show(rows, idle, answer, marks);
    free(trace), free(scratch), free(rows), free(marks);
    return status;
}
