/* Each exported function from C: what it answers, what it writes, and that nothing else that was lent or lies beside it
 * changes. Expected numbers and texts are the rules' own. The last line printed is `N passed, 0 failed`. */
#include <assert.h>
#include <stdio.h>
#include <string.h>

#include "nyolifuwe.h"

static unsigned passed, failed;

static void check(int holds, const char *what, int line) {
    if (holds) {
        passed++;
    } else {
        failed++;
        printf("test.c:%d: %s\n", line, what);
    }
}

#define CHECK(holds) check(holds, #holds, __LINE__)

/* Lent numbers or characters between two strips that are not lent, with what all of it held before. A case that would
 * lend more than the most is a fault of this test. */
enum { STRIP = 8, MOST = NYO_TABLES_SCRATCH(4, 256) };

typedef struct {
    size_t len;
    uint64_t now[STRIP + MOST + STRIP], before[STRIP + MOST + STRIP];
} Numbers;

typedef struct {
    size_t len;
    uint8_t now[STRIP + MOST + STRIP], before[STRIP + MOST + STRIP];
} Chars;

static uint64_t rubbish(void) {
    static uint64_t x = 0x9e3779b97f4a7c15;
    x ^= x << 13, x ^= x >> 7, x ^= x << 17;
    return x;
}

static uint64_t *lend_numbers(Numbers *r, size_t len) {
    assert(len <= MOST);
    r->len = len;
    for (size_t i = 0; i < STRIP + MOST + STRIP; i++) r->now[i] = r->before[i] = rubbish();
    return r->now + STRIP;
}

static uint8_t *lend_chars(Chars *r, size_t len) {
    assert(len <= MOST);
    r->len = len;
    for (size_t i = 0; i < STRIP + MOST + STRIP; i++) r->now[i] = r->before[i] = (uint8_t)rubbish();
    return r->now + STRIP;
}

/* The room begins with these n numbers, and everything else is as it was. */
static int numbers_are(const Numbers *r, const uint64_t *expected, size_t n) {
    return !memcmp(r->now, r->before, STRIP * sizeof *r->now) && !memcmp(r->now + STRIP, expected, n * sizeof *expected) &&
           !memcmp(r->now + STRIP + n, r->before + STRIP + n, (MOST + STRIP - n) * sizeof *r->now);
}

static int chars_are(const Chars *r, const void *expected, size_t n) {
    return !memcmp(r->now, r->before, STRIP) && !memcmp(r->now + STRIP, expected, n) &&
           !memcmp(r->now + STRIP + n, r->before + STRIP + n, MOST + STRIP - n);
}

static int numbers_unchanged(const Numbers *r) { return numbers_are(r, r->before + STRIP, 0); }

static int chars_unchanged(const Chars *r) { return chars_are(r, r->before + STRIP, 0); }

static const uint64_t zeros[MOST];

#define TEXT(s) (const uint8_t *)(s), sizeof(s) - 1

static Numbers frame, written, scratch, rows, answer;
static Chars out, marks;

/* A family's functions: of the traces that spawn and sync, and of those of asyncs and finishes. */
typedef struct {
    uint64_t (*read_line)(const uint8_t *, size_t, uint64_t *, size_t);
    uint64_t (*write_line)(const uint64_t *, size_t, uint8_t *, size_t, uint64_t *, size_t);
    uint64_t (*tables)(const uint8_t *, size_t, uint64_t, uint64_t, uint64_t *, size_t, uint64_t *, size_t, uint64_t *, size_t);
    uint64_t (*marks)(const uint8_t *, size_t, uint64_t, uint64_t, uint64_t *, size_t, uint8_t *, size_t, uint64_t *, size_t,
                      uint64_t *, size_t);
} Family;

static const Family spawns = {nyo_read_line, nyo_write_line, nyo_tables, nyo_marks};
static const Family finishes = {nyo_finish_read_line, nyo_finish_write_line, nyo_finish_tables, nyo_finish_marks};

static uint64_t read_as(Family f, const uint8_t *line, size_t len, size_t room) {
    uint64_t *to = lend_numbers(&frame, room);
    return f.read_line(line, len, to, room);
}

static uint64_t read_line(const uint8_t *line, size_t len, size_t room) { return read_as(spawns, line, len, room); }

static void lines_are_read(void) {
    CHECK(read_line(TEXT("0100020000001400010009\n"), 5) == 0);
    CHECK(numbers_are(&frame, (const uint64_t[]){1, 2, 20, 1, 9}, 5));
    CHECK(read_line(TEXT("060000ffffffff00000000\n"), 9) == 0);
    CHECK(numbers_are(&frame, (const uint64_t[]){6, 0, 4294967295, 0, 0}, 5));
    CHECK(read_line(TEXT("060000aBcDeF0100000000\n"), 5) == 0);
    CHECK(numbers_are(&frame, (const uint64_t[]){6, 0, 0xabcdef01, 0, 0}, 5));
    CHECK(read_line(TEXT("070000ffffffff00000000\n"), 5) == 0);
    CHECK(numbers_are(&frame, (const uint64_t[]){7, 0, 4294967295, 0, 0}, 5));
    CHECK(read_line(TEXT("0500000000000000000000"), 5) == 2 && numbers_unchanged(&frame));
    CHECK(read_line(TEXT("0500000000000000000000\n\n"), 0) == 2 && numbers_unchanged(&frame));
    CHECK(read_line(TEXT("0g00000000000000000000\n"), 4) == 4 && numbers_unchanged(&frame));
    CHECK(read_line(TEXT("0G00000000000000000000\n"), 5) == 5 && numbers_unchanged(&frame));
    CHECK(read_line(TEXT("0700000000000000000000\n"), 5) == 6 && numbers_unchanged(&frame));
    CHECK(read_line(TEXT("0700010000000900000000\n"), 5) == 6 && numbers_unchanged(&frame));
    CHECK(read_line(TEXT("0800000000000900000000\n"), 5) == 6 && numbers_unchanged(&frame));
    CHECK(read_line(TEXT("0600000000000000000000\n"), 5) == 6 && numbers_unchanged(&frame));
}

static int nothing_written(void) { return chars_unchanged(&out) && numbers_unchanged(&written); }

static uint64_t write_as(Family f, const uint64_t *numbers, size_t n, size_t room, size_t count_room) {
    uint8_t *to = lend_chars(&out, room);
    uint64_t *count = lend_numbers(&written, count_room);
    return f.write_line(numbers, n, to, room, count, count_room);
}

static uint64_t write_line(const uint64_t *numbers, size_t n, size_t room, size_t count_room) {
    return write_as(spawns, numbers, n, room, count_room);
}

static void lines_are_written(void) {
    CHECK(write_line((const uint64_t[]){1, 2, 20, 1, 9}, 5, 23, 1) == 0);
    CHECK(chars_are(&out, "0100020000001400010009\n", 23) && numbers_are(&written, (const uint64_t[]){23}, 1));
    CHECK(write_line((const uint64_t[]){3, 65535, 0, 0, 0, 77}, 6, 30, 3) == 0);
    CHECK(chars_are(&out, "03ffff0000000000000000\n", 23) && numbers_are(&written, (const uint64_t[]){23}, 1));
    CHECK(write_line((const uint64_t[]){7, 0, 171, 0, 0}, 5, 23, 1) == 0);
    CHECK(chars_are(&out, "070000000000ab00000000\n", 23) && numbers_are(&written, (const uint64_t[]){23}, 1));
    CHECK(write_line((const uint64_t[]){9, 0, 0, 0}, 4, 23, 1) == 4 && nothing_written());
    CHECK(write_line((const uint64_t[]){9, 0, 0, 0, 0}, 5, 22, 1) == 4 && nothing_written());
    CHECK(write_line((const uint64_t[]){9, 0, 0, 0, 0}, 5, 23, 0) == 4 && nothing_written());
    CHECK(write_line((const uint64_t[]){2, 65536, 0, 0, 0}, 5, 23, 1) == 6 && nothing_written());
    CHECK(write_line((const uint64_t[]){256 + 5, 0, 0, 0, 0}, 5, 23, 1) == 6 && nothing_written());
    CHECK(write_line((const uint64_t[]){6, 0, UINT64_C(1) << 32, 0, 0}, 5, 23, 1) == 6 && nothing_written());
    CHECK(write_line((const uint64_t[]){7, 0, UINT64_C(1) << 32, 0, 0}, 5, 23, 1) == 6 && nothing_written());
    CHECK(write_line((const uint64_t[]){7, 0, 0, 0, 0}, 5, 23, 1) == 6 && nothing_written());
    CHECK(write_line((const uint64_t[]){1, 1, 1, 1, 0}, 5, 23, 1) == 6 && nothing_written());
}

/* The example of the rules: call 1 {spawn 2 {7}, 1}, 2. */
static const char case_i[] =
    "0100010000000a00010005\n"
    "0100020000001400010009\n"
    "0200010000000000000000\n"
    "0300020000000000000000\n"
    "0600000000000700000000\n"
    "0500000000000000000000\n"
    "0600000000000100000000\n"
    "0500000000000000000000\n"
    "0600000000000200000000\n"
    "0500000000000000000000\n";

static const uint64_t case_i_rows[] = {1, 10, 9, 2, 2, 0, 0, 1, 8, 7, 1, 0, 0, 0, 1, 7, 7, 7, 7, 0, 0};

/* Case K: site 1 calls itself, and the inner invocation's 2 are in work and span once. */
static const char case_k[] =
    "0100010000000a00010005\n"
    "0100020000001400010009\n"
    "0200010000000000000000\n"
    "0600000000000100000000\n"
    "0200010000000000000000\n"
    "0600000000000200000000\n"
    "0500000000000000000000\n"
    "0500000000000000000000\n"
    "0500000000000000000000\n";

static const uint64_t case_k_rows[] = {1, 3, 3, 0, 0, 0, 0, 2, 3, 3, 3, 3, 0, 0, 0, 0, 0, 0, 0, 0, 0};

/* Site 1 behind a cost, site 2 between a spawn and its first cost, site 3 between a sync and the return:
 * 1, site 1, spawn 1 {site 2, call 2 {5}}, 2, sync, site 3. The 5 stand beside the 2, behind the 1. */
static const char on_the_way[] =
    "0600000000000100000000\n"
    "0100010000000a00010005\n"
    "0300010000000000000000\n"
    "0100020000001400010009\n"
    "0200020000000000000000\n"
    "0600000000000500000000\n"
    "0500000000000000000000\n"
    "0500000000000000000000\n"
    "0600000000000200000000\n"
    "0400000000000000000000\n"
    "0100030000001e0001000d\n"
    "0500000000000000000000\n";

static const uint64_t on_the_way_rows[] = {1, 8, 6, 3, 1, 0, 0, 1, 5, 5, 0, 0, 0, 0, 1, 5, 5, 5, 5, 0, 0, 0, 0, 0, 0, 0, 0, 0};

static const char case_i_report[] =
    "00000000000000000001000000000000000a00000000000000090000000000000002000000000000000200000000000000000000000000000000\n"
    "00010000000000000001000000000000000800000000000000070000000000000001000000000000000000000000000000000000000000000000\n"
    "00020000000000000001000000000000000700000000000000070000000000000007000000000000000700000000000000000000000000000000\n";

/* Case K: row 2 was not called. */
static const char case_k_report[] =
    "00000000000000000001000000000000000300000000000000030000000000000000000000000000000000000000000000000000000000000000\n"
    "00010000000000000002000000000000000300000000000000030000000000000003000000000000000300000000000000000000000000000000\n"
    "00020000000000000000000000000000000000000000000000000000000000000000000000000000000000000000000000000000000000000000\n";

/* Row 0 without calls, an idle row whose other numbers are not zero, and a row with calls alone. */
static const uint64_t idle_rows[] = {0, 1, 2, 3, 4, 9, 10, 0, 5, 6, 7, 8, 11, 12, UINT64_C(1) << 63, 0, 0, 0, 0, 0, 0};

static const char idle_report[] =
    "0000000000000000000000000000000000010000000000000002000000000000000300000000000000040000000000000009000000000000000a\n"
    "00028000000000000000000000000000000000000000000000000000000000000000000000000000000000000000000000000000000000000000\n";

typedef uint64_t report_writer(const uint64_t *, size_t, uint64_t, uint8_t *, size_t, uint64_t *, size_t);

static uint64_t report(report_writer *writer, const uint64_t *numbers, size_t n, uint64_t count, size_t room, size_t count_room) {
    uint8_t *text = lend_chars(&out, room);
    uint64_t *to = lend_numbers(&written, count_room);
    return writer(numbers, n, count, text, room, to, count_room);
}

/* So many characters of a text were written, and counted. */
static int wrote(const char *text, uint64_t n) { return chars_are(&out, text, n) && numbers_are(&written, &n, 1); }

/* Where every row was called both writers write the same. */
static void reports_are_written_by(report_writer *writer) {
    CHECK(report(writer, case_i_rows, 21, 2, 351, 1) == 0 && wrote(case_i_report, 351));
    CHECK(report(writer, case_i_rows, 21, 0, 400, 3) == 0 && wrote(case_i_report, 117));
    CHECK(report(writer, case_i_rows, 21, 256, 0, 0) == 1 && nothing_written());
    CHECK(report(writer, case_i_rows, 21, UINT64_MAX, 351, 1) == 1 && nothing_written());
    CHECK(report(writer, case_i_rows, 20, 2, 351, 1) == 4 && nothing_written());
    CHECK(report(writer, case_i_rows, 21, 2, 350, 1) == 4 && nothing_written());
    CHECK(report(writer, case_i_rows, 21, 2, 351, 0) == 4 && nothing_written());
    CHECK(report(writer, case_i_rows, 20, 2, 0, 0) == 4 && nothing_written());
}

static void reports_are_written(void) {
    reports_are_written_by(nyo_report);
    reports_are_written_by(nyo_full_report);
    CHECK(NYO_ROW_CHARS == 117 && NYO_REPORT_CHARS(2) == 351);
    CHECK(report(nyo_full_report, case_k_rows, 21, 2, 351, 1) == 0 && wrote(case_k_report, 351));
    CHECK(report(nyo_full_report, case_k_rows, 21, 2, 350, 1) == 4 && nothing_written());
    CHECK(report(nyo_report, case_k_rows, 21, 2, 234, 1) == 0 && wrote(case_k_report, 234));
    CHECK(report(nyo_report, case_k_rows, 21, 2, 351, 1) == 0 && wrote(case_k_report, 234));
    CHECK(report(nyo_report, case_k_rows, 21, 2, 233, 1) == 4 && nothing_written());
    CHECK(report(nyo_report, case_k_rows, 20, 2, 234, 1) == 4 && nothing_written());
    CHECK(report(nyo_report, case_k_rows, 21, 2, 234, 0) == 4 && nothing_written());
    CHECK(report(nyo_report, idle_rows, 21, 2, 300, 1) == 0 && wrote(idle_report, 234));
    CHECK(report(nyo_report, idle_rows, 14, 1, 117, 1) == 0 && wrote(idle_report, 117));
    CHECK(report(nyo_report, idle_rows, 14, 1, 116, 1) == 4 && nothing_written());
}

static uint64_t refusal(uint64_t number, uint64_t line, size_t room, size_t count_room) {
    uint8_t *text = lend_chars(&out, room);
    uint64_t *to = lend_numbers(&written, count_room);
    return nyo_refusal(number, line, text, room, to, count_room);
}

static void refusals_are_written(void) {
    CHECK(refusal(14, 65536, 13, 1) == 0);
    CHECK(chars_are(&out, "ff0e00010000\n", 13) && numbers_are(&written, (const uint64_t[]){13}, 1));
    CHECK(refusal(3, 0, 20, 2) == 0 && chars_are(&out, "ff0300000000\n", 13));
    CHECK(refusal(256, 0, 0, 0) == 1 && nothing_written());
    CHECK(refusal(14, UINT64_C(1) << 32, 13, 1) == 1 && nothing_written());
    CHECK(refusal(14, 0, 12, 1) == 4 && nothing_written());
    CHECK(refusal(14, 0, 13, 0) == 4 && nothing_written());
}

static const char case_i_sheet[] =
    "row,calls,work,span,local,onspan,ilocal,ionspan\r\n"
    "0,1,10,9,2,2,0,0\r\n"
    "1,1,8,7,1,0,0,0\r\n"
    "2,1,7,7,7,7,0,0\r\n";

static uint64_t csv_write(size_t n, uint64_t count, size_t room, size_t count_room) {
    uint8_t *text = lend_chars(&out, room);
    uint64_t *to = lend_numbers(&written, count_room);
    return nyo_csv_write(case_i_rows, n, count, text, room, to, count_room);
}

static void sheets_are_written(void) {
    CHECK(sizeof case_i_sheet - 1 == 101 && NYO_CSV_CHARS(2) == 49 + 3 * 169);
    CHECK(csv_write(21, 2, 101, 1) == 0);
    CHECK(chars_are(&out, case_i_sheet, 101) && numbers_are(&written, (const uint64_t[]){101}, 1));
    CHECK(csv_write(21, 0, NYO_CSV_CHARS(0), 3) == 0);
    CHECK(chars_are(&out, case_i_sheet, 67) && numbers_are(&written, (const uint64_t[]){67}, 1));
    CHECK(csv_write(21, 256, 0, 0) == 1 && nothing_written());
    CHECK(csv_write(20, 2, 0, 1) == 4 && nothing_written());
    CHECK(csv_write(21, 2, 0, 0) == 4 && nothing_written());
    CHECK(csv_write(21, 2, 100, 1) == 16 && nothing_written());
}

static uint64_t csv_read(const char *text, size_t len, size_t room, size_t count_room) {
    uint64_t *to_rows = lend_numbers(&rows, room), *to = lend_numbers(&written, count_room);
    return nyo_csv_read((const uint8_t *)text, len, to_rows, room, to, count_room);
}

static int nothing_read(void) { return numbers_unchanged(&rows) && numbers_unchanged(&written); }

static void sheets_are_read(void) {
    CHECK(csv_read(case_i_sheet, 101, 21, 1) == 0);
    CHECK(numbers_are(&rows, case_i_rows, 21) && numbers_are(&written, (const uint64_t[]){2}, 1));
    CHECK(csv_read(case_i_sheet, 99, 28, 2) == 0);
    CHECK(numbers_are(&rows, case_i_rows, 21) && numbers_are(&written, (const uint64_t[]){2}, 1));
    const char quoted[] = "row,\"calls\",work,span,local,onspan,ilocal,ionspan\r\n\"0\",1,10,9,2,\"2\",0,\"0\"";
    CHECK(csv_read(quoted, sizeof quoted - 1, 7, 1) == 0);
    CHECK(numbers_are(&rows, case_i_rows, 7) && numbers_are(&written, (const uint64_t[]){0}, 1));
    const char without[] = "row,calls,work,span,local,onspan\r\n0,1,10,9,2,2\r\n";
    CHECK(csv_read(without, sizeof without - 1, 21, 1) == 15 && nothing_read());
    CHECK(csv_read(case_i_sheet, 0, 21, 0) == 4 && nothing_read());
    CHECK(csv_read(case_i_sheet, 0, 21, 1) == 15 && nothing_read());
    CHECK(csv_read(case_i_sheet, 49, 21, 1) == 15 + 256 * 1 && nothing_read());
    CHECK(csv_read(case_i_sheet, 100, 21, 1) == 15 + 256 * 3 && nothing_read());
    CHECK(csv_read(case_i_sheet, 101, 20, 1) == 16 && nothing_read());
}

/* Both engines on a trace, with so many numbers less lent than needed for scratch, rows, answer and marks. */
typedef struct {
    size_t scratch, rows, answer, marks;
} Short;

static uint64_t tables_as(Family f, const char *trace, size_t len, uint64_t depth, uint64_t sites, Short less) {
    size_t s = NYO_TABLES_SCRATCH(depth, sites) - less.scratch, r = NYO_ROWS(sites) - less.rows, a = NYO_ANSWER - less.answer;
    uint64_t *to_scratch = lend_numbers(&scratch, s), *to_rows = lend_numbers(&rows, r), *to_answer = lend_numbers(&answer, a);
    return f.tables((const uint8_t *)trace, len, depth, sites, to_scratch, s, to_rows, r, to_answer, a);
}

static uint64_t marked_as(Family f, const char *trace, size_t len, uint64_t depth, uint64_t sites, Short less) {
    size_t s = NYO_MARKS_SCRATCH(depth) - less.scratch, r = NYO_ROWS(sites) - less.rows, a = NYO_ANSWER - less.answer;
    size_t m = len / NYO_LINE_CHARS - less.marks;
    uint64_t *to_scratch = lend_numbers(&scratch, s), *to_rows = lend_numbers(&rows, r), *to_answer = lend_numbers(&answer, a);
    uint8_t *to_marks = lend_chars(&marks, m);
    return f.marks((const uint8_t *)trace, len, depth, sites, to_scratch, s, to_marks, m, to_rows, r, to_answer, a);
}

static uint64_t tables(const char *trace, size_t len, uint64_t depth, uint64_t sites, Short less) {
    return tables_as(spawns, trace, len, depth, sites, less);
}

static uint64_t marked(const char *trace, size_t len, uint64_t depth, uint64_t sites, Short less) {
    return marked_as(spawns, trace, len, depth, sites, less);
}

static int numbers_kept(void) { return numbers_unchanged(&scratch) && numbers_unchanged(&rows) && numbers_unchanged(&answer); }

/* Both engines refuse alike and change nothing. */
static int both_refuse_as(Family f, const char *trace, size_t len, uint64_t depth, uint64_t sites, Short less, uint64_t expected) {
    int kept = tables_as(f, trace, len, depth, sites, less) == expected && numbers_kept();
    return kept && marked_as(f, trace, len, depth, sites, less) == expected && numbers_kept() && chars_unchanged(&marks);
}

static int both_refuse(const char *trace, size_t len, uint64_t depth, uint64_t sites, Short less, uint64_t expected) {
    return both_refuse_as(spawns, trace, len, depth, sites, less, expected);
}

static int profile_is(const uint64_t *expected_rows, size_t n, const uint64_t *expected_answer) {
    return numbers_are(&rows, expected_rows, n) && numbers_are(&answer, expected_answer, NYO_ANSWER) &&
           numbers_are(&scratch, zeros, scratch.len);
}

static void traces_are_profiled(void) {
    const Short enough = {0, 0, 0, 0};
    const uint64_t totals[] = {10, 9, 2, 10};
    size_t len = sizeof case_i - 1;
    CHECK(tables(case_i, len, 4, 3, enough) == 0 && profile_is(case_i_rows, 21, totals));
    CHECK(marked(case_i, len, 4, 3, enough) == 0 && profile_is(case_i_rows, 21, totals));
    CHECK(chars_are(&marks, "\0\0\0\0\1\0\0\0\1\0", 10));
    CHECK(tables(case_k, sizeof case_k - 1, 4, 2, enough) == 0 && profile_is(case_k_rows, 21, (const uint64_t[]){3, 3, 2, 9}));
    CHECK(marked(case_k, sizeof case_k - 1, 4, 2, enough) == 0 && profile_is(case_k_rows, 21, (const uint64_t[]){3, 3, 2, 9}));
    const uint64_t way[] = {8, 6, 3, 12};
    size_t n = sizeof on_the_way - 1;
    CHECK(tables(on_the_way, n, 3, 4, enough) == 0 && profile_is(on_the_way_rows, 28, way));
    CHECK(marked(on_the_way, n, 3, 4, enough) == 0 && profile_is(on_the_way_rows, 28, way));
    CHECK(chars_are(&marks, "\1\0\0\0\0\1\0\0\0\0\0\0", 12));
    const char lone[] = "0500000000000000000000\n";
    CHECK(tables(lone, 23, 1, 0, enough) == 0 && profile_is((const uint64_t[]){1, 0, 0, 0, 0, 0, 0}, 7, (const uint64_t[]){0, 0, 0, 1}));
    CHECK(marked(lone, 23, 1, 0, enough) == 0 && profile_is((const uint64_t[]){1, 0, 0, 0, 0, 0, 0}, 7, (const uint64_t[]){0, 0, 0, 1}));
}

static void traces_are_refused(void) {
    const Short enough = {0, 0, 0, 0};
    size_t len = sizeof case_i - 1;
    CHECK(both_refuse(case_i, len, 0, 2, enough, 1));
    CHECK(both_refuse(case_i, len, 65, 2, enough, 1));
    CHECK(both_refuse(case_i, len, 4, 256, enough, 1));
    CHECK(both_refuse(case_i, len - 1, 4, 2, (Short){1, 0, 0, 0}, 2));
    CHECK(both_refuse(case_i, len, 4, 2, (Short){1, 0, 0, 0}, 4));
    CHECK(both_refuse(case_i, len, 4, 2, (Short){0, 1, 0, 0}, 4));
    CHECK(both_refuse(case_i, len, 4, 2, (Short){0, 0, 1, 0}, 4));
    CHECK(marked(case_i, len, 4, 2, (Short){0, 0, 0, 1}) == 4 && numbers_kept() && chars_unchanged(&marks));
    CHECK(both_refuse(case_i, len, 4, 1, enough, 9 + 256 * 1));
    CHECK(both_refuse(case_i, len, 2, 2, enough, 12 + 256 * 3));
    CHECK(both_refuse(case_i, len - 23, 4, 2, enough, 14 + 256 * 9));
    CHECK(both_refuse(case_i, 0, 4, 2, enough, 14));
    CHECK(both_refuse(on_the_way, sizeof on_the_way - 1, 3, 2, enough, 9 + 256 * 10));
    CHECK(both_refuse(on_the_way, sizeof on_the_way - 1, 2, 3, enough, 12 + 256 * 4));
}

#define SITE_1 "0100010000000a00010005\n"
#define SITE_2 "0100020000001400010009\n"
#define SITE_3 "0100030000001e0001000d\n"
#define CALL_1 "0200010000000000000000\n"
#define SPAWN_1 "0300010000000000000000\n"
#define SYNC "0400000000000000000000\n"
#define RETURN "0500000000000000000000\n"
#define COST(digits) "060000" digits "00000000\n"
#define MOST_COST COST("ffffffff")
#define CARRY(digits) "070000" digits "00000000\n"
#define MOST_CARRY CARRY("ffffffff")

/* Both engines refuse a trace with depth 4, three sites and room enough. */
static int is_refused(const char *trace, uint64_t expected) {
    return both_refuse(trace, strlen(trace), 4, 3, (Short){0, 0, 0, 0}, expected);
}

static void sites_on_the_way_are_refused(void) {
    CHECK(is_refused(COST("00000005") SITE_2 RETURN, 8 + 256 * 1));
    CHECK(is_refused(SITE_1 COST("00000005") SITE_3 RETURN, 8 + 256 * 2));
    CHECK(is_refused(SITE_1 COST("00000005") SITE_1 RETURN, 8 + 256 * 2));
    CHECK(is_refused(SITE_1 CALL_1 "0100020000000a00010005\n" RETURN RETURN, 10 + 256 * 2));
    CHECK(is_refused(CALL_1 SITE_1 RETURN RETURN, 11));
    CHECK(is_refused(COST("00000005") RETURN SITE_1, 7 + 256 * 2));
    CHECK(is_refused(COST("00000005") SITE_1, 14 + 256 * 2));
}

/* Two chains of 4 beside each other, the later one with more instructions: spawn 1 {4 with 1}, 4 with 1,000. The first is
 * chosen. */
static const char carried[] = SITE_1 SITE_2 SPAWN_1 COST("00000004") CARRY("00000001") RETURN COST("00000004") CARRY("000003E8") RETURN;

static const uint64_t carried_rows[] = {1, 8, 4, 4, 0, 1000, 0, 1, 4, 4, 4, 4, 1, 1, 0, 0, 0, 0, 0, 0, 0};

static void instructions_are_profiled(void) {
    const Short enough = {0, 0, 0, 0};
    const uint64_t totals[] = {8, 4, 2, 9};
    size_t len = sizeof carried - 1;
    CHECK(NYO_COLUMNS == 7 && NYO_ILOCAL == 5 && NYO_ION_SPAN == 6 && NYO_TABLES_SCRATCH(4, 3) == 168);
    CHECK(tables(carried, len, 2, 2, enough) == 0 && profile_is(carried_rows, 21, totals));
    CHECK(marked(carried, len, 2, 2, enough) == 0 && profile_is(carried_rows, 21, totals));
    CHECK(chars_are(&marks, "\0\0\0\1\0\0\0\0\0", 9));
    CHECK(both_refuse(carried, len, 2, 2, (Short){1, 0, 0, 0}, 4));
    CHECK(both_refuse(carried, len, 2, 2, (Short){0, 1, 0, 0}, 4));
}

static void stray_instructions_are_refused(void) {
    CHECK(NYO_STRAY == 22);
    CHECK(is_refused(CARRY("00000009") RETURN, 22));
    CHECK(is_refused(SITE_1 CARRY("00000009") RETURN, 22 + 256 * 1));
    CHECK(is_refused(SYNC CARRY("00000009") RETURN, 22 + 256 * 1));
    CHECK(is_refused(SITE_1 CALL_1 CARRY("00000009") RETURN RETURN, 22 + 256 * 2));
    CHECK(is_refused(SITE_1 CALL_1 COST("00000001") RETURN CARRY("00000009") RETURN, 22 + 256 * 4));
    CHECK(is_refused(COST("00000001") CARRY("00000009") CARRY("00000009") RETURN, 22 + 256 * 2));
    CHECK(is_refused(COST("00000001") RETURN CARRY("00000009"), 7 + 256 * 2));
    CHECK(is_refused(COST("00000001") CARRY("00000000") RETURN, 6 + 256 * 1));
    CHECK(is_refused(COST("00000001") "0700010000000900000000\n" RETURN, 6 + 256 * 1));
    CHECK(is_refused(COST("00000001") CARRY("0000000g") RETURN, 5 + 256 * 1));
    CHECK(is_refused(COST("00000001") CARRY("00000009"), 14 + 256 * 2));
}

#define ASYNC_1 "1200010000000000000000\n"
#define ASYNC_2 "1200020000000000000000\n"
#define FINISH "1300000000000000000000\n"

static void lines_of_finishes_are_read_and_written(void) {
    const uint64_t async[] = {0x12, 65535, 0, 0, 0}, finish[] = {0x13, 0, 0, 0, 0}, spawn[] = {3, 1, 0, 0, 0}, sync[] = {4, 0, 0, 0, 0};
    CHECK(read_as(finishes, TEXT("12fFfF0000000000000000\n"), 5) == 0 && numbers_are(&frame, async, 5));
    CHECK(read_as(finishes, TEXT(FINISH), 7) == 0 && numbers_are(&frame, finish, 5));
    CHECK(read_as(finishes, TEXT(CALL_1), 5) == 0 && numbers_are(&frame, (const uint64_t[]){2, 1, 0, 0, 0}, 5));
    CHECK(read_as(finishes, TEXT(MOST_COST), 5) == 0 && numbers_are(&frame, (const uint64_t[]){6, 0, 4294967295, 0, 0}, 5));
    CHECK(read_as(finishes, TEXT(SPAWN_1), 5) == 6 && numbers_unchanged(&frame));
    CHECK(read_as(finishes, TEXT(SYNC), 5) == 6 && numbers_unchanged(&frame));
    CHECK(read_as(finishes, TEXT("1200010000000100000000\n"), 5) == 6 && numbers_unchanged(&frame));
    CHECK(read_as(finishes, TEXT("1300010000000000000000\n"), 5) == 6 && numbers_unchanged(&frame));
    CHECK(read_as(finishes, TEXT("1400000000000000000000\n"), 5) == 6 && numbers_unchanged(&frame));
    CHECK(read_as(finishes, TEXT("1200000000000000000000"), 0) == 2 && numbers_unchanged(&frame));
    CHECK(read_as(finishes, TEXT("1g00000000000000000000\n"), 4) == 4 && numbers_unchanged(&frame));
    CHECK(read_as(finishes, TEXT("1g00000000000000000000\n"), 5) == 5 && numbers_unchanged(&frame));
    CHECK(read_line(TEXT(ASYNC_1), 5) == 6 && read_line(TEXT(FINISH), 5) == 6 && numbers_unchanged(&frame));
    CHECK(write_as(finishes, async, 5, 23, 1) == 0);
    CHECK(chars_are(&out, "12ffff0000000000000000\n", 23) && numbers_are(&written, (const uint64_t[]){23}, 1));
    CHECK(write_as(finishes, finish, 5, 30, 2) == 0);
    CHECK(chars_are(&out, FINISH, 23) && numbers_are(&written, (const uint64_t[]){23}, 1));
    CHECK(write_as(finishes, spawn, 5, 23, 1) == 6 && nothing_written());
    CHECK(write_as(finishes, sync, 5, 23, 1) == 6 && nothing_written());
    CHECK(write_as(finishes, (const uint64_t[]){0x13, 1, 0, 0, 0}, 5, 23, 1) == 6 && nothing_written());
    CHECK(write_as(finishes, async, 4, 23, 1) == 4 && nothing_written());
    CHECK(write_as(finishes, async, 5, 22, 1) == 4 && nothing_written());
    CHECK(write_as(finishes, async, 5, 23, 0) == 4 && nothing_written());
    CHECK(write_line(async, 5, 23, 1) == 6 && nothing_written());
    CHECK(write_line(finish, 5, 23, 1) == 6 && nothing_written());
}

/* Both engines profile a trace of asyncs and finishes with two sites, depth 4 and room just enough: the rows, total
 * work and total span, and the lines on the chosen chain, each as one character: 1 or 0. */
static int finishes_are(const char *trace, const uint64_t *expected_rows, uint64_t work, uint64_t span, const char *marked_lines) {
    const Short enough = {0, 0, 0, 0};
    size_t len = strlen(trace), lines = len / NYO_LINE_CHARS;
    const uint64_t totals[] = {work, span, 2, lines};
    uint8_t bytes[64] = {0};
    for (size_t n = 0; n < lines && n < sizeof bytes; n++) bytes[n] = marked_lines[n] == '1';
    int is = tables_as(finishes, trace, len, 4, 2, enough) == 0 && profile_is(expected_rows, 21, totals);
    is = is && marked_as(finishes, trace, len, 4, 2, enough) == 0 && profile_is(expected_rows, 21, totals);
    return is && strlen(marked_lines) == lines && chars_are(&marks, bytes, lines);
}

static void finishes_are_profiled(void) {
    /* call 1 {async 2 {7}, 1}, 2: the call joins nothing, and 7 stand beside 1 and 2. */
    CHECK(finishes_are(SITE_1 SITE_2 CALL_1 ASYNC_2 COST("00000007") RETURN COST("00000001") RETURN COST("00000002") RETURN,
                       (const uint64_t[]){1, 10, 7, 2, 0, 0, 0, 1, 8, 7, 1, 0, 0, 0, 1, 7, 7, 7, 7, 0, 0}, 10, 7, "0000100000"));
    /* finish {call 1 {async 2 {7}, 1}}, 2: the finish joins the 7 before the 2. */
    CHECK(finishes_are(SITE_1 SITE_2 FINISH CALL_1 ASYNC_2 COST("00000007") RETURN COST("00000001") RETURN RETURN COST("00000002")
                           RETURN,
                       (const uint64_t[]){1, 10, 9, 2, 2, 0, 0, 1, 8, 7, 1, 0, 0, 0, 1, 7, 7, 7, 7, 0, 0}, 10, 9, "000001000010"));
    /* call 1 {finish {3, async 2 {5}, 1}, 4}: 3 and 1 are local to row 1, which is called once. */
    CHECK(finishes_are(SITE_1 SITE_2 CALL_1 FINISH COST("00000003") ASYNC_2 COST("00000005") RETURN COST("00000001") RETURN
                           COST("00000004") RETURN RETURN,
                       (const uint64_t[]){1, 13, 12, 0, 0, 0, 0, 1, 13, 12, 8, 7, 0, 0, 1, 5, 5, 5, 5, 0, 0}, 13, 12, "0000101000100"));
    /* async 1 {4 with 1}, 4 with 1,000: two chains of 4, of which the first is chosen. */
    CHECK(finishes_are(SITE_1 SITE_2 ASYNC_1 COST("00000004") CARRY("00000001") RETURN COST("00000004") CARRY("000003E8") RETURN,
                       carried_rows, 8, 4, "000100000"));
    /* finish {}, 2. */
    CHECK(finishes_are(SITE_1 SITE_2 FINISH RETURN COST("00000002") RETURN,
                       (const uint64_t[]){1, 2, 2, 2, 2, 0, 0, 0, 0, 0, 0, 0, 0, 0, 0, 0, 0, 0, 0, 0, 0}, 2, 2, "000010"));
}

/* Both engines of the family refuse a trace with depth 4, three sites and room enough. */
static int finishes_refuse(const char *trace, uint64_t expected) {
    return both_refuse_as(finishes, trace, strlen(trace), 4, 3, (Short){0, 0, 0, 0}, expected);
}

static void finishes_are_refused(void) {
    const char nested[] = FINISH FINISH FINISH RETURN RETURN RETURN RETURN;
    size_t len = sizeof nested - 1;
    CHECK(finishes_refuse(SITE_1 SPAWN_1 RETURN RETURN, 6 + 256 * 1));
    CHECK(finishes_refuse(COST("00000001") SYNC RETURN, 6 + 256 * 1));
    CHECK(is_refused(SITE_1 ASYNC_1 RETURN RETURN, 6 + 256 * 1) && is_refused(FINISH RETURN RETURN, 6));
    CHECK(finishes_refuse(RETURN FINISH, 7 + 256 * 1));
    CHECK(finishes_refuse(FINISH CARRY("00000009") RETURN RETURN, 22 + 256 * 1));
    CHECK(finishes_refuse(FINISH SITE_2 RETURN RETURN, 8 + 256 * 1));
    CHECK(finishes_refuse(ASYNC_1 SITE_1 RETURN RETURN, 11));
    CHECK(finishes_refuse(FINISH FINISH FINISH FINISH, 12 + 256 * 3));
    CHECK(finishes_refuse(FINISH RETURN, 14 + 256 * 2));
    CHECK(both_refuse_as(finishes, nested, len, 0, 3, (Short){0, 0, 0, 0}, 1));
    CHECK(both_refuse_as(finishes, nested, len - 1, 4, 3, (Short){1, 0, 0, 0}, 2));
    CHECK(both_refuse_as(finishes, nested, len, 4, 3, (Short){1, 0, 0, 0}, 4));
    CHECK(both_refuse_as(finishes, nested, len, 4, 3, (Short){0, 1, 0, 0}, 4));
    CHECK(both_refuse_as(finishes, nested, len, 4, 3, (Short){0, 0, 1, 0}, 4));
    CHECK(marked_as(finishes, nested, len, 4, 3, (Short){0, 0, 0, 1}) == 4 && numbers_kept() && chars_unchanged(&marks));
    CHECK(both_refuse_as(finishes, nested, len, 3, 3, (Short){0, 0, 0, 0}, 12 + 256 * 2));
}

/* Both engines on a trace with limits 4 and 3 and so many of these entries. */
static uint64_t forecast_tables(const char *trace, size_t len, const nyo_entry *entries, size_t n, Short less) {
    size_t s = NYO_TABLES_SCRATCH(4, 3) - less.scratch, r = NYO_ROWS(3) - less.rows, a = NYO_ANSWER - less.answer;
    uint64_t *to_scratch = lend_numbers(&scratch, s), *to_rows = lend_numbers(&rows, r), *to_answer = lend_numbers(&answer, a);
    return nyo_forecast_tables((const uint8_t *)trace, len, 4, 3, entries, n, to_scratch, s, to_rows, r, to_answer, a);
}

static uint64_t forecast_marks(const char *trace, size_t len, const nyo_entry *entries, size_t n, Short less) {
    size_t s = NYO_MARKS_SCRATCH(4) - less.scratch, r = NYO_ROWS(3) - less.rows, a = NYO_ANSWER - less.answer;
    size_t m = len / NYO_LINE_CHARS - less.marks;
    uint64_t *to_scratch = lend_numbers(&scratch, s), *to_rows = lend_numbers(&rows, r), *to_answer = lend_numbers(&answer, a);
    uint8_t *to_marks = lend_chars(&marks, m);
    return nyo_forecast_marks((const uint8_t *)trace, len, 4, 3, entries, n, to_scratch, s, to_marks, m, to_rows, r, to_answer, a);
}

/* Both engines forecast a trace of 10 lines and 2 sites so: the rows, total work, total span, and the marks. */
static int forecast_is(const char *trace, const nyo_entry *entries, size_t n, const uint64_t *expected_rows, uint64_t work,
                       uint64_t span, const char *expected_marks) {
    const Short enough = {0, 0, 0, 0};
    const uint64_t totals[] = {work, span, 2, 10};
    size_t len = 10 * NYO_LINE_CHARS;
    int is = forecast_tables(trace, len, entries, n, enough) == 0 && profile_is(expected_rows, 21, totals);
    is = is && forecast_marks(trace, len, entries, n, enough) == 0 && profile_is(expected_rows, 21, totals);
    return is && chars_are(&marks, expected_marks, 10);
}

/* Both engines refuse alike and change nothing. */
static int forecast_refused(const char *trace, size_t len, const nyo_entry *entries, size_t n, Short less, uint64_t expected) {
    int kept = forecast_tables(trace, len, entries, n, less) == expected && numbers_kept();
    return kept && forecast_marks(trace, len, entries, n, less) == expected && numbers_kept() && chars_unchanged(&marks);
}

/* Of case I: 7 by 2 is 4, 7 by 1,000 is 1, 1 by any factor 1, 2 by 2 is 1. Where 7 has become 1 both branches weigh the same,
 * and the first is chosen. */
static void traces_are_forecast(void) {
    const char on_chain[] = "\0\0\0\0\1\0\0\0\1\0";
    const nyo_entry one[] = {{2, 2}}, most[] = {{2, 1000}}, off[] = {{1, 1000}}, root[] = {{0, 2}}, all[] = {{0, 2}, {1, 3}, {2, 4}};
    CHECK(sizeof(nyo_entry) == 16 && NYO_MOST_ENTRIES == 16 && NYO_LEAST_FACTOR == 2 && NYO_MOST_FACTOR == 1000);
    CHECK(forecast_is(case_i, one, 0, case_i_rows, 10, 9, on_chain));
    CHECK(forecast_is(case_i, one, 1, (const uint64_t[]){1, 7, 6, 2, 2, 0, 0, 1, 5, 4, 1, 0, 0, 0, 1, 4, 4, 4, 4, 0, 0}, 7, 6, on_chain));
    CHECK(forecast_is(case_i, most, 1, (const uint64_t[]){1, 4, 3, 2, 2, 0, 0, 1, 2, 1, 1, 0, 0, 0, 1, 1, 1, 1, 1, 0, 0}, 4, 3, on_chain));
    CHECK(forecast_is(case_i, off, 1, case_i_rows, 10, 9, on_chain));
    CHECK(forecast_is(case_i, root, 1, (const uint64_t[]){1, 9, 8, 1, 1, 0, 0, 1, 8, 7, 1, 0, 0, 0, 1, 7, 7, 7, 7, 0, 0}, 9, 8, on_chain));
    CHECK(forecast_is(case_i, all, 3, (const uint64_t[]){1, 4, 3, 1, 1, 0, 0, 1, 3, 2, 1, 0, 0, 0, 1, 2, 2, 2, 2, 0, 0}, 4, 3, on_chain));
}

/* 4 by 2 is 2, beside 4: the chain goes over to the root's, and the instructions stay as they are. */
static void instructions_stay_in_a_forecast(void) {
    const Short enough = {0, 0, 0, 0};
    const nyo_entry halved[] = {{1, 2}};
    const uint64_t expected[] = {1, 6, 4, 4, 4, 1000, 1000, 1, 2, 2, 2, 0, 1, 0, 0, 0, 0, 0, 0, 0, 0}, totals[] = {6, 4, 2, 9};
    CHECK(forecast_tables(carried, sizeof carried - 1, halved, 1, enough) == 0 && profile_is(expected, 21, totals));
    CHECK(forecast_marks(carried, sizeof carried - 1, halved, 1, enough) == 0 && profile_is(expected, 21, totals));
    CHECK(chars_are(&marks, "\0\0\0\0\0\0\1\0\0", 9));
}

static void forecasts_are_refused(void) {
    const Short enough = {0, 0, 0, 0};
    size_t len = sizeof case_i - 1;
    nyo_entry many[17];
    for (size_t n = 0; n < 17; n++) many[n] = (nyo_entry){n, 2};
    const nyo_entry twice[] = {{1, 2}, {1, 2}}, unordered[] = {{2, 2}, {1, 2}}, above[] = {{0, 2}, {3, 2}}, far[] = {{256, 2}};
    const nyo_entry none[] = {{1, 0}}, same[] = {{1, 1}}, large[] = {{1, 1001}}, last[] = {{0, 2}, {2, UINT64_MAX}};
    const nyo_entry both[] = {{0, 0}, {2, 2}, {1, 2}};
    CHECK(forecast_refused(case_i, len, many, 17, enough, 19));
    CHECK(forecast_refused(case_i, len, many, 16, enough, 19));
    CHECK(forecast_refused(case_i, len, twice, 2, enough, 19));
    CHECK(forecast_refused(case_i, len, unordered, 2, enough, 19));
    CHECK(forecast_refused(case_i, len, above, 2, enough, 19));
    CHECK(forecast_refused(case_i, len, far, 1, enough, 19));
    CHECK(forecast_refused(case_i, len, none, 1, enough, 20));
    CHECK(forecast_refused(case_i, len, same, 1, enough, 20));
    CHECK(forecast_refused(case_i, len, large, 1, enough, 20));
    CHECK(forecast_refused(case_i, len, last, 2, enough, 20));
    CHECK(forecast_refused(case_i, len, both, 3, enough, 19));
    CHECK(forecast_refused(case_i, len - 1, both, 3, enough, 2));
    CHECK(forecast_refused(case_i, len, both, 3, (Short){1, 0, 0, 0}, 4));
    CHECK(forecast_refused(case_i, len, both, 3, (Short){0, 1, 0, 0}, 4));
    CHECK(forecast_refused(case_i, len, both, 3, (Short){0, 0, 1, 0}, 4));
    CHECK(forecast_marks(case_i, len, both, 3, (Short){0, 0, 0, 1}) == 4 && numbers_kept() && chars_unchanged(&marks));
    CHECK(forecast_refused(case_i, len - 23, both, 3, enough, 14 + 256 * 9));
}

static const char names[] = "main\nload\n\n", stock_names[] = "root\none\ntwo";

/* Folded stacks with these lists: of case I the root's and site 1's names are the project's, site 2's is the stock list's. */
static uint64_t folded(const char *trace, size_t len, const char *project, const char *stock, size_t s, size_t room,
                       size_t count_room) {
    uint64_t *to_scratch = lend_numbers(&scratch, s), *to = lend_numbers(&written, count_room);
    uint8_t *text = lend_chars(&out, room);
    return nyo_folded((const uint8_t *)trace, len, 4, 3, (const uint8_t *)project, strlen(project), (const uint8_t *)stock,
                      strlen(stock), to_scratch, s, text, room, to, count_room);
}

static int text_is(const char *expected) {
    size_t n = strlen(expected);
    return chars_are(&out, expected, n) && numbers_are(&written, (const uint64_t[]){n}, 1) &&
           numbers_are(&scratch, zeros, scratch.len);
}

static int nothing_folded(void) { return nothing_written() && numbers_unchanged(&scratch); }

static void stacks_are_folded(void) {
    size_t len = sizeof case_i - 1;
    const char text[] = "main;load;two 7\nmain;load 1\nmain 2\n";
    CHECK(sizeof text - 1 == 35 && NYO_FOLDED_CHARS(3, 4, 4) == 3 * (4 * 5 + 11));
    CHECK(folded(case_i, len, names, stock_names, NYO_FOLDED_SCRATCH(4), 35, 1) == 0 && text_is(text));
    CHECK(folded(case_i, len, names, stock_names, 9, 40, 3) == 0 && text_is(text));
    CHECK(folded(case_i, len, "", stock_names, 4, 35, 1) == 0 && text_is("root;one;two 7\nroot;one 1\nroot 2\n"));
    CHECK(folded(case_k, sizeof case_k - 1, names, stock_names, 4, 34, 1) == 0 && text_is("main;load 1\nmain;load;load 2\n"));
    CHECK(folded("0500000000000000000000\n", 23, names, stock_names, 4, 0, 1) == 0 && text_is(""));
    CHECK(folded(carried, sizeof carried - 1, names, stock_names, 4, 19, 1) == 0 && text_is("main;load 4\nmain 4\n"));
    CHECK(folded(case_i, len - 1, "", "", 3, 0, 0) == 2 && nothing_folded());
    CHECK(folded(case_i, len, "", "", 3, 0, 1) == 4 && nothing_folded());
    CHECK(folded(case_i, len, "", "", 4, 0, 0) == 4 && nothing_folded());
    CHECK(folded(case_i, len - 23, "", "", 4, 0, 1) == 14 + 256 * 9 && nothing_folded());
    CHECK(folded(case_i, len, "", "", 4, 0, 1) == 17 && nothing_folded());
    CHECK(folded(case_i, len, "main\nload", "", 4, 0, 1) == 17 + 256 * 2 && nothing_folded());
    CHECK(folded(case_i, len, "main\nlo;ad", stock_names, 4, 0, 1) == 17 + 256 * 1 && nothing_folded());
    CHECK(folded(case_i, len, "main\r\nload\r\n", stock_names, 4, 0, 1) == 17 && nothing_folded());
    CHECK(folded(case_i, len, names, stock_names, 4, 34, 1) == 18 && nothing_folded());
}

static uint64_t compact(const char *trace, size_t len, uint64_t depth, uint64_t sites, size_t room, size_t count_room) {
    uint8_t *text = lend_chars(&out, room);
    uint64_t *to = lend_numbers(&written, count_room);
    return nyo_compact((const uint8_t *)trace, len, depth, sites, text, room, to, count_room);
}

/* What is left of a trace, in room just enough and in more; in room for one character less it is refused; and what is
 * left of that is itself. */
static int leaves(const char *trace, const char *left) {
    size_t len = strlen(trace), n = strlen(left);
    const uint64_t count[] = {n};
    int just = compact(trace, len, 4, 3, n, 1) == 0 && chars_are(&out, left, n) && numbers_are(&written, count, 1);
    int more = compact(trace, len, 4, 3, len, 3) == 0 && chars_are(&out, left, n) && numbers_are(&written, count, 1);
    int again = compact(left, n, 4, 3, n, 1) == 0 && chars_are(&out, left, n) && numbers_are(&written, count, 1);
    return just && more && again && compact(trace, len, 4, 3, n - 1, 1) == 21 && nothing_written();
}

/* Two sites; then events, of which a line is left out or merged wherever it says nothing. */
#define LEAVES(trace, left) leaves(SITE_1 SITE_2 trace RETURN, SITE_1 SITE_2 left RETURN)
#define SPAWNED SPAWN_1 COST("00000004") RETURN

static void traces_are_compacted(void) {
    CHECK(leaves(case_i, case_i) && leaves(case_k, case_k) && leaves(RETURN, RETURN));
    CHECK(LEAVES(SYNC COST("00000005"), COST("00000005")));
    CHECK(LEAVES(CALL_1 SYNC COST("00000005") RETURN, CALL_1 COST("00000005") RETURN));
    CHECK(LEAVES(SPAWNED SYNC SYNC COST("00000004"), SPAWNED SYNC COST("00000004")));
    CHECK(LEAVES(SPAWNED SYNC COST("00000004"), SPAWNED SYNC COST("00000004")));
    CHECK(LEAVES(SPAWNED SYNC SYNC, SPAWNED));
    CHECK(LEAVES(SPAWNED SYNC COST("00000004") SYNC, SPAWNED SYNC COST("00000004")));
    CHECK(LEAVES(SPAWNED COST("00000002") SYNC SYNC COST("00000001"), SPAWNED COST("00000002") SYNC COST("00000001")));
    CHECK(LEAVES(CALL_1 SPAWNED RETURN SYNC COST("00000001"), CALL_1 SPAWNED RETURN COST("00000001")));
    CHECK(LEAVES(SPAWNED CALL_1 SYNC RETURN SYNC COST("00000001"), SPAWNED CALL_1 RETURN SYNC COST("00000001")));
    CHECK(LEAVES(COST("00000007") COST("00000008"), COST("0000000f")));
    CHECK(LEAVES(COST("0000000A") COST("000000aB"), COST("000000b5")));
    CHECK(LEAVES(COST("00000001") SYNC COST("00000002"), COST("00000003")));
    CHECK(LEAVES(COST("00000001") CALL_1 RETURN COST("00000002"), COST("00000001") CALL_1 RETURN COST("00000002")));
    CHECK(LEAVES(COST("fffffffe") COST("00000001"), MOST_COST));
    CHECK(LEAVES(MOST_COST COST("00000001"), MOST_COST COST("00000001")));
    CHECK(LEAVES(MOST_COST COST("00000001") COST("00000002"), MOST_COST COST("00000003")));
    CHECK(leaves(on_the_way, on_the_way));
    CHECK(LEAVES(COST("00000001") SITE_3 COST("00000002"), COST("00000001") SITE_3 COST("00000002")));
    CHECK(LEAVES(COST("00000001") SYNC SITE_3 COST("00000002"), COST("00000001") SITE_3 COST("00000002")));
    CHECK(LEAVES(SPAWNED SYNC SITE_3, SPAWNED SYNC SITE_3));
    CHECK(LEAVES(SPAWNED SYNC SITE_3 SYNC, SPAWNED SYNC SITE_3));
    CHECK(LEAVES(SPAWNED SITE_3 SYNC, SPAWNED SITE_3));
}

static void instructions_are_compacted(void) {
    CHECK(leaves(SITE_1 SITE_2 SPAWN_1 COST("0000000a") CARRY("000000AB") RETURN RETURN,
                 SITE_1 SITE_2 SPAWN_1 COST("0000000a") CARRY("000000ab") RETURN RETURN));
    CHECK(LEAVES(COST("00000001") CARRY("00000002") COST("00000003") CARRY("00000004"), COST("00000004") CARRY("00000006")));
    CHECK(LEAVES(COST("00000001") CARRY("00000002") COST("00000003"), COST("00000004") CARRY("00000002")));
    CHECK(LEAVES(COST("00000001") COST("00000003") CARRY("00000004"), COST("00000004") CARRY("00000004")));
    CHECK(LEAVES(COST("00000001") CARRY("fffffffe") COST("00000002") CARRY("00000001"), COST("00000003") MOST_CARRY));
    CHECK(LEAVES(COST("00000001") MOST_CARRY COST("00000002") CARRY("00000001"),
                 COST("00000001") MOST_CARRY COST("00000002") CARRY("00000001")));
    CHECK(LEAVES(MOST_COST CARRY("00000001") COST("00000002") CARRY("00000001"),
                 MOST_COST CARRY("00000001") COST("00000002") CARRY("00000001")));
    CHECK(LEAVES(COST("00000001") MOST_CARRY COST("00000002") CARRY("00000001") COST("00000003"),
                 COST("00000001") MOST_CARRY COST("00000005") CARRY("00000001")));
    CHECK(LEAVES(COST("00000001") CARRY("00000002") SYNC COST("00000003") CARRY("00000004"), COST("00000004") CARRY("00000006")));
    CHECK(LEAVES(COST("00000001") CARRY("00000002") SITE_3 COST("00000003") CARRY("00000004"),
                 COST("00000001") CARRY("00000002") SITE_3 COST("00000003") CARRY("00000004")));
}

static void compactions_are_refused(void) {
    size_t len = sizeof case_i - 1;
    CHECK(NYO_COMPACT_CHARS(len) == 230 && NYO_COMPACT_ROOM == 21);
    CHECK(compact(case_i, len, 0, 3, len, 1) == 1 && nothing_written());
    CHECK(compact(case_i, len, 4, 256, len, 1) == 1 && nothing_written());
    CHECK(compact(case_i, len - 1, 4, 3, 0, 0) == 2 && nothing_written());
    CHECK(compact(case_i, len, 4, 3, len, 0) == 4 && nothing_written());
    CHECK(compact(case_i, len, 4, 3, 0, 0) == 4 && nothing_written());
    CHECK(compact(case_i, len, 4, 1, 0, 1) == 9 + 256 * 1 && nothing_written());
    CHECK(compact(case_i, len, 2, 3, 0, 1) == 12 + 256 * 3 && nothing_written());
    CHECK(compact(case_i, len - 23, 4, 3, 0, 1) == 14 + 256 * 9 && nothing_written());
    CHECK(compact(case_i, len, 4, 3, 0, 1) == 21 && nothing_written());
}

/* Why a line is not on the span, with limits 4 and 3 and so many numbers less lent than needed. */
static uint64_t why(const char *trace, size_t len, uint64_t depth, uint64_t sites, uint32_t line, Short less) {
    size_t s = NYO_MARKS_SCRATCH(depth) - less.scratch, a = NYO_WHY - less.answer, m = len / NYO_LINE_CHARS - less.marks;
    uint64_t *to_scratch = lend_numbers(&scratch, s), *to_answer = lend_numbers(&answer, a);
    uint8_t *to_marks = lend_chars(&marks, m);
    return nyo_why((const uint8_t *)trace, len, depth, sites, line, to_scratch, s, to_marks, m, to_answer, a);
}

/* The answer for a line, and the lines that are marked, each as one character: 1 or 0. */
static int says(const char *trace, uint32_t line, uint64_t which, uint64_t number, const char *marked_lines) {
    size_t lines = strlen(trace) / NYO_LINE_CHARS;
    const uint64_t expected[] = {which, number};
    uint8_t bytes[64] = {0};
    for (size_t n = 0; n < lines && n < sizeof bytes; n++) bytes[n] = marked_lines[n] == '1';
    int given = why(trace, strlen(trace), 4, 3, line, (Short){0, 0, 0, 0}) == 0 && strlen(marked_lines) == lines;
    return given && numbers_are(&answer, expected, NYO_WHY) && chars_are(&marks, bytes, lines) &&
           numbers_are(&scratch, zeros, scratch.len);
}

static int nothing_said(void) {
    return numbers_unchanged(&scratch) && numbers_unchanged(&answer) && chars_unchanged(&marks);
}

/* Case G: 1, spawn 1 {10}, 2, spawn 1 {8}, 1. The chains 1, 10 and 1, 2, 8 weigh 11, and the last 1 is beside both. */
static const char case_g[] = SITE_1 SITE_2 COST("00000001") SPAWN_1 COST("0000000a") RETURN COST("00000002") SPAWN_1
    COST("00000008") RETURN COST("00000001") RETURN;

static void lines_are_explained(void) {
    CHECK(NYO_WHY == 2 && NYO_NOT_COST == 0 && NYO_ON_CHAIN == 1 && NYO_SLACK == 2 && NYO_TIED == 3);
    CHECK(says(case_g, 0, NYO_NOT_COST, 0, "000000000000"));
    CHECK(says(case_g, 2, NYO_ON_CHAIN, 0, "001010000000"));
    CHECK(says(case_g, 3, NYO_NOT_COST, 0, "000000000000"));
    CHECK(says(case_g, 4, NYO_ON_CHAIN, 0, "001010000000"));
    CHECK(says(case_g, 5, NYO_NOT_COST, 0, "000000000000"));
    CHECK(says(case_g, 6, NYO_TIED, 4, "001000101000"));
    CHECK(says(case_g, 8, NYO_TIED, 4, "001000101000"));
    CHECK(says(case_g, 10, NYO_SLACK, 7, "001000100010"));
    CHECK(says(case_g, 11, NYO_NOT_COST, 0, "000000000000"));
    CHECK(says(case_i, 4, NYO_ON_CHAIN, 0, "0000100010"));
    CHECK(says(case_i, 6, NYO_SLACK, 6, "0000001010"));
    CHECK(says(carried, 3, NYO_ON_CHAIN, 0, "000100000"));
    CHECK(says(carried, 4, NYO_NOT_COST, 0, "000000000"));
    CHECK(says(carried, 6, NYO_TIED, 3, "000000100"));
    CHECK(says(carried, 7, NYO_NOT_COST, 0, "000000000"));
    CHECK(says(on_the_way, 3, NYO_NOT_COST, 0, "000000000000"));
    CHECK(says(on_the_way, 8, NYO_SLACK, 3, "100000001000"));
    CHECK(says(SITE_1 SPAWN_1 MOST_COST MOST_COST RETURN COST("00000001") RETURN, 5, NYO_SLACK, UINT64_C(8589934589), "0000010"));
    CHECK(says(RETURN, 0, NYO_NOT_COST, 0, "0"));
    CHECK(says(COST("00000005") RETURN, 0, NYO_ON_CHAIN, 0, "10"));
}

static void questions_are_refused(void) {
    const Short enough = {0, 0, 0, 0};
    size_t len = sizeof case_g - 1;
    CHECK(NYO_PAST_END == 23);
    CHECK(why(case_g, len, 4, 3, 12, enough) == 23 + 256 * 12 && nothing_said());
    CHECK(why(case_g, len, 4, 3, 13, enough) == 23 + 256 * 13 && nothing_said());
    CHECK(why(case_g, len, 4, 3, UINT32_MAX, enough) == 23 + 256 * (uint64_t)UINT32_MAX && nothing_said());
    CHECK(why(case_g, len, 0, 3, 12, enough) == 1 && nothing_said());
    CHECK(why(case_g, len, 4, 256, 12, enough) == 1 && nothing_said());
    CHECK(why(case_g, len - 1, 4, 3, 12, (Short){1, 0, 0, 0}) == 2 && nothing_said());
    CHECK(why(case_g, len, 4, 3, 6, (Short){1, 0, 0, 0}) == 4 && nothing_said());
    CHECK(why(case_g, len, 4, 3, 6, (Short){0, 0, 1, 0}) == 4 && nothing_said());
    CHECK(why(case_g, len, 4, 3, 6, (Short){0, 0, 0, 1}) == 4 && nothing_said());
    CHECK(why(case_g, len, 4, 3, 12, (Short){0, 0, 2, 0}) == 4 && nothing_said());
    CHECK(why(case_g, len, 4, 1, 12, enough) == 9 + 256 * 1 && nothing_said());
    CHECK(why(case_g, len, 1, 3, 12, enough) == 12 + 256 * 3 && nothing_said());
    CHECK(why(case_g, len - 23, 4, 3, 99, enough) == 14 + 256 * 11 && nothing_said());
    CHECK(why(case_g, 0, 4, 3, 0, enough) == 14 && nothing_said());
    CHECK(why(SYNC CARRY("00000009") RETURN, 69, 4, 3, 99, enough) == 22 + 256 * 1 && nothing_said());
}

int main(void) {
    lines_are_read();
    lines_are_written();
    reports_are_written();
    refusals_are_written();
    sheets_are_written();
    sheets_are_read();
    traces_are_profiled();
    traces_are_refused();
    sites_on_the_way_are_refused();
    instructions_are_profiled();
    stray_instructions_are_refused();
    lines_of_finishes_are_read_and_written();
    finishes_are_profiled();
    finishes_are_refused();
    traces_are_forecast();
    instructions_stay_in_a_forecast();
    forecasts_are_refused();
    stacks_are_folded();
    traces_are_compacted();
    instructions_are_compacted();
    compactions_are_refused();
    lines_are_explained();
    questions_are_refused();
    printf("%u passed, %u failed\n", passed, failed);
    return failed != 0;
}
