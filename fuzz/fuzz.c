/* A fuzz target over every exported function, for clang's libFuzzer with the address sanitizer.
 *
 * An input is a short program that writes a trace of each family, so that most inputs get past the first checks: its
 * head says the limits and how much room is lent, and each byte after it a line. What is lent lies against a page that
 * cannot be touched, at either end, so that a step outside is a fault in the library's own code too. What comes back is
 * held against what every caller may rely on. */
#include <stdint.h>
#include <stdio.h>
#include <stdlib.h>
#include <string.h>
#include <sys/mman.h>
#include <unistd.h>

#include "nyolifuwe.h"

#define MUST(holds) ((holds) ? (void)0 : broken(#holds, __LINE__))

static void broken(const char *what, int line) {
    fprintf(stderr, "fuzz.c:%d: does not hold: %s\n", line, what);
    abort();
}

/* What libFuzzer is to find new: it sees nothing of the library, so kinds of outcome are counted here. */
__attribute__((section("__libfuzzer_extra_counters"))) static uint8_t seen[8192];

static void count(unsigned kind, uint64_t how) {
    unsigned size = 0;
    while (how >>= 1) size++;
    seen[(kind * 64 + size) % sizeof seen] = 1;
}

/* A family's functions: of the traces that spawn and sync, and of those of asyncs and finishes. */
typedef struct {
    uint64_t (*read_line)(const uint8_t *, size_t, uint64_t *, size_t);
    uint64_t (*write_line)(const uint64_t *, size_t, uint8_t *, size_t, uint64_t *, size_t);
    uint64_t (*tables)(const uint8_t *, size_t, uint64_t, uint64_t, uint64_t *, size_t, uint64_t *, size_t, uint64_t *, size_t);
    uint64_t (*marks)(const uint8_t *, size_t, uint64_t, uint64_t, uint64_t *, size_t, uint8_t *, size_t, uint64_t *, size_t,
                      uint64_t *, size_t);
} Family;

static const Family spawns = {nyo_read_line, nyo_write_line, nyo_tables, nyo_marks};
static const Family finishes = {nyo_finish_read_line, nyo_finish_write_line, nyo_finish_tables, nyo_finish_marks};

/* The length of an input's head. */
enum { HEAD = 48 };

/* The input, byte by byte; zeros behind its end. */
typedef struct {
    const uint8_t *at, *end;
} Input;

static unsigned next(Input *in) { return in->at < in->end ? *in->at++ : 0; }

/* ---- lent room ---- */

/* Pages between two that cannot be touched. */
typedef struct {
    uint8_t *first;
    size_t size;
} Pages;

/* Lent room at one end of its pages, filled with rubbish from one of 256 places on. */
typedef struct {
    Pages *pages;
    uint8_t *at;
    size_t bytes;
    uint8_t seed;
} Room;

enum { STRIP = 64 };

static Pages pages_of(size_t bytes) {
    size_t page = (size_t)sysconf(_SC_PAGESIZE), size = (bytes + 2 * STRIP + page - 1) / page * page;
    uint8_t *all = mmap(NULL, size + 2 * page, PROT_NONE, MAP_PRIVATE | MAP_ANONYMOUS, -1, 0);
    MUST(all != MAP_FAILED && !mprotect(all + page, size, PROT_READ | PROT_WRITE));
    return (Pages){all + page, size};
}

/* As much rubbish as any room needs, and where it begins for a room. */
enum { MOST_RUBBISH = 8 * NYO_TABLES_SCRATCH(NYO_MOST_DEPTH, NYO_MOST_SITES) };
static uint8_t rubbish[MOST_RUBBISH + 256];

static void make_rubbish(void) {
    uint32_t x = 1;
    for (size_t i = 0; i < sizeof rubbish; i++) rubbish[i] = (uint8_t)((x = x * 1664525 + 1013904223) >> 24);
}

static Room lend(Pages *pages, size_t bytes, Input *in) {
    unsigned how = next(in);
    Room r = {pages, how & 1 ? pages->first : pages->first + pages->size - bytes, bytes, (uint8_t)how};
    memcpy(r.at, rubbish + r.seed, bytes);
    uint8_t *beside = how & 1 ? r.at + bytes : r.at - STRIP;
    memset(beside, 0xa5, STRIP);
    return r;
}

/* From byte n on the room is as it was, and so is the strip beside it. */
static int kept_from(const Room *r, size_t n) {
    const uint8_t *beside = r->at == r->pages->first ? r->at + r->bytes : r->at - STRIP;
    for (size_t i = 0; i < STRIP; i++)
        if (beside[i] != 0xa5) return 0;
    return !memcmp(r->at + n, rubbish + r->seed + n, r->bytes - n);
}

static uint64_t *numbers(const Room *r) { return (uint64_t *)r->at; }

/* ---- a trace from the input ---- */

enum { MOST_CHARS = 1 << 16 };

typedef struct {
    uint8_t chars[MOST_CHARS + NYO_LINE_CHARS];
    size_t len;
    unsigned open, sites, alike, finishes;
} Trace;

static void put_line(Trace *t, const uint64_t *frame) {
    if (t->len + NYO_LINE_CHARS > MOST_CHARS) return;
    static const char digits[] = "0123456789abcdef";
    static const unsigned width[NYO_FRAME] = {2, 4, 8, 4, 4};
    uint8_t *to = t->chars + t->len;
    for (unsigned f = 0; f < NYO_FRAME; f++)
        for (unsigned d = width[f]; d-- > 0;) *to++ = (uint8_t)digits[frame[f] >> 4 * d & 15];
    *to = '\n';
    t->len += NYO_LINE_CHARS;
}

static void put_raw(Trace *t, Input *in, unsigned n) {
    for (; n > 0 && t->len < MOST_CHARS; n--) t->chars[t->len++] = (uint8_t)next(in);
}

/* Four bytes of the input as a number. */
static uint64_t next_wide(Input *in) {
    uint64_t wide = 0;
    for (unsigned i = 0; i < 4; i++) wide = wide << 8 | next(in);
    return wide;
}

/* One byte of the input, and sometimes some more, as a line; as two, where a cost has its instructions behind it. */
static void put_item(Trace *t, Input *in) {
    unsigned item = next(in), what = item % 8, more = item / 8;
    uint64_t wide = 0;
    switch (what) {
    case 0:
        put_line(t, (const uint64_t[]){6, 0, !more ? 0 : t->alike ? 1 : 1 + more % 16, 0, 0});
        if (more >= 16) put_line(t, (const uint64_t[]){7, 0, next(in), 0, 0});
        break;
    case 1:
        wide = next_wide(in);
        put_line(t, (const uint64_t[]){6, 0, t->alike ? 1 : wide, 0, 0});
        if (more % 2) put_line(t, (const uint64_t[]){7, 0, next_wide(in), 0, 0});
        break;
    case 2:
    case 3:
        wide = t->finishes && what == 3 ? 0x12 : what;
        put_line(t, (const uint64_t[]){wide, more < 28 ? more % 8 : next(in), 0, 0, 0});
        t->open++;
        break;
    case 4:
        if (more >= 28) put_line(t, (const uint64_t[]){7, 0, more, 0, 0});
        else if (!t->finishes) put_line(t, (const uint64_t[]){4, 0, 0, 0, 0});
        else if (more % 2 && t->open > 1) put_line(t, (const uint64_t[]){5, 0, 0, 0, 0}), t->open--;
        else put_line(t, (const uint64_t[]){0x13, 0, 0, 0, 0}), t->open++;
        break;
    case 5:
        put_line(t, (const uint64_t[]){5, 0, 0, 0, 0});
        t->open -= t->open > 0;
        break;
    case 6:
        wide = more < 28 ? ++t->sites : next(in);
        put_line(t, (const uint64_t[]){1, wide, more < 30 ? wide : next(in), 1 + more % 4, 1});
        break;
    default: put_raw(t, in, more < 28 ? NYO_LINE_CHARS : more); break;
    }
}

/* A family's trace that mostly ends with its returns; one in four with all costs alike, so that chains tie. */
static void put_trace(Trace *t, Input *in, int of_finishes) {
    unsigned how = next(in), closed = how % 4;
    t->len = 0, t->open = 1, t->sites = 0, t->alike = how / 4 % 4 == 0, t->finishes = of_finishes;
    while (in->at < in->end && t->len < MOST_CHARS) put_item(t, in);
    for (; closed && t->open > 0; t->open--) put_line(t, (const uint64_t[]){5, 0, 0, 0, 0});
}

/* ---- lists of names from the input ---- */

enum { MOST_NAMES = 300, MOST_NAME = 64 };

typedef struct {
    uint8_t chars[MOST_NAMES * (MOST_NAME + 1)];
    size_t len;
} Names;

/* A line of a list: empty, a name of some letters, or some bytes of the input. */
static void put_name(Names *list, Input *in, unsigned empty) {
    unsigned how = next(in), letters = 1 + how % 7;
    if (how >= empty && how < 250)
        memset(list->chars + list->len, 33 + (int)(how % 26), letters), list->len += letters;
    for (unsigned i = 250; i < how; i++) list->chars[list->len++] = (uint8_t)next(in);
}

/* A list of so many lines, mostly; the last one with its line feed or without. */
static void put_names(Names *list, Input *in, size_t lines, unsigned empty) {
    unsigned how = next(in);
    list->len = 0;
    if (how > 240) lines = how - 240;
    for (size_t n = 0; n < lines; n++) {
        put_name(list, in, empty);
        list->chars[list->len++] = '\n';
    }
    if (how % 2 && list->len > 0) list->len--;
}

/* ---- forecast entries from the input ---- */

enum { MOST_ENTRIES = 40 };

typedef struct {
    nyo_entry at[MOST_ENTRIES];
    size_t len;
} Entries;

/* Entries over so many declared sites, mostly ascending and in range; with now and then a wrong row, factor or length. */
static void put_entries(Entries *list, Input *in, uint64_t declared) {
    static const uint64_t rows[] = {0, 1, 255, 256, UINT64_C(1) << 32, UINT64_MAX};
    static const uint64_t factors[] = {0, 1, 1001, 1000, (UINT64_C(1) << 32) + 2, UINT64_MAX};
    unsigned how = next(in);
    size_t most = how > 250 ? MOST_ENTRIES : how > 200 ? NYO_MOST_ENTRIES : how % 4;
    uint64_t row = next(in) % 4;
    for (list->len = 0; list->len < most && (row <= declared || how > 245); list->len++, row += 1 + next(in) % 3) {
        unsigned each = next(in);
        list->at[list->len].row = each > 252 ? rows[next(in) % 6] : row;
        list->at[list->len].factor = each > 245 ? factors[next(in) % 6] : 2 + each * 4 % 999;
    }
}

/* ---- what holds ---- */

static Pages of_trace, of_scratch, of_marks, of_rows, of_answer, of_frame, of_out, of_text, of_written;
static Pages of_names[2], of_stacks, of_entries, of_compact;

static void reserve(void) {
    make_rubbish();
    of_trace = pages_of(sizeof(Trace));
    of_scratch = pages_of(8 * NYO_TABLES_SCRATCH(NYO_MOST_DEPTH, NYO_MOST_SITES));
    of_marks = pages_of(sizeof(Trace) / NYO_LINE_CHARS);
    of_rows = pages_of(8 * NYO_ROWS(NYO_MOST_SITES));
    of_answer = pages_of(8 * NYO_ANSWER);
    of_frame = pages_of(8 * NYO_FRAME);
    of_out = pages_of(NYO_CSV_CHARS(NYO_MOST_SITES));
    of_text = pages_of(2 * NYO_CSV_CHARS(NYO_MOST_SITES) + 64);
    of_written = pages_of(8);
    of_names[0] = pages_of(sizeof(Names)), of_names[1] = pages_of(sizeof(Names));
    of_stacks = pages_of(MOST_RUBBISH);
    of_entries = pages_of(sizeof(Entries));
    of_compact = pages_of(sizeof(Trace));
}

/* A number of bytes that is mostly enough, sometimes an element short, sometimes none. */
static size_t enough(size_t elements, size_t size, Input *in) {
    unsigned how = next(in);
    if (how == 255) return 0;
    return how > 250 && elements > 0 ? (elements - 1) * size : elements * size;
}

/* A capital digit as the small one; any other character as it is. */
static uint8_t small(uint8_t c) { return c >= 'A' && c <= 'F' ? (uint8_t)(c + 'a' - 'A') : c; }

/* A line that is read is written as it stood, in small letters, and a refused one leaves the frame alone. */
static uint64_t read_and_write(const Family *f, const uint8_t *line, size_t len, Input *in) {
    Room frame = lend(&of_frame, enough(NYO_FRAME, 8, in), in), out = lend(&of_out, enough(NYO_LINE_CHARS, 1, in), in);
    Room written = lend(&of_written, enough(1, 8, in), in);
    uint64_t given = f->read_line(line, len, numbers(&frame), frame.bytes / 8);
    count(1, given);
    if (given) {
        MUST((given == 2) == (len != NYO_LINE_CHARS));
        MUST((given == 2 || given == 4 || given == 5 || given == 6) && kept_from(&frame, 0));
    } else {
        MUST(kept_from(&frame, 8 * NYO_FRAME));
    }
    uint64_t back = f->write_line(numbers(&frame), frame.bytes / 8, out.at, out.bytes, numbers(&written), written.bytes / 8);
    count(2, back);
    if (back) {
        MUST((back == 4 || back == 6) && kept_from(&out, 0) && kept_from(&written, 0));
        MUST((back == 4) == (frame.bytes < 8 * NYO_FRAME || out.bytes < NYO_LINE_CHARS || written.bytes < 8));
        MUST(given || back == 4);
    } else {
        MUST(numbers(&written)[0] == NYO_LINE_CHARS && kept_from(&written, 8) && kept_from(&out, NYO_LINE_CHARS));
        for (unsigned i = 0; !given && i < NYO_LINE_CHARS; i++) MUST(out.at[i] == small(line[i]));
    }
    return !given && numbers(&frame)[0] == 6 ? numbers(&frame)[2] : 0;
}

static void print_refusal(uint64_t number, uint64_t line, Input *in) {
    Room out = lend(&of_out, enough(NYO_REFUSAL_CHARS, 1, in), in), written = lend(&of_written, enough(1, 8, in), in);
    uint64_t given = nyo_refusal(number, line, out.at, out.bytes, numbers(&written), written.bytes / 8);
    count(3, given);
    if (given) {
        MUST((given == 1) == (number > 255 || line > UINT32_MAX));
        MUST((given == 1 || given == 4) && kept_from(&out, 0) && kept_from(&written, 0));
    } else {
        char expected[NYO_REFUSAL_CHARS + 1];
        snprintf(expected, sizeof expected, "ff%02x%08x\n", (uint8_t)number, (unsigned)line);
        MUST(numbers(&written)[0] == NYO_REFUSAL_CHARS && kept_from(&written, 8));
        MUST(!memcmp(out.at, expected, NYO_REFUSAL_CHARS) && kept_from(&out, NYO_REFUSAL_CHARS));
    }
}

/* The report of some rows by the C library, the full one or without idle rows, and its length. */
static size_t expected_report(char *text, const uint64_t *rows, uint64_t sites, int full) {
    size_t n = 0;
    for (size_t row = 0; row <= sites; row++, rows += NYO_COLUMNS) {
        if (row > 0 && !full && rows[NYO_CALLS] == 0) continue;
        n += (size_t)sprintf(text + n, "%04zx", row);
        for (size_t k = 0; k < NYO_COLUMNS; k++) n += (size_t)sprintf(text + n, "%016llx", (unsigned long long)rows[k]);
        text[n++] = '\n';
    }
    return n;
}

/* One of the two reports of some rows, of which the last number may be missing. */
static void print_report(const uint64_t *rows, uint64_t sites, int full, Input *in) {
    static char expected[NYO_REPORT_CHARS(NYO_MOST_SITES) + 1];
    size_t len = expected_report(expected, rows, sites, full);
    Room lent = lend(&of_rows, enough(NYO_ROWS(sites), 8, in), in);
    memcpy(lent.at, rows, lent.bytes);
    Room out = lend(&of_out, enough(len, 1, in), in), written = lend(&of_written, enough(1, 8, in), in);
    uint64_t given = (full ? nyo_full_report : nyo_report)(numbers(&lent), lent.bytes / 8, sites, out.at, out.bytes,
                                                           numbers(&written), written.bytes / 8);
    count(full ? 4 : 39, given);
    MUST(!memcmp(lent.at, rows, lent.bytes) && len <= NYO_REPORT_CHARS(sites));
    if (lent.bytes < 8 * NYO_ROWS(sites) || out.bytes < len || written.bytes < 8) {
        MUST(given == 4 && kept_from(&out, 0) && kept_from(&written, 0));
        return;
    }
    MUST(!given && numbers(&written)[0] == len && kept_from(&written, 8));
    MUST(!memcmp(out.at, expected, len) && kept_from(&out, len));
}

/* The rows as comma-separated text, by the C library. */
static size_t expected_sheet(char *text, const uint64_t *rows, uint64_t sites) {
    size_t n = (size_t)sprintf(text, "row,calls,work,span,local,onspan,ilocal,ionspan\r\n");
    for (size_t row = 0; row <= sites; row++) {
        n += (size_t)sprintf(text + n, "%zu", row);
        for (size_t k = 0; k < NYO_COLUMNS; k++) n += (size_t)sprintf(text + n, ",%llu", (unsigned long long)rows[NYO_COLUMNS * row + k]);
        n += (size_t)sprintf(text + n, "\r\n");
    }
    return n;
}

/* A text, whatever it is, read: what is accepted is what the writer writes of it, but for quotes and the last line end. */
static void read_sheet(const uint8_t *chars, size_t len, size_t near, Input *in) {
    static char again[NYO_CSV_CHARS(NYO_MOST_SITES) + 1], bare[2 * NYO_CSV_CHARS(NYO_MOST_SITES) + 64];
    Room text = lend(&of_text, len, in), rows = lend(&of_rows, enough(near, 8, in), in), sites = lend(&of_written, enough(1, 8, in), in);
    memcpy(text.at, chars, len);
    uint64_t given = nyo_csv_read(text.at, len, numbers(&rows), rows.bytes / 8, numbers(&sites), sites.bytes / 8);
    count(48 + NYO_NUMBER(given), NYO_LINE(given));
    MUST(!memcmp(text.at, chars, len));
    if (given) {
        MUST(NYO_NUMBER(given) == 15 || given == 4 || given == 16);
        MUST(NYO_LINE(given) <= NYO_MOST_SITES + 2 && kept_from(&rows, 0) && kept_from(&sites, 0));
        return;
    }
    MUST(numbers(&sites)[0] <= NYO_MOST_SITES && kept_from(&sites, 8) && kept_from(&rows, 8 * NYO_ROWS(numbers(&sites)[0])));
    size_t n = 0;
    for (size_t i = 0; i < len; i++)
        if (chars[i] != '"') bare[n++] = (char)chars[i];
    if (n < 2 || bare[n - 1] != '\n') memcpy(bare + n, "\r\n", 2), n += 2;
    MUST(n == expected_sheet(again, numbers(&rows), numbers(&sites)[0]) && !memcmp(bare, again, n));
}

/* The rows written as comma-separated text and read again, as it is, with quotes, and with some characters changed. */
static void sheet(const uint64_t *rows, size_t rows_len, uint64_t sites, Input *in) {
    static char expected[NYO_CSV_CHARS(NYO_MOST_SITES) + 1];
    static uint8_t text[2 * NYO_CSV_CHARS(NYO_MOST_SITES) + 64];
    size_t len = expected_sheet(expected, rows, sites), n = 0;
    Room out = lend(&of_out, enough(len, 1, in), in), written = lend(&of_written, enough(1, 8, in), in);
    uint64_t given = nyo_csv_write(rows, rows_len, sites, out.at, out.bytes, numbers(&written), written.bytes / 8);
    count(6, given);
    MUST(len <= NYO_CSV_CHARS(sites));
    if (given) {
        MUST((given == 4 || given == 16) && kept_from(&out, 0) && kept_from(&written, 0));
    } else {
        MUST(numbers(&written)[0] == len && kept_from(&written, 8));
        MUST(!memcmp(out.at, expected, len) && kept_from(&out, len));
    }
    unsigned quotes = next(in);
    for (size_t i = 0, open = 0; i < len; i++) {
        int field = expected[i] != ',' && expected[i] != '\r' && expected[i] != '\n';
        if (field && !open && (quotes & 1 << i % 8)) text[n++] = '"', open = 1;
        if (!field && open) text[n++] = '"', open = 0;
        text[n++] = (uint8_t)expected[i];
        if (!field) open = 0;
    }
    if (quotes & 1) n -= 2;
    read_sheet(text, n, NYO_ROWS(sites), in);
    for (unsigned changes = next(in) % 4; changes > 0; changes--) {
        size_t place = ((size_t)next(in) << 8 | next(in)) % n;
        text[place] = next(in) % 2 ? (uint8_t)next(in) : (uint8_t)"\",\r\n0 "[next(in) % 6];
    }
    read_sheet(text, n, NYO_ROWS(sites), in);
}

static int all_zero(const Room *r) {
    for (size_t i = 0; i < r->bytes; i++)
        if (r->at[i]) return 0;
    return 1;
}

/* Columns 4 and 5 add up to the total work and the total span. No row's work is above the total work, and beside it no
 * span and no local is above the work, no on-span number above the local, of instructions too; a row without calls is zero. */
static void columns_add_up(const uint64_t *rows, const uint64_t *answer) {
    uint64_t local = 0, on_span = 0;
    for (size_t row = 0; row <= answer[2]; row++, rows += NYO_COLUMNS) {
        MUST(rows[NYO_WORK] <= answer[0] && rows[NYO_SPAN] <= rows[NYO_WORK]);
        MUST(rows[NYO_LOCAL] <= rows[NYO_WORK] && rows[NYO_ON_SPAN] <= rows[NYO_LOCAL]);
        MUST(rows[NYO_ION_SPAN] <= rows[NYO_ILOCAL]);
        MUST(rows[NYO_CALLS] > 0 || (rows[NYO_WORK] == 0 && rows[NYO_ILOCAL] == 0));
        local += rows[NYO_LOCAL], on_span += rows[NYO_ON_SPAN];
    }
    MUST(local == answer[0] && on_span == answer[1] && answer[1] <= answer[0]);
}

/* Line n of a list, and its length; none behind the last. */
static const uint8_t *line_of(const Names *list, size_t n, size_t *len) {
    const uint8_t *at = list->chars, *end = at + list->len;
    for (; n > 0; n--, at++) {
        while (at < end && *at != '\n') at++;
        if (at == end) return NULL;
    }
    for (*len = 0; at + *len < end && at[*len] != '\n';) ++*len;
    return at;
}

typedef struct {
    const uint8_t *at;
    size_t len;
} Name;

/* The name shown for a row; whether it is one. */
static int name_shown(Name *name, const Names *project, const Names *stock, size_t row) {
    name->at = line_of(project, row, &name->len);
    if (!name->at || name->len == 0) name->at = line_of(stock, row, &name->len);
    if (!name->at || name->len == 0) return 0;
    for (size_t i = 0; i < name->len; i++)
        if (name->at[i] < 33 || name->at[i] > 126 || name->at[i] == ';') return 0;
    return 1;
}

/* The number in some digits of a good line. */
static unsigned long field(const uint8_t *line, size_t from, size_t digits) {
    char text[9] = {0};
    memcpy(text, line + from, digits);
    return strtoul(text, NULL, 16);
}

/* The instructions that a line of an accepted trace carries, where it is a cost line; otherwise 0. */
static unsigned long carried(const Room *trace, const uint8_t *line) {
    const uint8_t *behind = line + NYO_LINE_CHARS;
    if (field(line, 0, 2) != 6 || behind >= trace->at + trace->bytes || field(behind, 0, 2) != 7) return 0;
    return field(behind, 6, 8);
}

/* Refusal 22 is that of a 07 line whose line before is no cost. */
static void refused_as_stray(const Room *trace, uint64_t given) {
    const uint8_t *at = trace->at + NYO_LINE(given) * NYO_LINE_CHARS;
    if (NYO_NUMBER(given) != NYO_STRAY) return;
    MUST(field(at, 0, 2) == 7 && (at == trace->at || field(at - NYO_LINE_CHARS, 0, 2) != 6));
}

/* Refusals 8 to 11 are those of the site lines before the refused line, wherever they stand. */
static void refused_by_sites(const Room *trace, uint64_t given, uint64_t sites) {
    const uint8_t *at = trace->at + NYO_LINE(given) * NYO_LINE_CHARS;
    unsigned number = NYO_NUMBER(given), declared = 0, again = 0;
    if (number < NYO_SITE_ORDER || number > NYO_UNDECLARED) return;
    for (const uint8_t *line = trace->at; line < at; line += NYO_LINE_CHARS) {
        if (field(line, 0, 2) != 1) continue;
        declared++;
        again |= field(line, 6, 8) == field(at, 6, 8) && field(line, 14, 8) == field(at, 14, 8);
    }
    unsigned long kind = field(at, 0, 2), site = field(at, 2, 4);
    count(39, UINT64_C(1) << number);
    if (number == NYO_UNDECLARED) MUST((kind == 2 || kind == 3 || kind == 0x12) && (site == 0 || site > declared));
    else MUST(kind == 1 && (number == NYO_SITE_ORDER) == (site != declared + 1));
    if (number == NYO_SITE_LIMIT) MUST(site > sites);
    if (number == NYO_PLACE) MUST(site <= sites && again);
}

/* The folded stacks of an accepted trace with good names, line by line, as far as there is room, and their length. */
static size_t expected_stacks(char *text, size_t most, const Room *trace, const Name *names) {
    size_t open[NYO_MOST_DEPTH] = {0}, depth = 1, len = 0;
    for (const uint8_t *line = trace->at; line < trace->at + trace->bytes; line += NYO_LINE_CHARS) {
        unsigned long kind = field(line, 0, 2);
        if (kind == 2 || kind == 3) open[depth++] = field(line, 2, 4);
        if (kind == 5) depth--;
        if (kind != 6) continue;
        char cost[16];
        size_t figures = (size_t)sprintf(cost, "%lu\n", field(line, 6, 8));
        for (size_t n = 0; n < depth; n++) {
            const Name *name = &names[open[n]];
            if (len + name->len + 1 + figures <= most) {
                memcpy(text + len, name->at, name->len);
                text[len + name->len] = n + 1 < depth ? ';' : ' ';
            }
            len += name->len + 1;
        }
        if (len + figures <= most) memcpy(text + len, cost, figures);
        len += figures;
    }
    return len;
}

/* The trace, which the table engine has answered so, as folded stacks with two lists made from the input. */
static void fold(const Room *trace, uint64_t depth, uint64_t sites, uint64_t first, uint64_t declared, Input *lists,
                 Input *in) {
    static Names project, stock;
    static char expected[MOST_RUBBISH];
    Name shown[NYO_MOST_SITES + 1];
    unsigned empty = next(lists) % 4 * 40;
    put_names(&project, lists, declared + 1, empty), put_names(&stock, lists, declared + 1, 10);
    size_t d = depth > 64 ? 64 : depth, bad = 0, longest = 0, len = 0;
    for (; bad <= declared && name_shown(&shown[bad], &project, &stock, bad); bad++)
        if (shown[bad].len > longest) longest = shown[bad].len;
    if (!first && bad > declared) len = expected_stacks(expected, sizeof expected, trace, shown);
    Room scratch = lend(&of_scratch, enough(NYO_FOLDED_SCRATCH(d), 8, in), in);
    Room written = lend(&of_written, enough(1, 8, in), in);
    Room out = lend(&of_stacks, enough(len < MOST_RUBBISH ? len : MOST_RUBBISH, 1, in), in);
    Room to_project = lend(&of_names[0], project.len, in), to_stock = lend(&of_names[1], stock.len, in);
    memcpy(to_project.at, project.chars, project.len), memcpy(to_stock.at, stock.chars, stock.len);
    uint64_t given = nyo_folded(trace->at, trace->bytes, depth, sites, to_project.at, project.len, to_stock.at, stock.len,
                                numbers(&scratch), scratch.bytes / 8, out.at, out.bytes, numbers(&written), written.bytes / 8);
    count(34, given);
    MUST(!memcmp(to_project.at, project.chars, project.len) && !memcmp(to_stock.at, stock.chars, stock.len));
    int roomy = scratch.bytes >= 8 * d && written.bytes >= 8;
    if (NYO_NUMBER(first) >= 1 && NYO_NUMBER(first) <= 3) MUST(given == first);
    else if (!roomy) MUST(given == 4);
    else if (first == 4) MUST(given != 4);
    else if (first) MUST(given == first);
    else if (bad <= declared) MUST(given == 17 + 256 * bad);
    else MUST(given == (out.bytes < len ? 18 : 0));
    if (given) {
        MUST(kept_from(&scratch, 0) && kept_from(&out, 0) && kept_from(&written, 0));
        return;
    }
    MUST(all_zero(&scratch) && kept_from(&scratch, scratch.bytes));
    if (first) return;
    MUST(numbers(&written)[0] == len && kept_from(&written, 8) && !memcmp(out.at, expected, len) && kept_from(&out, len));
    MUST(len <= NYO_FOLDED_CHARS(trace->bytes / NYO_LINE_CHARS, depth, longest));
}

/* The refusal of a list for so many declared sites: 19 over the whole list, then 20; 0 where it is good. */
static uint64_t judged(const Entries *list, uint64_t declared) {
    int bad = list->len > NYO_MOST_ENTRIES, wrong = 0;
    for (size_t n = 0; n < list->len; n++) {
        const nyo_entry *e = &list->at[n];
        bad |= e->row > declared || (n > 0 && e->row <= e[-1].row);
        wrong |= e->factor < NYO_LEAST_FACTOR || e->factor > NYO_MOST_FACTOR;
    }
    return bad ? 19 : wrong ? 20 : 0;
}

/* An accepted trace written again with its costs divided by good entries, line by line. */
static void rewrite(Trace *to, const Room *trace, const Entries *list) {
    size_t open[NYO_MOST_DEPTH] = {0}, depth = 1;
    to->len = 0;
    for (const uint8_t *line = trace->at; line < trace->at + trace->bytes; line += NYO_LINE_CHARS) {
        unsigned long kind = field(line, 0, 2), value = field(line, 6, 8);
        if (kind == 2 || kind == 3) open[depth++] = field(line, 2, 4);
        if (kind == 5) depth--;
        for (size_t n = 0; kind == 6 && n < list->len; n++)
            if (list->at[n].row == open[depth - 1]) value = (value + list->at[n].factor - 1) / list->at[n].factor;
        put_line(to, (const uint64_t[]){kind, field(line, 2, 4), value, field(line, 14, 4), field(line, 18, 4)});
    }
}

/* What an engine gave of a trace and left: the answer, the rows and the marks; no marks where it is the table engine. */
typedef struct {
    uint64_t given, answer[NYO_ANSWER], rows[NYO_ROWS(NYO_MOST_SITES)];
    uint8_t marks[MOST_CHARS / NYO_LINE_CHARS + 1];
} Given;

/* One engine on a family's trace with a list, or plainly without one. */
static void give_as(const Family *f, Given *g, int marked, const uint8_t *trace, size_t len, uint64_t depth, uint64_t sites,
                    const Entries *list, Input *in) {
    size_t d = depth > 64 ? 64 : depth, m = sites > 255 ? 255 : sites, lines = len / NYO_LINE_CHARS, n = list ? list->len : 0;
    Room scratch = lend(&of_scratch, enough(marked ? NYO_MARKS_SCRATCH(d) : NYO_TABLES_SCRATCH(d, m), 8, in), in);
    Room rows = lend(&of_rows, enough(NYO_ROWS(m), 8, in), in), answer = lend(&of_answer, enough(NYO_ANSWER, 8, in), in);
    Room marks = lend(&of_marks, marked ? enough(lines, 1, in) : 0, in), entries = lend(&of_entries, n * sizeof(nyo_entry), in);
    uint64_t *s = numbers(&scratch), *r = numbers(&rows), *a = numbers(&answer);
    size_t sl = scratch.bytes / 8, rl = rows.bytes / 8, al = answer.bytes / 8;
    const nyo_entry *e = (const nyo_entry *)entries.at;
    if (list) memcpy(entries.at, list->at, entries.bytes);
    if (list && marked) g->given = nyo_forecast_marks(trace, len, depth, sites, e, n, s, sl, marks.at, marks.bytes, r, rl, a, al);
    else if (list) g->given = nyo_forecast_tables(trace, len, depth, sites, e, n, s, sl, r, rl, a, al);
    else if (marked) g->given = f->marks(trace, len, depth, sites, s, sl, marks.at, marks.bytes, r, rl, a, al);
    else g->given = f->tables(trace, len, depth, sites, s, sl, r, rl, a, al);
    if (list) MUST(!memcmp(entries.at, list->at, entries.bytes));
    if (g->given) {
        MUST(kept_from(&scratch, 0) && kept_from(&rows, 0) && kept_from(&answer, 0) && kept_from(&marks, 0));
        return;
    }
    MUST(all_zero(&scratch) && kept_from(&scratch, scratch.bytes) && kept_from(&answer, 8 * NYO_ANSWER));
    MUST(a[2] <= m && kept_from(&rows, 8 * NYO_ROWS(a[2])) && kept_from(&marks, marked ? lines : 0));
    memcpy(g->answer, a, sizeof g->answer), memcpy(g->rows, r, 8 * NYO_ROWS(a[2])), memcpy(g->marks, marks.at, marked ? lines : 0);
}

static void give(Given *g, int marked, const uint8_t *trace, size_t len, uint64_t depth, uint64_t sites, const Entries *list,
                 Input *in) {
    give_as(&spawns, g, marked, trace, len, depth, sites, list, in);
}

static int same_profile(const Given *one, const Given *other, size_t marks) {
    return !memcmp(one->answer, other->answer, sizeof one->answer) && !memcmp(one->marks, other->marks, marks) &&
           !memcmp(one->rows, other->rows, 8 * NYO_ROWS(one->answer[2]));
}

/* No calls and no instructions changed, and no work, span or local grew; a list that names no row on the span leaves the span
 * as it is. */
static void gains(const Given *plain, const Given *forecast, const Entries *list) {
    uint64_t named = 0;
    for (size_t k = 0; k < NYO_ROWS(plain->answer[2]); k++) {
        size_t column = k % NYO_COLUMNS;
        if (column == NYO_CALLS || column == NYO_ILOCAL) MUST(forecast->rows[k] == plain->rows[k]);
        else if (column != NYO_ON_SPAN && column != NYO_ION_SPAN) MUST(forecast->rows[k] <= plain->rows[k]);
    }
    for (size_t n = 0; n < list->len; n++) named += plain->rows[NYO_COLUMNS * list->at[n].row + NYO_ON_SPAN];
    MUST(forecast->answer[0] <= plain->answer[0] && forecast->answer[1] <= plain->answer[1]);
    MUST(plain->answer[1] - forecast->answer[1] <= named);
}

/* An engine's forecast with a list made from the input: the refusals of the plain profile first, then those of the list; the
 * profile of the trace written again; and no more than the plain one. */
static void forecast(const Room *trace, int marked, uint64_t depth, uint64_t sites, Input *lists, Input *in) {
    static Given plain, asked, again;
    static Trace rewritten;
    static Entries list;
    size_t marks = marked ? trace->bytes / NYO_LINE_CHARS : 0;
    Input none = {NULL, NULL};
    give(&plain, marked, trace->at, trace->bytes, depth, sites, NULL, &none);
    put_entries(&list, lists, plain.given ? sites : plain.answer[2]);
    give(&asked, marked, trace->at, trace->bytes, depth, sites, &list, in);
    count(35 + marked, asked.given);
    if (asked.given == 4) return;
    MUST(asked.given == (plain.given ? plain.given : judged(&list, plain.answer[2])));
    if (asked.given) return;
    rewrite(&rewritten, trace, &list);
    give(&again, marked, rewritten.chars, rewritten.len, depth, sites, NULL, &none);
    MUST(!again.given && same_profile(&asked, &again, marks));
    if (list.len == 0) MUST(same_profile(&asked, &plain, marks));
    columns_add_up(asked.rows, asked.answer);
    gains(&plain, &asked, &list);
    count(37, plain.answer[1] - asked.answer[1]);
}

/* A cost, and where it has instructions a 07 line behind it. */
static void put_cost(Trace *t, const unsigned long *held) {
    put_line(t, (const uint64_t[]){6, 0, held[0], 0, 0});
    if (held[1]) put_line(t, (const uint64_t[]){7, 0, held[1], 0, 0});
}

/* What is left of an accepted trace, line by line, and its length. A sync waits until a line that is no sync stands
 * behind it; of a run of them only the first can be left. The sums that are held are of costs and of their instructions. */
static size_t expected_left(uint8_t *left, const Room *trace) {
    static const uint64_t sync[NYO_FRAME] = {4, 0, 0, 0, 0};
    static Trace t;
    int spawned[NYO_MOST_DEPTH] = {0}, waits = 0;
    unsigned long held[2] = {0, 0};
    size_t depth = 1;
    t.len = 0;
    for (const uint8_t *line = trace->at; line < trace->at + trace->bytes; line += NYO_LINE_CHARS) {
        uint64_t f[NYO_FRAME] = {field(line, 0, 2), field(line, 2, 4), field(line, 6, 8), field(line, 14, 4),
                                 field(line, 18, 4)};
        if (f[0] == 4) {
            waits |= spawned[depth - 1], spawned[depth - 1] = 0;
            continue;
        }
        if (f[0] == 7) continue;
        int leave = waits && f[0] != 5, fits = held[0] + f[2] <= UINT32_MAX && held[1] + carried(trace, line) <= UINT32_MAX;
        if (held[0] && (leave || f[0] != 6 || !fits)) put_cost(&t, held), held[0] = held[1] = 0;
        if (leave) put_line(&t, sync);
        waits = 0;
        if (f[0] == 6) held[0] += f[2], held[1] += carried(trace, line);
        else put_line(&t, f);
        if (f[0] == 3) spawned[depth - 1] = 1;
        if (f[0] == 2 || f[0] == 3) spawned[depth++] = 0;
        if (f[0] == 5) depth--;
    }
    memcpy(left, t.chars, t.len);
    return t.len;
}

/* Of what is left of a trace with this answer and these rows the table engine says the same, but for the lines; and what
 * is left of that is itself. */
static void says_as_much(const uint8_t *left, size_t len, uint64_t depth, uint64_t sites, const uint64_t *answer,
                         const uint64_t *rows) {
    static uint64_t scratch[NYO_TABLES_SCRATCH(NYO_MOST_DEPTH, NYO_MOST_SITES)], own_rows[NYO_ROWS(NYO_MOST_SITES)];
    static uint8_t again[MOST_CHARS];
    uint64_t own[NYO_ANSWER], count;
    MUST(!nyo_tables(left, len, depth, sites, scratch, sizeof scratch / 8, own_rows, sizeof own_rows / 8, own,
                     NYO_ANSWER));
    MUST(!memcmp(own, answer, 3 * sizeof *own) && own[3] == len / NYO_LINE_CHARS);
    MUST(!memcmp(own_rows, rows, 8 * NYO_ROWS(answer[2])));
    MUST(!nyo_compact(left, len, depth, sites, again, sizeof again, &count, 1));
    MUST(count == len && !memcmp(again, left, len));
}

/* Of a trace with this answer and these rows, but without its 07 lines, the table engine says the same, but for the lines and
 * the instructions, which are zero. */
static void cycles_alone(const Room *trace, uint64_t depth, uint64_t sites, const uint64_t *answer, const uint64_t *rows) {
    static uint64_t scratch[NYO_TABLES_SCRATCH(NYO_MOST_DEPTH, NYO_MOST_SITES)], own_rows[NYO_ROWS(NYO_MOST_SITES)];
    static uint8_t bare[MOST_CHARS + NYO_LINE_CHARS];
    uint64_t own[NYO_ANSWER];
    size_t len = 0;
    for (const uint8_t *line = trace->at; line < trace->at + trace->bytes; line += NYO_LINE_CHARS)
        if (field(line, 0, 2) != 7) memcpy(bare + len, line, NYO_LINE_CHARS), len += NYO_LINE_CHARS;
    MUST(!nyo_tables(bare, len, depth, sites, scratch, sizeof scratch / 8, own_rows, sizeof own_rows / 8, own, NYO_ANSWER));
    MUST(!memcmp(own, answer, 3 * sizeof *own) && own[3] == len / NYO_LINE_CHARS);
    for (size_t k = 0; k < NYO_ROWS(answer[2]); k++) MUST(own_rows[k] == (k % NYO_COLUMNS < NYO_ILOCAL ? rows[k] : 0));
    count(5, answer[3] - own[3]);
}

/* Columns 4 to 7 are, row by row, the costs and the instructions of all lines and of the marked ones. */
static void marks_add_up(const Room *trace, const uint8_t *marks, const uint64_t *rows, uint64_t sites) {
    static uint64_t sums[NYO_ROWS(NYO_MOST_SITES)];
    size_t open[NYO_MOST_DEPTH] = {0}, depth = 1;
    memset(sums, 0, sizeof sums);
    for (const uint8_t *line = trace->at; line < trace->at + trace->bytes; line += NYO_LINE_CHARS, marks++) {
        unsigned long kind = field(line, 0, 2), cost = kind == 6 ? field(line, 6, 8) : 0;
        uint64_t *own = sums + NYO_COLUMNS * open[depth - 1];
        own[NYO_LOCAL] += cost, own[NYO_ON_SPAN] += *marks * cost;
        own[NYO_ILOCAL] += carried(trace, line), own[NYO_ION_SPAN] += *marks * carried(trace, line);
        if (kind == 2 || kind == 3 || kind == 0x12) open[depth++] = field(line, 2, 4);
        if (kind == 0x13) open[depth] = open[depth - 1], depth++;
        if (kind == 5) depth--;
    }
    for (size_t k = 0; k < NYO_ROWS(sites); k++) MUST(k % NYO_COLUMNS < NYO_LOCAL || sums[k] == rows[k]);
}

/* The trace, which the table engine has answered so, without the lines that say nothing. */
static void compact(const Room *trace, uint64_t depth, uint64_t sites, uint64_t first, const uint64_t *answer,
                    const uint64_t *rows, Input *in) {
    static uint8_t expected[MOST_CHARS];
    size_t len = first ? 0 : expected_left(expected, trace);
    Room written = lend(&of_written, enough(1, 8, in), in), out = lend(&of_compact, enough(len, 1, in), in);
    uint64_t given = nyo_compact(trace->at, trace->bytes, depth, sites, out.at, out.bytes, numbers(&written),
                                 written.bytes / 8);
    count(38, given);
    if (NYO_NUMBER(first) >= 1 && NYO_NUMBER(first) <= 3) MUST(given == first);
    else if (written.bytes < 8) MUST(given == 4);
    else if (first == 4) MUST(given != 4);
    else if (first) MUST(given == first);
    else MUST(given == (out.bytes < len ? 21 : 0));
    if (given) MUST(kept_from(&out, 0) && kept_from(&written, 0));
    if (given || first) return;
    MUST(numbers(&written)[0] == len && kept_from(&written, 8));
    MUST(!memcmp(out.at, expected, len) && kept_from(&out, len));
    MUST(len <= NYO_COMPACT_CHARS(trace->bytes));
    says_as_much(out.at, len, depth, sites, answer, rows);
}

/* The value of a cost line of an accepted trace; 0 for any other line. */
static uint64_t cost_of(const uint8_t *line) { return field(line, 0, 2) == 6 ? field(line, 6, 8) : 0; }

/* The span of an accepted trace with one cost raised; 0 where its value would not fit. */
static uint64_t span_raised(const Room *trace, size_t line, uint64_t by, uint64_t depth, uint64_t sites) {
    static Given raised;
    static Trace text;
    Input none = {NULL, NULL};
    uint64_t value = cost_of(trace->at + line * NYO_LINE_CHARS) + by;
    if (value > UINT32_MAX) return 0;
    text.len = line * NYO_LINE_CHARS;
    put_line(&text, (const uint64_t[]){6, 0, value, 0, 0});
    text.len = trace->bytes;
    memcpy(text.chars, trace->at, line * NYO_LINE_CHARS);
    size_t behind = (line + 1) * NYO_LINE_CHARS;
    memcpy(text.chars + behind, trace->at + behind, trace->bytes - behind);
    give(&raised, 0, text.chars, text.len, depth, sites, NULL, &none);
    MUST(!raised.given);
    return raised.answer[1];
}

/* What is said of a line of an accepted trace holds beside its chosen chain and its span: marked is the chain that is told, the
 * first line that is chosen and not marked is the tied one, and raised past its slack the line lengthens the span. */
static void explained(const Room *trace, const Given *plain, size_t line, const uint8_t *marks, const uint64_t *answer,
                      uint64_t depth, uint64_t sites) {
    size_t lines = trace->bytes / NYO_LINE_CHARS, left = lines;
    uint64_t weight = 0, cost = cost_of(trace->at + line * NYO_LINE_CHARS), less = answer[0] == NYO_SLACK ? answer[1] : 0;
    for (size_t n = lines; n-- > 0;) {
        MUST(marks[n] <= (cost_of(trace->at + n * NYO_LINE_CHARS) > 0));
        weight += marks[n] * cost_of(trace->at + n * NYO_LINE_CHARS);
        if (plain->marks[n] && !marks[n]) left = n;
    }
    MUST(answer[0] <= NYO_TIED && (answer[0] == NYO_NOT_COST) == (cost == 0) && (answer[0] == NYO_ON_CHAIN) == plain->marks[line]);
    MUST((answer[0] == NYO_SLACK) <= (answer[1] > 0) && (answer[0] <= NYO_ON_CHAIN) <= (answer[1] == 0));
    if (!cost) {
        MUST(weight == 0);
        return;
    }
    MUST(marks[line] == 1 && weight + less == plain->answer[1]);
    if (answer[0] == NYO_ON_CHAIN) MUST(!memcmp(marks, plain->marks, lines));
    if (answer[0] == NYO_TIED) MUST(answer[1] == left);
    for (unsigned more = 0; more < 2; more++) {
        uint64_t span = less + more ? span_raised(trace, line, less + more, depth, sites) : 0;
        MUST(!span || span == plain->answer[1] + more);
    }
}

/* A cost off the chosen chain of an accepted trace: the first from a line on, and over its end; that line where there is none. */
static uint32_t off_chain(const Room *trace, const Given *plain, uint32_t from) {
    uint32_t lines = (uint32_t)(trace->bytes / NYO_LINE_CHARS);
    for (uint32_t n = 0; n < lines; n++) {
        uint32_t line = (from + n) % lines;
        if (!plain->marks[line] && cost_of(trace->at + line * NYO_LINE_CHARS)) return line;
    }
    return from;
}

/* A line that the input names, mostly one of the trace and often off its chosen chain, asked why it is not on the span. */
static void explain(const Room *trace, uint64_t depth, uint64_t sites, Input *in) {
    static Given plain;
    Input none = {NULL, NULL};
    size_t d = depth > 64 ? 64 : depth, lines = trace->bytes / NYO_LINE_CHARS;
    unsigned how = next(in);
    uint32_t named = (uint32_t)next_wide(in), line = how > 240 ? named : named % (uint32_t)(lines + (how > 220) + !lines);
    give(&plain, 1, trace->at, trace->bytes, depth, sites, NULL, &none);
    if (!plain.given && how < 180) line = off_chain(trace, &plain, line);
    Room scratch = lend(&of_scratch, enough(NYO_MARKS_SCRATCH(d), 8, in), in), marks = lend(&of_marks, enough(lines, 1, in), in);
    Room answer = lend(&of_answer, enough(NYO_WHY, 8, in), in);
    uint64_t given = nyo_why(trace->at, trace->bytes, depth, sites, line, numbers(&scratch), scratch.bytes / 8, marks.at,
                             marks.bytes, numbers(&answer), answer.bytes / 8);
    int roomy = scratch.bytes >= 8 * NYO_MARKS_SCRATCH(d) && marks.bytes >= lines && answer.bytes >= 8 * NYO_WHY;
    count(7, UINT64_C(1) << (given ? NYO_NUMBER(given) % 32 : 32 + numbers(&answer)[0] % 32));
    if (NYO_NUMBER(plain.given) >= 1 && NYO_NUMBER(plain.given) <= 3) MUST(given == plain.given);
    else if (!roomy) MUST(given == 4);
    else if (plain.given) MUST(given == plain.given);
    else MUST(given == (line < lines ? 0 : NYO_PAST_END + 256 * (uint64_t)line));
    if (given) {
        MUST(kept_from(&scratch, 0) && kept_from(&marks, 0) && kept_from(&answer, 0));
        return;
    }
    MUST(all_zero(&scratch) && kept_from(&scratch, scratch.bytes) && kept_from(&answer, 8 * NYO_WHY) && kept_from(&marks, lines));
    explained(trace, &plain, line, marks.at, numbers(&answer), depth, sites);
}

/* An accepted trace that spawns and syncs as one of asyncs and finishes: async for spawn, and a finish around every
 * stretch of an invocation between its syncs; whether it is short enough. */
static int as_finishes(Trace *to, const Room *trace) {
    static const uint64_t finish[NYO_FRAME] = {0x13, 0, 0, 0, 0}, end[NYO_FRAME] = {5, 0, 0, 0, 0};
    to->len = 0;
    put_line(to, finish);
    for (const uint8_t *line = trace->at; line < trace->at + trace->bytes; line += NYO_LINE_CHARS) {
        unsigned long kind = field(line, 0, 2);
        if (to->len + 2 * NYO_LINE_CHARS > MOST_CHARS) return 0;
        if (kind == 4 || kind == 5) put_line(to, end);
        if (kind != 4)
            put_line(to, (const uint64_t[]){kind == 3 ? 0x12 : kind, field(line, 2, 4), field(line, 6, 8), field(line, 14, 4),
                                            field(line, 18, 4)});
        if (kind == 2 || kind == 3 || kind == 4) put_line(to, finish);
    }
    return 1;
}

/* Of an accepted trace and of what it is in the other family the engines say the same, but for the lines, and mark the
 * same costs. */
static void tied(const Room *trace, uint64_t depth, uint64_t sites) {
    static Given own, other;
    static Trace text;
    Input none = {NULL, NULL};
    if (2 * depth > NYO_MOST_DEPTH || !as_finishes(&text, trace)) return;
    give(&own, 1, trace->at, trace->bytes, depth, sites, NULL, &none);
    for (int marked = 0; marked < 2; marked++) {
        give_as(&finishes, &other, marked, text.chars, text.len, 2 * depth, sites, NULL, &none);
        MUST(!other.given && !memcmp(own.answer, other.answer, 3 * sizeof *own.answer));
        MUST(other.answer[3] == text.len / NYO_LINE_CHARS && !memcmp(own.rows, other.rows, 8 * NYO_ROWS(own.answer[2])));
    }
    for (size_t line = 0, n = 0; line < trace->bytes / NYO_LINE_CHARS; line++) {
        if (!cost_of(trace->at + line * NYO_LINE_CHARS)) continue;
        while (!cost_of(text.chars + n * NYO_LINE_CHARS)) n++;
        MUST(own.marks[line] == other.marks[n++]);
    }
}

/* The limits that the input says. */
typedef struct {
    uint64_t depth, sites;
} Limits;

static Limits next_limits(Input *in) {
    unsigned how = next(in);
    uint64_t depth = how < 16 ? 64 : how < 32 ? next(in) : 1 + next(in) % 8;
    return (Limits){depth, how % 16 == 0 ? 255 : how % 16 == 1 ? 2 * next(in) : next(in) % 8};
}

/* Each line of an accepted trace read and written: the marked ones are costs, and add up to the span. */
static void lines_add_up(const Family *f, const Room *trace, const uint8_t *marks, const uint64_t *answer) {
    uint64_t marked = 0, all = 0;
    for (size_t line = 0; line < trace->bytes / NYO_LINE_CHARS; line++) {
        Input none = {NULL, NULL};
        uint64_t cost = read_and_write(f, trace->at + line * NYO_LINE_CHARS, NYO_LINE_CHARS, &none);
        MUST(marks[line] <= (cost > 0));
        all += cost, marked += marks[line] ? cost : 0;
    }
    MUST(all == answer[0] && marked == answer[1]);
}

/* Both engines on one trace of asyncs and finishes. */
static void profile_finishes(const Room *trace, Input *in) {
    static Given tables, marks;
    Limits most = next_limits(in);
    give_as(&finishes, &tables, 0, trace->at, trace->bytes, most.depth, most.sites, NULL, in);
    give_as(&finishes, &marks, 1, trace->at, trace->bytes, most.depth, most.sites, NULL, in);
    count(64 + NYO_NUMBER(tables.given), NYO_LINE(tables.given));
    MUST(tables.given == marks.given || tables.given == 4 || marks.given == 4);
    if (tables.given) {
        MUST(NYO_NUMBER(tables.given) <= 14 || NYO_NUMBER(tables.given) == NYO_STRAY);
        refused_by_sites(trace, tables.given, most.sites);
        refused_as_stray(trace, tables.given);
    } else {
        columns_add_up(tables.rows, tables.answer);
        count(96, tables.answer[0] - tables.answer[1]);
    }
    if (marks.given) return;
    columns_add_up(marks.rows, marks.answer);
    if (!tables.given) MUST(same_profile(&tables, &marks, 0));
    marks_add_up(trace, marks.marks, marks.rows, marks.answer[2]);
    lines_add_up(&finishes, trace, marks.marks, marks.answer);
}

/* Both engines on one trace, its folded stacks, its forecasts, what is left of it, and why a line is not on its span. */
static void profile(const Room *trace, Input *lists, Input *asked, Input *in) {
    static uint64_t first_rows[NYO_ROWS(NYO_MOST_SITES)];
    Limits most = next_limits(in);
    uint64_t depth = most.depth, sites = most.sites;
    size_t d = depth > 64 ? 64 : depth, m = sites > 255 ? 255 : sites, lines = trace->bytes / NYO_LINE_CHARS;
    Room scratch = lend(&of_scratch, enough(NYO_TABLES_SCRATCH(d, m), 8, in), in), rows = lend(&of_rows, enough(NYO_ROWS(m), 8, in), in);
    Room answer = lend(&of_answer, enough(NYO_ANSWER, 8, in), in);
    uint64_t first_answer[NYO_ANSWER] = {0};
    uint64_t first = nyo_tables(trace->at, trace->bytes, depth, sites, numbers(&scratch), scratch.bytes / 8, numbers(&rows),
                                rows.bytes / 8, numbers(&answer), answer.bytes / 8);
    count(8 + NYO_NUMBER(first), NYO_LINE(first));
    if (first) {
        MUST((NYO_NUMBER(first) <= 14 || NYO_NUMBER(first) == NYO_STRAY) && NYO_LINE(first) <= lines);
        MUST(kept_from(&scratch, 0) && kept_from(&rows, 0) && kept_from(&answer, 0));
        refused_by_sites(trace, first, sites);
        refused_as_stray(trace, first);
        print_refusal(NYO_NUMBER(first), NYO_LINE(first), in);
    } else {
        memcpy(first_answer, answer.at, sizeof first_answer);
        memcpy(first_rows, rows.at, 8 * NYO_ROWS(first_answer[2]));
        MUST(first_answer[2] <= sites && first_answer[3] == lines);
        MUST(all_zero(&scratch) && kept_from(&scratch, scratch.bytes) && kept_from(&answer, 8 * NYO_ANSWER));
        MUST(kept_from(&rows, 8 * NYO_ROWS(first_answer[2])));
        columns_add_up(first_rows, first_answer);
        cycles_alone(trace, depth, sites, first_answer, first_rows);
        tied(trace, depth, sites);
        count(32, first_answer[0] - first_answer[1]);
        count(33, first_answer[2]);
        for (int full = 0; full < 2; full++) print_report(first_rows, first_answer[2], full, in);
        sheet(first_rows, NYO_ROWS(first_answer[2]), first_answer[2], in);
    }

    fold(trace, depth, sites, first, first_answer[2], lists, in);
    for (int marked = 0; marked < 2; marked++) forecast(trace, marked, depth, sites, lists, in);
    compact(trace, depth, sites, first, first_answer, first_rows, in);
    explain(trace, depth, sites, asked);
    scratch = lend(&of_scratch, enough(NYO_MARKS_SCRATCH(d), 8, in), in), rows = lend(&of_rows, enough(NYO_ROWS(m), 8, in), in);
    answer = lend(&of_answer, enough(NYO_ANSWER, 8, in), in);
    Room marks = lend(&of_marks, enough(lines, 1, in), in);
    uint64_t second = nyo_marks(trace->at, trace->bytes, depth, sites, numbers(&scratch), scratch.bytes / 8, marks.at, marks.bytes,
                                numbers(&rows), rows.bytes / 8, numbers(&answer), answer.bytes / 8);
    count(40 + NYO_NUMBER(second), NYO_LINE(second));
    MUST(first == second || first == 4 || second == 4);
    if (second) {
        MUST(kept_from(&scratch, 0) && kept_from(&rows, 0) && kept_from(&answer, 0) && kept_from(&marks, 0));
        return;
    }
    MUST(all_zero(&scratch) && kept_from(&scratch, scratch.bytes) && kept_from(&answer, 8 * NYO_ANSWER) && kept_from(&marks, lines));
    const uint64_t *totals = numbers(&answer);
    MUST(kept_from(&rows, 8 * NYO_ROWS(totals[2])));
    columns_add_up(numbers(&rows), totals);
    if (!first) MUST(!memcmp(totals, first_answer, sizeof first_answer) && !memcmp(rows.at, first_rows, 8 * NYO_ROWS(totals[2])));
    marks_add_up(trace, marks.at, numbers(&rows), totals[2]);
    lines_add_up(&spawns, trace, marks.at, totals);
}

/* The trace of a family that the input writes, in the room of its head. */
static Room next_trace(Trace *written, Input body, int of_finishes, Input *head) {
    put_trace(written, &body, of_finishes);
    Room trace = lend(&of_trace, written->len, head);
    memcpy(trace.at, written->chars, written->len);
    return trace;
}

/* A trace is as it was, and its first line, or mostly that, is read and written. */
static void over(const Family *f, const Room *trace, const Trace *written, Input *head) {
    MUST(!memcmp(trace->at, written->chars, written->len));
    read_and_write(f, trace->at, written->len < NYO_LINE_CHARS || next(head) > 250 ? written->len : NYO_LINE_CHARS, head);
}

int LLVMFuzzerTestOneInput(const uint8_t *data, size_t size) {
    static Trace written;
    if (!of_trace.first) reserve();
    Input head = {data, data + (size < HEAD ? size : HEAD)}, other = head, body = {head.end, data + size};
    Room trace = next_trace(&written, body, 0, &head);
    Input lists = {data, data + size}, asked = {data + size / 2, data + size};
    profile(&trace, &lists, &asked, &head);
    over(&spawns, &trace, &written, &head);
    trace = next_trace(&written, body, 1, &other);
    profile_finishes(&trace, &other);
    over(&finishes, &trace, &written, &other);
    uint64_t number = next(&head), line = (uint64_t)next(&head) << (next(&head) % 48);
    print_refusal(number + (next(&head) > 250) * 256, line, &head);
    read_sheet(data, size < MOST_CHARS ? size : MOST_CHARS, NYO_ROWS(next(&head)), &head);
    return 0;
}
