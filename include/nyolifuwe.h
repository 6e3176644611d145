/* Nyolifuwe: work, span and the chosen chain of a fork-join trace, by a proved library.
 *
 * A trace is text: lines of 23 characters, each 22 digits (0-9, a-f, A-F) and a line feed. The digits are five fields, most
 * significant digit first: kind (2), site (4), value (8), file (4), column (4). Unused fields are zero.
 *
 *     kind  meaning       used fields
 *     01    site          site; value = source line; file; column, the last three each at least 1
 *     02    call          site
 *     03    spawn         site
 *     04    sync          none
 *     05    return        none
 *     06    cost          value, at least 1
 *     07    instructions  value, at least 1
 *     12    async         site
 *     13    finish        none
 *
 * Two runtimes write traces, and each kind of trace has its own functions. In the traces of the one a spawned
 * invocation runs beside what comes behind it until its spawner syncs or returns; they have kinds 01 to 07. In those of
 * the other an invocation made by async runs beside what comes behind it until the innermost finish around the async
 * closes; they have kinds 01, 02, 05, 06, 07, 12 and 13, and the functions for them have `finish` in their names. A
 * line of the other runtime's kinds is refused as 6. Every other function that takes a trace takes one of the first.
 *
 * The root is open from the start, and its return is the last line. A site line may stand anywhere before that; site
 * lines are numbered 1, 2, 3 and on, no two with the same file, line and column, and a call, spawn or async names a
 * site that an earlier line declares. A kind 07 line stands directly behind a cost line and carries its instructions; a
 * cost without one has none. Costs are cycles, which alone decide work, span and chains; instructions are a measure of
 * their own, never added to them.
 *
 * Every function answers 0 where it accepts, and otherwise a refusal: its number + 256 times its line, lines numbered
 * from 0. A refusal changes nothing that was lent. Where several refusals apply, the one with the smallest number is
 * given, except that refusals 5 to 14 and 22 of a trace are those of its first faulty line, in which 22 comes behind 7.
 *
 * All memory is the caller's: no function allocates, keeps a pointer, prints, or has state. Calls on memory that
 * does not overlap may run at the same time. Every slice passes as a pointer and the number of its elements. A pointer
 * is not null, even with length 0, and is aligned for its type; what is lent for writing overlaps nothing else
 * that is lent. That is all a caller owes: any bytes, numbers and lengths are answered. What lent room held
 * before makes no difference, and longer room than needed is left alone past what is needed, the scratch
 * excepted, which is zero from end to end after an accepted trace.
 */
#ifndef NYOLIFUWE_H
#define NYOLIFUWE_H

#include <stddef.h>
#include <stdint.h>

#ifdef __cplusplus
extern "C" {
#endif

/* A refusal's number and line, from what a function answered. */
#define NYO_NUMBER(answer) ((unsigned)((answer) & 255))
#define NYO_LINE(answer) ((uint64_t)(answer) >> 8)

/* The limits: depth 1 to 64, counting the root; sites 0 to 255; lines. */
#define NYO_MOST_DEPTH 64
#define NYO_MOST_SITES 255
#define NYO_MOST_LINES 65536

/* Characters of a trace line, of a report line (4 digits, 16 for each number, a line feed) and of a printed refusal. */
#define NYO_LINE_CHARS 23
#define NYO_ROW_CHARS (4 + 16 * NYO_COLUMNS + 1)
#define NYO_REFUSAL_CHARS 13

/* A list of forecast entries: how many there may be, and the range of a factor. */
#define NYO_MOST_ENTRIES 16
#define NYO_LEAST_FACTOR 2
#define NYO_MOST_FACTOR 1000

/* Numbers of a frame, of a row, of an answer and of what nyo_why answers. */
#define NYO_FRAME 5
#define NYO_COLUMNS 7
#define NYO_ANSWER 4
#define NYO_WHY 2

/* Which number of its row a column is. */
enum { NYO_CALLS, NYO_WORK, NYO_SPAN, NYO_LOCAL, NYO_ON_SPAN, NYO_ILOCAL, NYO_ION_SPAN };

/* The first number that nyo_why answers. */
enum {
    NYO_NOT_COST, /* not a cost line */
    NYO_ON_CHAIN, /* on the chosen chain */
    NYO_SLACK,    /* the heaviest chain through the line weighs less than the span, by the second number */
    NYO_TIED      /* it weighs as much as the span, and the second number is a line of the chosen chain that is not on it */
};

/* The room that each function needs, in elements. */
#define NYO_TABLES_SCRATCH(depth, sites) (7 * (size_t)(depth) * ((size_t)(sites) + 3))
#define NYO_MARKS_SCRATCH(depth) (8 * (size_t)(depth))
#define NYO_ROWS(sites) (NYO_COLUMNS * ((size_t)(sites) + 1))
#define NYO_FOLDED_SCRATCH(depth) ((size_t)(depth))

/* Characters of the full report of count sites, and at most of the one without idle rows, which has NYO_ROW_CHARS for each
 * row printed. */
#define NYO_REPORT_CHARS(count) (NYO_ROW_CHARS * ((size_t)(count) + 1))

/* Characters of comma-separated text: of its header, of a record at most (numbers of 20 digits, each with a comma or CR
 * behind it, and a LF), and of the text of count sites at most. */
#define NYO_CSV_HEADER_CHARS 49
#define NYO_CSV_ROW_CHARS (21 * (1 + NYO_COLUMNS) + 1)
#define NYO_CSV_CHARS(count) (NYO_CSV_HEADER_CHARS + NYO_CSV_ROW_CHARS * ((size_t)(count) + 1))

/* Characters of folded stacks at most: for each cost line as many names as invocations may be open, none longer than the
 * longest and each with a semicolon or space behind it, a cost of 10 figures and a line feed. */
#define NYO_FOLDED_CHARS(costs, depth, longest) ((size_t)(costs) * ((size_t)(depth) * ((size_t)(longest) + 1) + 11))

/* Characters of the compacted trace of a trace at most: it is never longer. */
#define NYO_COMPACT_CHARS(trace_len) ((size_t)(trace_len))

/* The refusals. 13 is not in use. */
enum {
    NYO_LIMITS = 1,        /* depth, sites, count, number or line outside its range */
    NYO_LENGTH = 2,        /* length not a multiple of 23; for one line, not 23 */
    NYO_TOO_MANY = 3,      /* more than 65,536 lines */
    NYO_ROOM = 4,          /* a lent slice is shorter than stated */
    NYO_CHARACTER = 5,     /* a wrong character in the line */
    NYO_TABLE = 6,         /* unknown kind, unused field not zero, or a value outside the table */
    NYO_AFTER_END = 7,     /* a line after the root's return */
    NYO_SITE_ORDER = 8,    /* a site line not numbered one above the last; the first is 1 */
    NYO_SITE_LIMIT = 9,    /* a site line whose number is above the site limit */
    NYO_PLACE = 10,        /* a place already declared */
    NYO_UNDECLARED = 11,   /* call, spawn or async of site 0 or of one that no earlier line declares */
    NYO_DEPTH = 12,        /* more invocations and finishes open than the depth limit */
    NYO_UNFINISHED = 14,   /* lines end before the root's return; the line is the number of lines */
    NYO_CSV_RECORD = 15,   /* a record of comma-separated text is not good or is missing; the line is its number, header 0 */
    NYO_CSV_ROOM = 16,     /* output shorter than comma-separated text, or room for fewer rows than it has */
    NYO_NAME = 17,         /* the name shown for a row is bad or missing from both lists; the line is the row */
    NYO_FOLDED_ROOM = 18,  /* output shorter than the folded stacks */
    NYO_ENTRIES = 19,      /* a list of forecast entries too long, its rows not strictly ascending, or one not declared */
    NYO_FACTOR = 20,       /* a forecast entry's factor outside 2 to 1,000 */
    NYO_COMPACT_ROOM = 21, /* output shorter than the compacted trace */
    NYO_STRAY = 22,        /* a kind 07 line not directly behind a cost line; in a line it comes behind 7 and before 8 */
    NYO_PAST_END = 23      /* the asked line is at or past the end; the line is the asked number */
};

/* Profiles a trace with the table engine.
 *
 * depth and sites are the limits that the caller sets, and decide the room:
 *   scratch  NYO_TABLES_SCRATCH(depth, sites)   all zero afterwards
 *   rows     NYO_ROWS(sites)                    row 0 is the root, row s site s; seven numbers each:
 *                                               calls, work, span, local, on span, and the instructions
 *                                               local and on span; see below
 *   answer   NYO_ANSWER                         total work, total span, number of sites, number of lines
 * Of rows the numbers of the root and of the declared sites are written. Calls counts the invocations made from the site;
 * local is the costs directly in them, and on span the part of it on the chosen chain; the last two are the instructions of
 * the same costs. Work and span add up, over those of them that no other invocation from the same site encloses, all costs
 * inside each and the span of each: so a site that calls itself has no more work, and no more span, than the total work.
 * Refusals: 1 to 4 in that order with line 0, then 5, 6, 7, 22 and 8 to 12, in that order, of the first faulty line, then
 * 14. */
uint64_t nyo_tables(const uint8_t *trace, size_t trace_len, uint64_t depth, uint64_t sites, uint64_t *scratch,
                    size_t scratch_len, uint64_t *rows, size_t rows_len, uint64_t *answer, size_t answer_len);

/* Profiles a trace with the marks engine: the same answer, rows and refusals as nyo_tables, and
 *   scratch  NYO_MARKS_SCRATCH(depth)           all zero afterwards
 *   marks    one byte a line                    1 for a line on the chosen chain, 0 for any other, each 07 line too
 * The chosen chain is, among the heaviest chains of cost lines that are in series, the one that comes first; instructions do
 * not choose. */
uint64_t nyo_marks(const uint8_t *trace, size_t trace_len, uint64_t depth, uint64_t sites, uint64_t *scratch,
                   size_t scratch_len, uint8_t *marks, size_t marks_len, uint64_t *rows, size_t rows_len,
                   uint64_t *answer, size_t answer_len);

/* Profile a trace of asyncs and finishes as nyo_tables and nyo_marks do: the same arguments, room, answer, rows, marks
 * and refusals, in the same order.
 * The root is a finish; kind 05 closes the innermost open invocation or finish. Two cost lines i < j are parallel
 * exactly when some async contains i and not j and the nearest finish around that async is open at j: a call joins
 * nothing, so what a called invocation leaves running goes on beside what comes behind the call. A finish has no row
 * and is no call: costs directly in it belong to the row around it, and it counts towards the depth. */
uint64_t nyo_finish_tables(const uint8_t *trace, size_t trace_len, uint64_t depth, uint64_t sites, uint64_t *scratch,
                           size_t scratch_len, uint64_t *rows, size_t rows_len, uint64_t *answer, size_t answer_len);

uint64_t nyo_finish_marks(const uint8_t *trace, size_t trace_len, uint64_t depth, uint64_t sites, uint64_t *scratch,
                          size_t scratch_len, uint8_t *marks, size_t marks_len, uint64_t *rows, size_t rows_len,
                          uint64_t *answer, size_t answer_len);

/* A forecast entry: the costs directly in the invocations of a row are divided by the factor, each rounded up. */
typedef struct {
    uint64_t row, factor;
} nyo_entry;

/* Profile a trace as nyo_tables and nyo_marks do, as it would be if the rows that the entries name were faster: the answer,
 * rows and marks are those of the trace in which each cost directly in an invocation of a named row is divided by its factor
 * and rounded up. Instructions stay as they are. An empty list gives the plain profile.
 *   entries  at most NYO_MOST_ENTRIES           rows strictly ascending, 0 for the root; factors 2 to 1,000;
 *                                               entries_len is the number of entries
 * Refusals: those of nyo_tables and nyo_marks, then, with line 0, 19 for a list that is too long, unordered or names a row
 * that is not declared, then 20 for a factor outside its range: all of the list is looked at for 19 before any of it for 20. */
uint64_t nyo_forecast_tables(const uint8_t *trace, size_t trace_len, uint64_t depth, uint64_t sites,
                             const nyo_entry *entries, size_t entries_len, uint64_t *scratch, size_t scratch_len,
                             uint64_t *rows, size_t rows_len, uint64_t *answer, size_t answer_len);

uint64_t nyo_forecast_marks(const uint8_t *trace, size_t trace_len, uint64_t depth, uint64_t sites,
                            const nyo_entry *entries, size_t entries_len, uint64_t *scratch, size_t scratch_len,
                            uint8_t *marks, size_t marks_len, uint64_t *rows, size_t rows_len, uint64_t *answer,
                            size_t answer_len);

/* Reads one trace line into a frame of NYO_FRAME numbers: kind, site, value, file, column.
 * Refusals, each with line 0: 2 unless it is lent exactly 23 characters, 4, 5, 6. */
uint64_t nyo_read_line(const uint8_t *line, size_t line_len, uint64_t *frame, size_t frame_len);

/* Writes a frame, the first five numbers lent, as a line, and into written[0] how many characters it is.
 *   frame    NYO_FRAME
 *   out      NYO_LINE_CHARS
 *   written  1
 * Refusals, each with line 0: 4, then 6 where a field breaks the table. */
uint64_t nyo_write_line(const uint64_t *frame, size_t frame_len, uint8_t *out, size_t out_len, uint64_t *written,
                        size_t written_len);

/* Read and write a line of a trace of asyncs and finishes: the same with its kinds, in a frame 0x12 for async and 0x13
 * for finish. */
uint64_t nyo_finish_read_line(const uint8_t *line, size_t line_len, uint64_t *frame, size_t frame_len);

uint64_t nyo_finish_write_line(const uint64_t *frame, size_t frame_len, uint8_t *out, size_t out_len, uint64_t *written,
                               size_t written_len);

/* Writes the report of the root and count sites without idle rows: of row 0 and of each row with calls above zero, in order, a
 * line, and into written[0] how many characters they are. A line is its row in 4 digits, its seven numbers in 16 digits each
 * and a line feed, in hexadecimal with small letters.
 *   rows     NYO_ROWS(count)
 *   out      NYO_ROW_CHARS for each row printed; NYO_REPORT_CHARS(count) is always enough
 *   written  1
 * Refusals, each with line 0: 1 for a count above 255, then 4; rows that are too short are not looked at.
 * A caller that counts on a line for every row, or finds a row by its place in the text, must call nyo_full_report: it takes
 * the same arguments, and what it writes is what this function wrote before it left idle rows off. */
uint64_t nyo_report(const uint64_t *rows, size_t rows_len, uint64_t count, uint8_t *out, size_t out_len,
                    uint64_t *written, size_t written_len);

/* Writes the full report of the root and count sites: of every row, called or not, such a line.
 *   rows     NYO_ROWS(count)
 *   out      NYO_REPORT_CHARS(count)
 *   written  1
 * Refusals, each with line 0: 1 for a count above 255, then 4. */
uint64_t nyo_full_report(const uint64_t *rows, size_t rows_len, uint64_t count, uint8_t *out, size_t out_len,
                         uint64_t *written, size_t written_len);

/* Writes a refusal as the report program prints it: ff, its number in 2 digits, its line in 8, a line feed.
 *   out      NYO_REFUSAL_CHARS
 *   written  1
 * Refusals, each with line 0: 1 for a number above 255 or a line above 4,294,967,295, then 4. */
uint64_t nyo_refusal(uint64_t number, uint64_t line, uint8_t *out, size_t out_len, uint64_t *written,
                     size_t written_len);

/* Writes the rows of the root and count sites as comma-separated text (RFC 4180): the header
 * row,calls,work,span,local,onspan,ilocal,ionspan, then a record for each row, in decimal, without quotes, each record ended
 * by CR LF; and into written[0] how many characters they are.
 *   rows     NYO_ROWS(count)
 *   out      the text's own length; NYO_CSV_CHARS(count) is always enough
 *   written  1
 * Refusals, each with line 0: 1 for a count above 255, 4 for rows or written too short, then 16 for output too short. */
uint64_t nyo_csv_write(const uint64_t *rows, size_t rows_len, uint64_t count, uint8_t *out, size_t out_len,
                       uint64_t *written, size_t written_len);

/* Reads such text back: the rows, and into count[0] how many sites they are besides the root. Any field may be in double
 * quotes, and the last record may lack its line end. Good text is the header, then 1 to 256 records of eight decimal
 * numbers of 64 bits without a leading zero, the first of them 0, 1, 2 and on.
 *   rows     NYO_COLUMNS for each record; NYO_ROWS(NYO_MOST_SITES) is always enough
 *   count    1
 * Refusals: 4 with line 0 for count too short, then 15 with the number of the first record (the header is 0) that is not
 * good or is missing, then 16 with line 0 for rows too short. */
uint64_t nyo_csv_read(const uint8_t *text, size_t text_len, uint64_t *rows, size_t rows_len, uint64_t *count,
                      size_t count_len);

/* Writes a trace as folded stacks: for each cost line, in order, the names from the root to the innermost open invocation
 * joined by semicolons, a space, the cost in decimal, a line feed; and into written[0] how many characters they are. Equal
 * stacks are not merged, and the costs add up to the total work; instructions are not told.
 *
 * project and stock are lists of names, one a line: line 0 names the root, line s site s; a line ends at a line feed or at
 * the end of the list. The name shown is the project's, or the stock list's where the project's line is empty or missing. It
 * is one or more characters from 33 to 126 without the semicolon, so no list may end its lines with CR LF.
 *   scratch  NYO_FOLDED_SCRATCH(depth)          all zero afterwards
 *   out      the text's own length; NYO_FOLDED_CHARS(lines, depth, longest name) is always enough
 *   written  1
 * Refusals: those of nyo_tables, with 4 for scratch or written too short, then 17 with the first row, of the root and the
 * declared sites, whose shown name is bad or missing from both lists, then 18 with line 0 for output too short. */
uint64_t nyo_folded(const uint8_t *trace, size_t trace_len, uint64_t depth, uint64_t sites, const uint8_t *project,
                    size_t project_len, const uint8_t *stock, size_t stock_len, uint64_t *scratch, size_t scratch_len,
                    uint8_t *out, size_t out_len, uint64_t *written, size_t written_len);

/* Writes a trace without the lines that say nothing, and into written[0] how many characters are left. Dropped is each
 * sync with no spawn directly in its invocation since that invocation's start or last sync, and each with only syncs
 * between it and its return; then adjacent cost lines, each with its 07 line, merge from the left while both sums, of costs
 * and of instructions, are at most 4,294,967,295; what is merged is written as a cost line and, where there are
 * instructions, a 07 line. Two costs with a site line between them are not adjacent. What is left is a trace that is accepted
 * with the same limits; its work, span, sites and rows are those of the trace, its lines and marks its own. Its digits have
 * small letters, and compacting it again leaves it as it is.
 *   out      the result's own length; NYO_COMPACT_CHARS(trace_len) is always enough
 *   written  1
 * Refusals: those of nyo_tables, with 4 for written too short, then 21 with line 0 for output too short. */
uint64_t nyo_compact(const uint8_t *trace, size_t trace_len, uint64_t depth, uint64_t sites, uint8_t *out,
                     size_t out_len, uint64_t *written, size_t written_len);

/* Says why a line of a trace is not on the span, or that it is.
 *   scratch  NYO_MARKS_SCRATCH(depth)           all zero afterwards
 *   marks    one byte a line                    1 for a line of the chain that is shown, 0 for any other
 *   answer   NYO_WHY                            one of four, and a number:
 *     NYO_NOT_COST, 0   the line is no cost line: a 07 line and a site line are none. No line is marked.
 *     NYO_ON_CHAIN, 0   the line is on the chosen chain, which is marked.
 *     NYO_SLACK, n      the heaviest chain through the line weighs n less than the span, n at least 1: the line can grow by n
 *                       before the span does, and every step past that lengthens it.
 *     NYO_TIED, k       that chain weighs as much as the span and is not the chosen one: whatever the line grows by, the span
 *                       does. k is the smallest line that is on the chosen chain and not on the chain through the line.
 * For the last two the marks show the chain through the line: of the heaviest chains with the line on them the one that comes
 * first.
 * Refusals: those of nyo_tables, with 4 for scratch, marks or answer too short, then 23 with the asked number where it is at or
 * past the end of the trace. */
uint64_t nyo_why(const uint8_t *trace, size_t trace_len, uint64_t depth, uint64_t sites, uint32_t line, uint64_t *scratch,
                 size_t scratch_len, uint8_t *marks, size_t marks_len, uint64_t *answer, size_t answer_len);

#ifdef __cplusplus
}
#endif

#endif
