/* The table calls, for C11 and C++. Link with libtables_c.a (x86-64 Linux), which needs memcpy and
 * memset of the C library and nothing else.
 *
 * What a sheet is, and what the figures mean, stands in docs/FORMAT.md; what the calls take, answer
 * and refuse, in docs/CALLS.md. Each function is proved to answer what the definitions say,
 * whatever the bytes and the numbers are. What the proof takes for granted, and a caller must keep:
 *
 * - A slice is a pointer and a number of elements (not of bytes). The pointer is not null, is
 *   aligned for its elements, and points to that many of them: readable where it is const, writable
 *   where it is not. What is lent for writing need not be cleared before. (Not null even where the
 *   number is 0: the library as it is compiled does not follow such a pointer, but what is proved
 *   is about pointers that are not null.)
 * - A buffer that is lent for writing overlaps neither another buffer of the call nor the sheet
 *   nor the list of widths, and nothing else touches it during the call.
 * - There is room on the stack. The most that was measured, on sheets that need the longest arrays:
 *   tables_nested 676,000 bytes, tables_joined_layout 663,000, tables_joined_spoken 647,000,
 *   tables_joined_grid 617,000, tables_walk 545,000, tables_spoken 519,000, tables_at,
 *   tables_within and tables_joining 512,000, tables_window 482,000, tables_missing 462,000,
 *   tables_layout 430,000, tables_estimates 400,000, tables_grid 348,000, tables_check 86,000,
 *   tables_measure 300; TABLES_STACK is enough for any call. Without it a call ends in the system's
 *   stack overflow. Nothing is allocated.
 *
 * There is no state outside the arguments: calls may run in several threads at once, each with
 * buffers of its own, and a sheet may be shared.
 *
 * Every result begins with number and line. If number is 0 the call is accepted and line is 0. If
 * not, number is the refusal (enum tables_refusal), line says where (0: no line of the sheet), and
 * all other fields are 0.
 *
 * A lent buffer is written from its first place to its last, however long it is: first the figures,
 * then 0 in all that is left. If the call is refused every place of every lent buffer is 0, also of
 * one that was refused for its length. */
#ifndef TABLES_H
#define TABLES_H

#include <stddef.h>
#include <stdint.h>

#define TABLES_VERSION "0.11.0"

#define TABLES_MAX_BYTES 65536    /* bytes of a sheet, and of a text that is measured */
/* lines of a sheet after its heading: least places of a buffer with one for each line or row */
#define TABLES_MAX_LINES 4096
/* entries of a grid: least places of a buffer with one for each entry */
#define TABLES_MAX_ENTRIES 8192
/* columns of a grid: least places of a buffer with one for each column */
#define TABLES_MAX_COLUMNS 4096
#define TABLES_MAX_WRAP 1000      /* largest wrap */
#define TABLES_MAX_WIDTH 65535    /* largest width */
#define TABLES_MAX_WIDTHS 1024    /* widths of one call of tables_window */
#define TABLES_STACK 800000       /* bytes of stack that are enough for any call */

/* In the order in which they are looked for: 16, 9, 11, 8, 1; then line by line 2, 3, 13, 14, 4;
 * then 4 for no node, an empty table or an empty body; 10; then table by table 5, 6; then 5, 6 of
 * two tables joined; then 10 for a row, and for an entry; then 12. */
enum tables_refusal {
    TABLES_ACCEPTED = 0,
    /* the first line is not exactly the heading with its line feed; line 0 */
    TABLES_BAD_HEADING = 1,
    /* a line is not written as a sheet's lines are, or a field is out of its range (depth: 0 to
     * 24); the line */
    TABLES_BAD_LINE = 2,
    /* a byte 131 to 255 in a text; the line, and 0 in tables_measure */
    TABLES_BAD_BYTE = 3,
    /* the depth or the place of a line breaks the nesting, or a table or a body is empty: the line;
     * no node: 0 */
    TABLES_BAD_NESTING = 4,
    /* a row of a table ends past position 4,096; the table's line; or two tables joined have more
     * than 4,096 columns; the left one's line */
    TABLES_ROW_TOO_LONG = 5,
    /* a table has more than 8,192 entries; the table's line; or two joined have; the left one's */
    TABLES_TOO_MANY_ENTRIES = 6,
    /* more than 65,536 bytes, or more than 4,097 line feeds (tables_measure: bytes alone);
     * line 0 */
    TABLES_TOO_LONG = 8,
    /* wrap above 1,000, a width above 65,535, or raw or overflow above 1; line 0 */
    TABLES_BAD_SETTING = 9,
    /* the line given is not a table of the sheet, or goes down or has no such row where a row of it
     * is asked for, or has no filler with the number that is asked for, as the joined grid; line 0 */
    TABLES_NO_TABLE = 10,
    TABLES_SHORT_BUFFER = 11,    /* a lent buffer has fewer than its least places; line 0 */
    /* a heading, quote, list or definition is too narrow for what it holds, in tables_walk and
     * tables_nested; its line */
    TABLES_TOO_NARROW = 12,
    TABLES_NO_SUM = 13,          /* the text of a calc is not a sum; the line */
    /* a divisor of zero, or a step outside plus or minus 1,000,000,000,000; the line */
    TABLES_OUT_OF_BOUNDS = 14,
    /* no width or more than 1,024 in the list of tables_window; line 0 */
    TABLES_BAD_WIDTHS = 16
};

typedef struct tables_check_result {
    uint32_t number, line;
} tables_check_result;

typedef struct tables_measure_result {
    uint32_t number, line;
    uint32_t size, least, prefix; /* of the text */
} tables_measure_result;

typedef struct tables_estimates_result {
    uint32_t number, line;
    /* of the sheet, the heading not counted: so many figures stand in each buffer */
    uint32_t lines;
} tables_estimates_result;

typedef struct tables_grid_result {
    uint32_t number, line;
    uint32_t rows, entries, columns; /* fillers are counted */
} tables_grid_result;

typedef struct tables_layout_result {
    uint32_t number, line;
    uint32_t way;     /* TABLES_SIDEWAYS or TABLES_DOWN */
    /* so many widths stand in column; x and wide hold as many figures as tables_grid counts entries
     * */
    uint32_t columns;
    uint32_t width;   /* of the table */
} tables_layout_result;

typedef struct tables_missing_result {
    uint32_t number, line;
    uint32_t count;   /* so many numbers of missing entries stand in entry */
    uint32_t columns; /* so many causes stand in cause */
} tables_missing_result;

typedef struct tables_at_result {
    uint32_t number, line;
    uint32_t what;  /* TABLES_NOTHING, TABLES_GAP or TABLES_CELL */
    /* the cell's number in the grid's order, the first is 0; 0 unless what is TABLES_CELL */
    uint32_t entry;
} tables_at_result;

typedef struct tables_within_result {
    uint32_t number, line;
    uint32_t count; /* so many numbers of cells stand in entry */
} tables_within_result;

typedef struct tables_joining_result {
    uint32_t number, line;
    uint32_t joint; /* TABLES_PLAIN, TABLES_UP, TABLES_DOWNWARD or TABLES_BOTH */
} tables_joining_result;

typedef struct tables_walk_result {
    uint32_t number, line;
    /* of the sheet, the heading not counted: so many figures stand in each buffer */
    uint32_t lines;
} tables_walk_result;

typedef struct tables_nested_result {
    uint32_t number, line;
    /* 1 if the walk gives the table a width; if it is 0, so are all other fields and all places of
     * the buffers */
    uint32_t given;
    uint32_t at;      /* the width that the walk gives it */
    uint32_t way;     /* TABLES_SIDEWAYS or TABLES_DOWN */
    /* so many widths stand in column; x and wide hold as many figures as tables_grid counts entries
     * */
    uint32_t columns;
    uint32_t width;   /* of the table */
} tables_nested_result;

typedef struct tables_window_result {
    uint32_t number, line;
    uint32_t count; /* so many lines has the report: as many figures stand in each buffer */
} tables_window_result;

typedef struct tables_spoken_result {
    uint32_t number, line;
    /* 1: the text spoken is the bytes from to from + length, the last not counted, of the sheet;
     * 0: it is the whole wording, from is 0 and length the wording's, or 4,294,967,295 if that is
     * larger */
    uint32_t of_sheet;
    uint32_t from;
    uint32_t length; /* in bytes */
} tables_spoken_result;

enum tables_way { TABLES_SIDEWAYS = 0, TABLES_DOWN = 1 };

enum tables_what { TABLES_NOTHING = 0, TABLES_GAP = 1, TABLES_CELL = 2 };

/* A gap stands in the row above, in the row below, in both or in neither. */
enum tables_joint { TABLES_PLAIN = 0, TABLES_UP = 1, TABLES_DOWNWARD = 2, TABLES_BOTH = 3 };

/* Why a column is 0 wide: the first that holds, where TABLES_PAGE comes before all others. */
enum tables_cause {
    TABLES_SHOWN = 0,  /* it is not 0 wide */
    TABLES_EMPTY = 1,  /* its size is 0 */
    TABLES_LITTLE = 2, /* its share of the width is 0 */
    TABLES_CUT = 3,    /* its share was cut away */
    TABLES_PAGE = 4    /* the page has width 0 */
};

#ifdef __cplusplus
extern "C" {
#endif

/* Whether a sheet is accepted. */
tables_check_result tables_check(const uint8_t *sheet, size_t sheet_len);

/* The figures of one text by itself, as text or svg (img 0) or as img (any other number). */
tables_measure_result tables_measure(
    const uint8_t *text, size_t text_len, uint32_t wrap, uint32_t img);

/* The figures of every line: place k - 1 is line k. Each buffer has at least TABLES_MAX_LINES
 * places. */
tables_estimates_result tables_estimates(
    const uint8_t *sheet, size_t sheet_len, uint32_t wrap,
    uint32_t *size, size_t size_len,
    uint32_t *least, size_t least_len,
    uint32_t *prefix, size_t prefix_len);

/* The grid of the table in a line. For each entry, row after row: the line of its cell (0: a
 * filler), its first column and its span, with at least TABLES_MAX_ENTRIES places each. For each
 * row: its line, and the number of entries up to and with it, with at least TABLES_MAX_LINES places
 * each. */
tables_grid_result tables_grid(
    const uint8_t *sheet, size_t sheet_len, uint32_t line,
    uint32_t *cell, size_t cell_len,
    uint32_t *first, size_t first_len,
    uint32_t *span, size_t span_len,
    uint32_t *row, size_t row_len,
    uint32_t *row_end, size_t row_end_len);

/* The layout of the table in a line, at a width; raw is 0 or 1. For each column: its width, with at
 * least TABLES_MAX_COLUMNS places. For each entry of the grid, in its order: where it begins and
 * how wide it is (0: it is left out), with at least TABLES_MAX_ENTRIES places each. Down the page
 * every entry begins at 0 and is as wide as the page. */
tables_layout_result tables_layout(
    const uint8_t *sheet, size_t sheet_len,
    uint32_t line, uint32_t wrap, uint32_t raw, uint32_t width,
    uint32_t *column, size_t column_len,
    uint32_t *x, size_t x_len,
    uint32_t *wide, size_t wide_len);

/* Which entries of the table in a line are missing, those that tables_layout leaves out, and why.
 * For each missing entry: its number in the grid's order, the first is 0, with at least
 * TABLES_MAX_ENTRIES places. For each column: its cause (enum tables_cause), with at least
 * TABLES_MAX_COLUMNS places. An entry is missing exactly if none of its columns is TABLES_SHOWN. */
tables_missing_result tables_missing(
    const uint8_t *sheet, size_t sheet_len,
    uint32_t line, uint32_t wrap, uint32_t raw, uint32_t width,
    uint32_t *entry, size_t entry_len,
    uint32_t *cause, size_t cause_len);

/* Pointing into a row of a table that goes sideways. row is its number among the grid's rows, the
 * first is 0; character columns count from 0, and may be any numbers. A gap is the one column
 * between two printed cells; a cell that is left out has no column, and right of the last printed
 * cell is nothing. */

/* What lies at the character column x. */
tables_at_result tables_at(
    const uint8_t *sheet, size_t sheet_len,
    uint32_t line, uint32_t wrap, uint32_t raw, uint32_t width, uint32_t row, uint32_t x);

/* The printed cells that lie wholly from the column from up to, and not with, the column to, left
 * to right. For each: its number in the grid's order, with at least TABLES_MAX_ENTRIES places. */
tables_within_result tables_within(
    const uint8_t *sheet, size_t sheet_len,
    uint32_t line, uint32_t wrap, uint32_t raw, uint32_t width, uint32_t row,
    uint32_t from, uint32_t to,
    uint32_t *entry, size_t entry_len);

/* The joining character at the column x between the row and the next, as gaps stand above and
 * below; below the last row stands none. */
tables_joining_result tables_joining(
    const uint8_t *sheet, size_t sheet_len,
    uint32_t line, uint32_t wrap, uint32_t raw, uint32_t width, uint32_t row, uint32_t x);

/* The widths of a sheet's lines: the first has the width given, a printed cell its own, any other
 * line what its parent passes on; overflow is 0 or 1. For each line: whether it has a width (0: it
 * stands in a missing cell), and which, with at least TABLES_MAX_LINES places each. With overflow 1
 * a width may pass TABLES_MAX_WIDTH. */
tables_walk_result tables_walk(
    const uint8_t *sheet, size_t sheet_len,
    uint32_t wrap, uint32_t raw, uint32_t width, uint32_t overflow,
    uint32_t *given, size_t given_len,
    uint32_t *wide, size_t wide_len);

/* The layout of the table in a line, at the width that tables_walk gives it. The buffers are those
 * of tables_layout. */
tables_nested_result tables_nested(
    const uint8_t *sheet, size_t sheet_len,
    uint32_t line, uint32_t wrap, uint32_t raw, uint32_t width, uint32_t overflow,
    uint32_t *column, size_t column_len,
    uint32_t *x, size_t x_len,
    uint32_t *wide, size_t wide_len);

/* The table in a line at each of 1 to TABLES_MAX_WIDTHS widths; raw is 0 or 1. For each width of
 * the list, in its order, what tables_layout says at it: the way (enum tables_way) and the table's
 * width; and how many entries are missing, as tables_missing counts them. Each buffer has at least
 * as many places as there are widths. */
tables_window_result tables_window(
    const uint8_t *sheet, size_t sheet_len,
    uint32_t line, uint32_t wrap, uint32_t raw,
    const uint32_t *widths, size_t widths_len,
    uint32_t *way, size_t way_len,
    uint32_t *wide, size_t wide_len,
    uint32_t *missing, size_t missing_len);

/* The text that is spoken at a filler of the table in a line. entry is its number in the grid's
 * order, the first is 0. Spoken is the whole text of the first line of kind text inside the cell
 * that the filler continues, those of tables in the cell included; or the wording, where there is
 * no such line or its text is empty. Nothing is copied: the reply says which bytes of which of the
 * two. The wording may have any bytes, and any length. */
tables_spoken_result tables_spoken(
    const uint8_t *sheet, size_t sheet_len, uint32_t line, uint32_t entry,
    const uint8_t *wording, size_t wording_len);

/* The tables in two lines of a sheet side by side, as one grid. Row i holds the left table's row i,
 * then the right table's row i with its columns moved by the number of the left table's columns. A
 * left row that is short gets one empty entry over the columns that it lacks; where a table has no
 * row any more, an empty entry stands over all its columns, unless it has none. An empty entry is a
 * filler that continues no cell: its line is 0, and its size. A row's line is the left row's, or
 * the right's where there is no left row. 10: either line is no table. left and right may be the
 * same, or one table inside the other. 5 and 6 of the joined grid, more than TABLES_MAX_COLUMNS
 * columns or TABLES_MAX_ENTRIES entries, come after those of all tables, on the left table's
 * line. */

/* The joined grid. The buffers are those of tables_grid. */
tables_grid_result tables_joined_grid(
    const uint8_t *sheet, size_t sheet_len, uint32_t left, uint32_t right,
    uint32_t *cell, size_t cell_len,
    uint32_t *first, size_t first_len,
    uint32_t *span, size_t span_len,
    uint32_t *row, size_t row_len,
    uint32_t *row_end, size_t row_end_len);

/* The layout of the joined grid, as that of any other. The buffers are those of tables_layout. */
tables_layout_result tables_joined_layout(
    const uint8_t *sheet, size_t sheet_len, uint32_t left, uint32_t right,
    uint32_t wrap, uint32_t raw, uint32_t width,
    uint32_t *column, size_t column_len,
    uint32_t *x, size_t x_len,
    uint32_t *wide, size_t wide_len);

/* The text that is spoken at a filler of the joined grid: the tables in the lines left and right
 * side by side. entry is its number in that grid's order, the first is 0. As tables_spoken; an empty
 * entry, which stands where one of the tables has no cell, is spoken with the wording. */
tables_spoken_result tables_joined_spoken(
    const uint8_t *sheet, size_t sheet_len, uint32_t left, uint32_t right, uint32_t entry,
    const uint8_t *wording, size_t wording_len);

#ifdef __cplusplus
}
#endif

#endif
