// A caller in C: takes the name of an input as `layout` reads it, settings and a sheet, and shows what the calls say of its first table.
#include <stdio.h>
#include <string.h>
#include "tables.h"

// The structs as the library has them: numbers of 32 bits one after the other, without a gap.
_Static_assert(sizeof(tables_check_result) == 8 && offsetof(tables_check_result, line) == 4, "tables_check_result");
_Static_assert(sizeof(tables_measure_result) == 20 && offsetof(tables_measure_result, size) == 8 && offsetof(tables_measure_result, prefix) == 16, "tables_measure_result");
_Static_assert(sizeof(tables_estimates_result) == 12 && offsetof(tables_estimates_result, lines) == 8, "tables_estimates_result");
_Static_assert(sizeof(tables_grid_result) == 20 && offsetof(tables_grid_result, rows) == 8 && offsetof(tables_grid_result, columns) == 16, "tables_grid_result");
_Static_assert(sizeof(tables_layout_result) == 20 && offsetof(tables_layout_result, way) == 8 && offsetof(tables_layout_result, width) == 16, "tables_layout_result");
_Static_assert(sizeof(tables_missing_result) == 16 && offsetof(tables_missing_result, count) == 8 && offsetof(tables_missing_result, columns) == 12, "tables_missing_result");
_Static_assert(sizeof(tables_at_result) == 16 && offsetof(tables_at_result, what) == 8 && offsetof(tables_at_result, entry) == 12, "tables_at_result");
_Static_assert(sizeof(tables_within_result) == 12 && offsetof(tables_within_result, count) == 8, "tables_within_result");
_Static_assert(sizeof(tables_joining_result) == 12 && offsetof(tables_joining_result, joint) == 8, "tables_joining_result");
_Static_assert(sizeof(tables_walk_result) == 12 && offsetof(tables_walk_result, lines) == 8, "tables_walk_result");
_Static_assert(sizeof(tables_nested_result) == 28 && offsetof(tables_nested_result, given) == 8 && offsetof(tables_nested_result, way) == 16 && offsetof(tables_nested_result, width) == 24, "tables_nested_result");
_Static_assert(sizeof(tables_window_result) == 12 && offsetof(tables_window_result, count) == 8, "tables_window_result");
_Static_assert(sizeof(tables_spoken_result) == 20 && offsetof(tables_spoken_result, of_sheet) == 8 && offsetof(tables_spoken_result, length) == 16, "tables_spoken_result");

static uint8_t input[TABLES_MAX_BYTES + 100];
static uint32_t size[TABLES_MAX_LINES], least[TABLES_MAX_LINES], prefix[TABLES_MAX_LINES];
static uint32_t cell[TABLES_MAX_ENTRIES], first[TABLES_MAX_ENTRIES], span[TABLES_MAX_ENTRIES];
static uint32_t row[TABLES_MAX_LINES], row_end[TABLES_MAX_LINES];
static uint32_t column[TABLES_MAX_COLUMNS], x[TABLES_MAX_ENTRIES], wide[TABLES_MAX_ENTRIES];
static uint32_t entry[TABLES_MAX_ENTRIES], cause[TABLES_MAX_COLUMNS];
static uint32_t given[TABLES_MAX_LINES], line_wide[TABLES_MAX_LINES];
static const uint32_t widths[] = {0, 5, 6, 40};
static uint32_t ways[4], totals[4], counts[4];
#define PLACES(a) (a), sizeof(a) / sizeof *(a)

static int refused(uint32_t number, uint32_t line) {
    if (number) printf("refusal %u, line %u\n", number, line);
    return number != 0;
}

// The line of the first table of an accepted sheet, 0 if there is none: a line's kind stands after its first space.
static uint32_t first_table(const uint8_t *sheet, size_t len) {
    uint32_t line = 0;
    for (const uint8_t *p = sheet, *end = sheet + len; p < end; line++) {
        const uint8_t *kind = memchr(p, ' ', (size_t)(end - p)), *feed = memchr(p, '\n', (size_t)(end - p));
        if (line > 0 && memcmp(kind, " table ", 7) == 0) return line;
        p = feed + 1;
    }
    return 0;
}

int main(int argc, char **argv) {
    unsigned wrap, raw, width;
    int settings = 0;
    FILE *file = argc == 2 ? fopen(argv[1], "rb") : NULL;
    size_t len = file ? fread(input, 1, sizeof input - 1, file) : 0;
    if (sscanf((char *)input, "wrap raw width\n%u %u %u%n", &wrap, &raw, &width, &settings) != 3 || input[settings] != '\n') {
        fprintf(stderr, "usage: caller INPUT, which begins with the settings\n");
        return 2;
    }
    const uint8_t *sheet = input + settings + 1;
    len -= (size_t)settings + 1;

    tables_check_result c = tables_check(sheet, len);
    if (refused(c.number, c.line)) return 1;
    printf("check: accepted\n");

    tables_measure_result m = tables_measure((const uint8_t *)" a  b ", 6, wrap, 0);
    if (refused(m.number, m.line)) return 1;
    printf("measure \" a  b \": size %u, least %u, prefix %u\n", m.size, m.least, m.prefix);

    tables_estimates_result e = tables_estimates(sheet, len, wrap, PLACES(size), PLACES(least), PLACES(prefix));
    if (refused(e.number, e.line)) return 1;
    printf("estimates: %u lines; line 1 has size %u, least %u, prefix %u\n", e.lines, size[0], least[0], prefix[0]);

    uint32_t line = first_table(sheet, len);
    tables_grid_result g = tables_grid(sheet, len, line, PLACES(cell), PLACES(first), PLACES(span), PLACES(row), PLACES(row_end));
    if (refused(g.number, g.line)) return 1;
    printf("grid of line %u: %u rows, %u entries, %u columns\n", line, g.rows, g.entries, g.columns);

    tables_layout_result l = tables_layout(sheet, len, line, wrap, raw, width, PLACES(column), PLACES(x), PLACES(wide));
    if (refused(l.number, l.line)) return 1;
    printf("layout: %s, %u columns, %u wide\n", l.way == TABLES_DOWN ? "down" : "sideways", l.columns, l.width);
    for (uint32_t i = 0; i < l.columns; i++) printf("column %u: width %u\n", i, column[i]);
    for (uint32_t r = 0, i = 0; r < g.rows; r++)
        for (; i < row_end[r]; i++) printf("row %u, cell %u: x %u, width %u\n", row[r], cell[i], x[i], wide[i]);

    tables_missing_result k = tables_missing(sheet, len, line, wrap, raw, width, PLACES(entry), PLACES(cause));
    if (refused(k.number, k.line)) return 1;
    printf("missing: %u entries\n", k.count);
    for (uint32_t i = 0; i < k.count; i++) printf("entry %u is missing\n", entry[i]);
    for (uint32_t i = 0; i < k.columns; i++) printf("column %u: cause %u\n", i, cause[i]);

    tables_at_result t = tables_at(sheet, len, line, wrap, raw, width, 0, 7);
    if (refused(t.number, t.line)) return 1;
    tables_within_result v = tables_within(sheet, len, line, wrap, raw, width, 0, 0, width, PLACES(entry));
    if (refused(v.number, v.line)) return 1;
    tables_joining_result j = tables_joining(sheet, len, line, wrap, raw, width, 0, 6);
    if (refused(j.number, j.line)) return 1;
    printf("row 0: at 7 %u, entry %u; within 0 to %u %u cells; joining at 6 %u\n", t.what, t.entry, width, v.count, j.joint);

    tables_walk_result w = tables_walk(sheet, len, wrap, raw, width, 0, PLACES(given), PLACES(line_wide));
    if (refused(w.number, w.line)) return 1;
    uint32_t with = 0;
    for (uint32_t i = 0; i < w.lines; i++) with += given[i];
    printf("walk: %u lines, %u with a width; line %u is %u wide\n", w.lines, with, w.lines, line_wide[w.lines - 1]);

    tables_nested_result n = tables_nested(sheet, len, line, wrap, raw, width, 0, PLACES(column), PLACES(x), PLACES(wide));
    if (refused(n.number, n.line)) return 1;
    printf("nested: given %u, at %u, %s, %u columns, %u wide\n", n.given, n.at, n.way == TABLES_DOWN ? "down" : "sideways", n.columns, n.width);

    tables_window_result p = tables_window(sheet, len, line, wrap, raw, PLACES(widths), PLACES(ways), PLACES(totals), PLACES(counts));
    if (refused(p.number, p.line)) return 1;
    printf("window: %u widths\n", p.count);
    for (uint32_t i = 0; i < p.count; i++)
        printf("at %u: %s, %u wide, %u missing\n", widths[i], ways[i] == TABLES_DOWN ? "down" : "sideways", totals[i], counts[i]);
    tables_spoken_result o = tables_spoken(sheet, len, line, 0, (const uint8_t *)"blank", 5);
    if (o.number) printf("spoken at entry 0: refusal %u, line %u\n", o.number, o.line);
    else printf("spoken at entry 0: %u bytes\n", o.length);

    // the table beside itself
    tables_grid_result b = tables_joined_grid(sheet, len, line, line, PLACES(cell), PLACES(first), PLACES(span), PLACES(row), PLACES(row_end));
    if (refused(b.number, b.line)) return 1;
    printf("joined with itself: %u rows, %u entries, %u columns\n", b.rows, b.entries, b.columns);
    tables_layout_result d = tables_joined_layout(sheet, len, line, line, wrap, raw, width, PLACES(column), PLACES(x), PLACES(wide));
    if (refused(d.number, d.line)) return 1;
    printf("joined layout: %s, %u columns, %u wide\n", d.way == TABLES_DOWN ? "down" : "sideways", d.columns, d.width);
    tables_spoken_result q = tables_joined_spoken(sheet, len, line, line, 0, (const uint8_t *)"blank", 5);
    if (q.number) printf("joined, spoken at entry 0: refusal %u, line %u\n", q.number, q.line);
    else printf("joined, spoken at entry 0: %u bytes\n", q.length);
    return 0;
}
