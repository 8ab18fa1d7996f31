// The calls of two tables side by side, for joined.py. Input, again and again: a line `LENGTH ASKED` and a sheet of that many bytes, then as often as is
// asked a line `LEFT RIGHT WRAP RAW WIDTH ENTRY`. Answers to each: a line for the grid, one for the layout and one for what is spoken at the entry with a
// wording of five bytes; behind what is returned, the figures that stand in the buffers.
#include <stdio.h>
#include "tables.h"

static uint8_t sheet[1 << 20];
static uint32_t cell[TABLES_MAX_ENTRIES], first[TABLES_MAX_ENTRIES], span[TABLES_MAX_ENTRIES];
static uint32_t row[TABLES_MAX_LINES], row_end[TABLES_MAX_LINES];
static uint32_t column[TABLES_MAX_COLUMNS], x[TABLES_MAX_ENTRIES], wide[TABLES_MAX_ENTRIES];
#define PLACES(a) (a), sizeof(a) / sizeof *(a)

static void list(const uint32_t *figures, uint32_t n) {
    for (uint32_t i = 0; i < n; i++) printf(" %u", figures[i]);
}

int main(void) {
    unsigned len, asked;
    while (scanf("%u %u", &len, &asked) == 2) {
        if (getchar() != '\n' || len > sizeof sheet || fread(sheet, 1, len, stdin) != len) return 2;
        while (asked--) {
            unsigned l, r, wrap, raw, width, entry;
            if (scanf("%u %u %u %u %u %u", &l, &r, &wrap, &raw, &width, &entry) != 6 || getchar() != '\n') return 2;
            tables_grid_result g = tables_joined_grid(sheet, len, l, r, PLACES(cell), PLACES(first), PLACES(span), PLACES(row), PLACES(row_end));
            printf("%u %u %u %u %u", g.number, g.line, g.rows, g.entries, g.columns);
            list(cell, g.entries), list(first, g.entries), list(span, g.entries), list(row, g.rows), list(row_end, g.rows);
            tables_layout_result t = tables_joined_layout(sheet, len, l, r, wrap, raw, width, PLACES(column), PLACES(x), PLACES(wide));
            printf("\n%u %u %u %u %u", t.number, t.line, t.way, t.columns, t.width);
            list(column, t.columns);
            if (t.number == 0) list(x, g.entries), list(wide, g.entries);
            tables_spoken_result s = tables_joined_spoken(sheet, len, l, r, entry, (const uint8_t *)"blank", 5);
            printf("\n%u %u %u %u %u\n", s.number, s.line, s.of_sheet, s.from, s.length);
        }
    }
    return 0;
}
