// The calls tables_walk and tables_nested for walk.py. Input, again and again: a line `LENGTH WRAP RAW WIDTH OVERFLOW` and a sheet of that many bytes.
// Answers to each: a line `walk NUMBER LINE LINES`, a line `GIVEN WIDTH` for each line, and for each table of an accepted sheet a line
// `nested LINE GIVEN AT WAY COLUMNS WIDTH` and three lines with the figures of column, x and wide, which are as many as the grid has.
#include <stdio.h>
#include <string.h>
#include "tables.h"

static uint8_t sheet[1 << 20];
static uint32_t given[TABLES_MAX_LINES], wide[TABLES_MAX_LINES], column[TABLES_MAX_COLUMNS], x[TABLES_MAX_ENTRIES], width_of[TABLES_MAX_ENTRIES];
static uint32_t cell[TABLES_MAX_ENTRIES], first[TABLES_MAX_ENTRIES], span[TABLES_MAX_ENTRIES], row[TABLES_MAX_LINES], row_end[TABLES_MAX_LINES];
#define PLACES(a) (a), sizeof(a) / sizeof *(a)

static void show(const uint32_t *figures, uint32_t n) {
    for (uint32_t i = 0; i < n; i++) printf("%u ", figures[i]);
    printf("\n");
}

int main(void) {
    unsigned len, wrap, raw, width, overflow;
    while (scanf("%u %u %u %u %u", &len, &wrap, &raw, &width, &overflow) == 5) {
        if (getchar() != '\n' || len > sizeof sheet || fread(sheet, 1, len, stdin) != len) return 2;
        tables_walk_result w = tables_walk(sheet, len, wrap, raw, width, overflow, PLACES(given), PLACES(wide));
        printf("walk %u %u %u\n", w.number, w.line, w.lines);
        for (uint32_t i = 0; i < w.lines; i++) printf("%u %u\n", given[i], wide[i]);
        for (uint32_t line = 1; line <= w.lines; line++) {
            tables_grid_result g = tables_grid(sheet, len, line, PLACES(cell), PLACES(first), PLACES(span), PLACES(row), PLACES(row_end));
            if (g.number) continue;
            tables_nested_result n = tables_nested(sheet, len, line, wrap, raw, width, overflow, PLACES(column), PLACES(x), PLACES(width_of));
            if (n.number) return 3;
            printf("nested %u %u %u %u %u %u\n", line, n.given, n.at, n.way, n.columns, n.width);
            show(column, g.columns);
            show(x, g.entries);
            show(width_of, g.entries);
        }
    }
    return 0;
}
