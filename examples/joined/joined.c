// joined.c: two tables of an input side by side, drawn in plain characters. The input is settings and a sheet, as `layout` reads it; LEFT and RIGHT are the
// lines of the tables. Each cell shows the text of the line after its own, as far as its width goes.
#include <stdio.h>
#include <stdlib.h>
#include <string.h>
#include "tables.h"

static uint8_t input[TABLES_MAX_BYTES + 100];
static uint32_t cell[TABLES_MAX_ENTRIES], first[TABLES_MAX_ENTRIES], span[TABLES_MAX_ENTRIES];
static uint32_t row[TABLES_MAX_LINES], row_end[TABLES_MAX_LINES];
static uint32_t column[TABLES_MAX_COLUMNS], x[TABLES_MAX_ENTRIES], wide[TABLES_MAX_ENTRIES];
#define PLACES(a) (a), sizeof(a) / sizeof *(a)

// The text of a line of the sheet, and how long it is: what stands behind five fields. Line k comes after k line feeds.
static const char *text_of(const uint8_t *sheet, uint32_t line, size_t *length) {
    const char *at = (const char *)sheet;
    for (uint32_t k = 0; k < line; k++) at = strchr(at, '\n') + 1;
    const char *end = strchr(at, '\n');
    for (int field = 0; field < 5; field++) at = strchr(at, ' ') + 1;
    *length = (size_t)(end - at);
    return at;
}

static int refused(uint32_t number, uint32_t line) {
    if (number != 0) printf("refusal %u, line %u\n", number, line);
    return number != 0;
}

int main(int argc, char **argv) {
    unsigned wrap, raw, width;
    int settings = 0;
    FILE *file = argc == 4 ? fopen(argv[1], "rb") : NULL;
    size_t len = file ? fread(input, 1, sizeof input - 1, file) : 0;
    if (sscanf((char *)input, "wrap raw width\n%u %u %u%n", &wrap, &raw, &width, &settings) != 3 || input[settings] != '\n') {
        fprintf(stderr, "usage: joined INPUT LEFT RIGHT; the input begins with the settings\n");
        return 2;
    }
    const uint8_t *sheet = input + settings + 1;
    len -= (size_t)settings + 1;
    uint32_t left = (uint32_t)atoi(argv[2]), right = (uint32_t)atoi(argv[3]);

    tables_grid_result g = tables_joined_grid(sheet, len, left, right, PLACES(cell), PLACES(first), PLACES(span), PLACES(row), PLACES(row_end));
    if (refused(g.number, g.line)) return 1;
    tables_layout_result t = tables_joined_layout(sheet, len, left, right, wrap, raw, width, PLACES(column), PLACES(x), PLACES(wide));
    if (refused(t.number, t.line)) return 1;
    printf("%u rows, %u entries, %u columns, %s, %u wide\n", g.rows, g.entries, g.columns, t.way == TABLES_DOWN ? "down" : "sideways", t.width);
    for (uint32_t i = 0, e = 0; i < g.rows; i++) {
        printf("%3u ", row[i]);
        for (uint32_t from = 0; e < row_end[i]; e++) {
            if (wide[e] == 0) continue;
            size_t length = 0;
            const char *text = cell[e] ? text_of(sheet, cell[e] + 1, &length) : "";
            if (length > wide[e]) length = wide[e];
            printf("%s%-*.*s", x[e] > from ? "|" : "", (int)wide[e], (int)length, text);
            from = x[e] + wide[e];
        }
        printf("|\n");
    }
    return 0;
}
