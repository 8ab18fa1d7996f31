// spoken.c: the table in line 1 of an input, entry by entry: of a cell its line, of a filler the text that is spoken at it, or the wording given. The
// input is settings and a sheet, as `layout` reads it; no setting counts.
#include <stdio.h>
#include <string.h>
#include "tables.h"

static uint8_t input[TABLES_MAX_BYTES + 100];
static uint32_t cell[TABLES_MAX_ENTRIES], first[TABLES_MAX_ENTRIES], span[TABLES_MAX_ENTRIES];
static uint32_t row[TABLES_MAX_LINES], row_end[TABLES_MAX_LINES];
#define PLACES(a) (a), sizeof(a) / sizeof *(a)

int main(int argc, char **argv) {
    int settings = 0;
    FILE *file = argc == 3 ? fopen(argv[1], "rb") : NULL;
    size_t len = file ? fread(input, 1, sizeof input - 1, file) : 0;
    if (sscanf((char *)input, "wrap raw width\n%*u %*u %*u%n", &settings) != 0 || settings == 0 || input[settings] != '\n') {
        fprintf(stderr, "usage: spoken INPUT WORDING; the input begins with the settings\n");
        return 2;
    }
    const uint8_t *sheet = input + settings + 1, *wording = (const uint8_t *)argv[2];
    len -= (size_t)settings + 1;

    tables_grid_result g = tables_grid(sheet, len, 1, PLACES(cell), PLACES(first), PLACES(span), PLACES(row), PLACES(row_end));
    if (g.number != 0) {
        printf("refusal %u, line %u\n", g.number, g.line);
        return 1;
    }
    for (uint32_t entry = 0; entry < g.entries; entry++) {
        if (cell[entry] != 0) {
            printf("entry %u: the cell in line %u\n", entry, cell[entry]);
            continue;
        }
        tables_spoken_result s = tables_spoken(sheet, len, 1, entry, wording, strlen(argv[2]));
        const uint8_t *text = s.of_sheet ? sheet + s.from : wording;
        printf("entry %u: a filler, spoken: %.*s\n", entry, (int)s.length, (const char *)text);
    }
    return 0;
}
