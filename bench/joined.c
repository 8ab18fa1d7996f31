// joined.c: two tables of 150 rows and 6 columns laid out side by side by one call of `joined_layout`, against one of 150 rows and 12 columns laid out by
// `layout`, with the same texts. Prints the least time of 300 calls of each in microseconds, and how they compare. Ours alone: html2text has no such call.
//     gcc -O2 -Iinclude bench/joined.c crates/tables_c/out/libtables_c.a -o JOINED && ./JOINED
#include <stdio.h>
#include <string.h>
#include <time.h>
#include "tables.h"

static char two[TABLES_MAX_BYTES], one[TABLES_MAX_BYTES];
static uint32_t column[TABLES_MAX_COLUMNS], x[TABLES_MAX_ENTRIES], wide[TABLES_MAX_ENTRIES];
#define PLACES(a) (a), sizeof(a) / sizeof *(a)
#define ROWS 150

static char *put(char *at, const char *line) {
    size_t n = strlen(line);
    memcpy(at, line, n);
    return at + n;
}

// A table at a depth with these columns, each cell with a text that depends on its row and its column.
static char *table(char *at, int depth, int from, int to) {
    static const char *texts[] = {"word", "a b", "damp", "dry"};
    char line[80];
    sprintf(line, "%d table 0 0 0 \n%d body 0 0 0 \n", depth, depth + 1);
    at = put(at, line);
    for (int row = 0; row < ROWS; row++) {
        sprintf(line, "%d row 0 0 0 \n", depth + 2);
        at = put(at, line);
        for (int c = from; c < to; c++) {
            sprintf(line, "%d cell 0 1 1 \n%d text 0 0 0 %s\n", depth + 3, depth + 4, texts[(row + c) % 4]);
            at = put(at, line);
        }
    }
    return at;
}

static double now(void) {
    struct timespec t;
    clock_gettime(CLOCK_MONOTONIC, &t);
    return t.tv_sec * 1e6 + t.tv_nsec / 1e3;
}

int main(void) {
    const char *heading = "depth kind n cols rows text\n0 div 0 0 0 \n";
    char *end = table(put(two, heading), 1, 0, 6);
    size_t two_len = (size_t)(table(end, 1, 6, 12) - two), one_len = (size_t)(table(put(one, heading), 1, 0, 12) - one);
    uint32_t right = 4 + ROWS * 13;
    double joined = 1e9, alone = 1e9;
    for (int k = 0; k < 300; k++) {
        double t = now();
        tables_layout_result a = tables_joined_layout((uint8_t *)two, two_len, 2, right, 3, 0, 160, PLACES(column), PLACES(x), PLACES(wide));
        t = now() - t;
        if (t < joined) joined = t;
        t = now();
        tables_layout_result b = tables_layout((uint8_t *)one, one_len, 2, 3, 0, 160, PLACES(column), PLACES(x), PLACES(wide));
        t = now() - t;
        if (t < alone) alone = t;
        if (a.number || b.number || a.way != b.way || a.columns != b.columns || a.width != b.width) {
            printf("refusals %u %u, line %u %u; columns %u %u, width %u %u\n", a.number, b.number, a.line, b.line, a.columns, b.columns, a.width, b.width);
            return 1;
        }
    }
    printf("joined %.1f us, one table %.1f us, %.2f times\n", joined, alone, joined / alone);
    return 0;
}
