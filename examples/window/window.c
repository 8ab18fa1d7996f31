// window.c: the table in line 1 of an input, at the widths FIRST to LAST by STEP, in one call: which way it goes, how wide it is, how many entries
// are missing. The input is settings and a sheet, as `layout` reads it; of the settings wrap and raw count.
#include <stdio.h>
#include "tables.h"

// The struct as the library has it: numbers of 32 bits one after the other, without a gap.
_Static_assert(sizeof(tables_window_result) == 12 && offsetof(tables_window_result, count) == 8, "tables_window_result");

static uint8_t input[TABLES_MAX_BYTES + 100];
// One width more than the call takes: a list that is too long is its to refuse.
static uint32_t widths[TABLES_MAX_WIDTHS + 1], way[TABLES_MAX_WIDTHS], wide[TABLES_MAX_WIDTHS], missing[TABLES_MAX_WIDTHS];
#define PLACES(a) (a), sizeof(a) / sizeof *(a)

int main(int argc, char **argv) {
    unsigned wrap, raw, first, last, step;
    int settings = 0;
    FILE *file = argc == 5 ? fopen(argv[1], "rb") : NULL;
    size_t len = file ? fread(input, 1, sizeof input - 1, file) : 0;
    if (sscanf((char *)input, "wrap raw width\n%u %u %*u%n", &wrap, &raw, &settings) != 2 || input[settings] != '\n'
        || sscanf(argv[2], "%u", &first) != 1 || sscanf(argv[3], "%u", &last) != 1 || sscanf(argv[4], "%u", &step) != 1 || step == 0) {
        fprintf(stderr, "usage: window INPUT FIRST LAST STEP; the input begins with the settings\n");
        return 2;
    }
    const uint8_t *sheet = input + settings + 1;
    len -= (size_t)settings + 1;

    size_t count = 0;
    for (uint64_t w = first; w <= last && count <= TABLES_MAX_WIDTHS; w += step) widths[count++] = (uint32_t)w;
    tables_window_result r = tables_window(sheet, len, 1, wrap, raw, widths, count, PLACES(way), PLACES(wide), PLACES(missing));
    if (r.number != 0) {
        printf("refusal %u, line %u\n", r.number, r.line);
        return 1;
    }
    printf("width way wide missing\n");
    for (uint32_t i = 0; i < r.count; i++) printf("%u %c %u %u\n", widths[i], way[i] == TABLES_DOWN ? 'v' : 'h', wide[i], missing[i]);
    return 0;
}
