// The call tables_spoken for spoken.py. Input, again and again: a line `LENGTH ASKED` and a sheet of that many bytes, then as often as is asked a line
// `LINE ENTRY LENGTH` and a wording of that many bytes. Answers to each of these: a line `NUMBER LINE OF_SHEET FROM LENGTH`.
#include <stdio.h>
#include "tables.h"

static uint8_t sheet[1 << 20], wording[1 << 20];

int main(void) {
    unsigned len, asked;
    while (scanf("%u %u", &len, &asked) == 2) {
        if (getchar() != '\n' || len > sizeof sheet || fread(sheet, 1, len, stdin) != len) return 2;
        while (asked--) {
            unsigned line, entry, wording_len;
            if (scanf("%u %u %u", &line, &entry, &wording_len) != 3 || getchar() != '\n') return 2;
            if (wording_len > sizeof wording || fread(wording, 1, wording_len, stdin) != wording_len) return 2;
            tables_spoken_result s = tables_spoken(sheet, len, line, entry, wording, wording_len);
            printf("%u %u %u %u %u\n", s.number, s.line, s.of_sheet, s.from, (unsigned)s.length);
        }
    }
    return 0;
}
