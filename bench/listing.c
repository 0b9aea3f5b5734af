/* listing SHEET read|listing CALLS: reads the sheet, or the sheet and a listing of it, so many times.
 *
 * `read` lends the solver no table: it ends with refusal 12 once the sheet is read. `listing` reads back a listing whose
 * minutes have one to five digits, into a table. Printed are the bytes of the sheet and of the listing. */
#include <stdio.h>
#include <stdlib.h>
#include <string.h>

#include "opening.h"

static uint8_t sheet[OPENING_SHEET_MOST + 1], table[OPENING_TABLE_MOST], listing[OPENING_LISTING_MOST];

static void fail(const char *what) {
    fprintf(stderr, "listing: %s\n", what);
    exit(2);
}

/* The listing of a table with all lengths of minutes; the number of minutes is found by trying. */
static size_t listed(size_t sheet_len) {
    for (size_t bytes = 0; bytes <= OPENING_TABLE_MOST; bytes += 2) {
        for (size_t i = 0; i < bytes; i += 2) {
            static const unsigned minutes[] = {7, 42, 365, 9999, 10080};
            unsigned minute = minutes[i / 2 % 5];
            table[i] = (uint8_t)(minute & 0xff);
            table[i + 1] = (uint8_t)(minute >> 8);
        }
        uint64_t answer = opening_listing(sheet, sheet_len, table, bytes, listing, sizeof listing);
        if (opening_number(answer) == 0)
            return opening_bytes(answer);
    }
    fail("the sheet is refused");
    return 0;
}

int main(int count, char **words) {
    if (count != 4)
        fail("usage: listing SHEET read|listing CALLS");
    FILE *file = fopen(words[1], "rb");
    if (!file)
        fail("no sheet");
    size_t sheet_len = fread(sheet, 1, sizeof sheet, file);
    fclose(file);
    size_t listing_len = listed(sheet_len);
    int back = strcmp(words[2], "listing") == 0;
    for (long i = atol(words[3]); i > 0; i--) {
        uint64_t answer = back ? opening_read_listing(sheet, sheet_len, listing, listing_len, table, sizeof table)
                               : opening_solve(sheet, sheet_len, table, 0);
        if (opening_number(answer) != (back ? 0 : 12))
            fail("another answer");
    }
    printf("%zu %zu\n", sheet_len, listing_len);
    return 0;
}
