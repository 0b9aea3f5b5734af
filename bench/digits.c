/* digits MINUTE CALLS [read]: lists a table with this minute in each cell, of 16 events with names of 8 bytes in 16
 * cases, so many times; with `read` only the sheet is read. Printed are the bytes of the listing. With a minute of five
 * digits it is the longest that there is. */
#include <stdio.h>
#include <stdlib.h>
#include <string.h>

#include "opening.h"

static uint8_t table[OPENING_TABLE_MOST], listing[OPENING_LISTING_MOST];
static char sheet[OPENING_SHEET_MOST];

static void fail(const char *what) {
    fprintf(stderr, "digits: %s\n", what);
    exit(2);
}

int main(int count, char **words) {
    if (count != 3 && !(count == 4 && strcmp(words[3], "read") == 0))
        fail("usage: digits MINUTE CALLS [read]");
    size_t length = (size_t)sprintf(sheet, "horizon,0\nevents,16\n");
    for (int event = 0; event < 16; event++)
        length += (size_t)sprintf(sheet + length, "event%03d\n", event);
    length += (size_t)sprintf(sheet + length, "signals,4\np,event000\nq,event001\nr,event002\ns,event003\nrules,0\n");
    unsigned minute = (unsigned)atoi(words[1]);
    for (size_t i = 0; i < sizeof table; i += 2) {
        table[i] = (uint8_t)(minute & 0xff);
        table[i + 1] = (uint8_t)(minute >> 8);
    }
    const uint8_t *bytes = (const uint8_t *)sheet;
    uint64_t written = opening_listing(bytes, length, table, sizeof table, listing, sizeof listing);
    if (opening_number(written) != 0)
        fail("no listing");
    for (long i = atol(words[2]); i > 0; i--) {
        uint64_t answer = count == 4 ? opening_solve(bytes, length, table, 0)
                                     : opening_listing(bytes, length, table, sizeof table, listing, sizeof listing);
        if (opening_number(answer) != (count == 4 ? 12 : 0))
            fail("another answer");
    }
    printf("%u\n", opening_bytes(written));
    return 0;
}
