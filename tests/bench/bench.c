/* The workshop bench: calls the library as a C program does, and compares every answer and every lent byte with what
 * document 01 and points 1 to 4 and 6 to 9 of document 02 ask. The answers here were written by hand from the papers;
 * where a table is played, or its listing read back, what the solver wrote is to come out.
 *
 * cc -std=c11 -O2 -Wall -Wextra -Werror -o bench bench.c DIR/libopening.a
 *
 * Prints one line and exits with 0, or says what failed and exits with 1. */

#include "opening.h"

#include <stdio.h>
#include <stdlib.h>
#include <string.h>

/* ---------------------------------------------------------------- Lent memory */

enum { GUARD = 16, ROOM = 5000 };

/* Bytes lent to the library, with guarding bytes right before and right behind them. */
struct lent {
    uint8_t all[GUARD + ROOM + GUARD];
    size_t length;
};

static unsigned calls;

static void fail(const char *about, const char *what, unsigned long long found, unsigned long long wanted)
{
    printf("%s: %s is %llu and not %llu\n", about, what, found, wanted);
    exit(1);
}

static void expect(const char *about, const char *what, unsigned long long found, unsigned long long wanted)
{
    if (found != wanted)
        fail(about, what, found, wanted);
}

static uint8_t *slice(struct lent *lent)
{
    return lent->all + GUARD;
}

/* Lends bytes between guards; around a sheet the guards are line feeds, which would end a line that has none of its own. */
static void lend(struct lent *lent, const void *bytes, size_t length, uint8_t guard)
{
    if (length > ROOM)
        fail("bench", "a length", length, ROOM);
    memset(lent->all, guard, sizeof lent->all);
    memcpy(slice(lent), bytes, length);
    lent->length = length;
}

/* Lends so many bytes to write into, with some contents. */
static void lend_room(struct lent *lent, size_t length)
{
    uint8_t fill[ROOM];
    for (size_t i = 0; i < length && i < ROOM; i++)
        fill[i] = (uint8_t)(0xc3 + 7 * i);
    lend(lent, fill, length, 0x5a);
}

static void expect_memory(const char *about, const char *what, const struct lent *found, const struct lent *wanted)
{
    for (size_t i = 0; i < sizeof found->all; i++) {
        if (found->all[i] != wanted->all[i]) {
            printf("%s: byte %ld of the %s is %u and not %u\n", about, (long)i - GUARD, what, found->all[i], wanted->all[i]);
            exit(1);
        }
    }
}

/* A table's minutes as bytes, low byte first. */
static size_t pairs(uint8_t *bytes, const uint16_t *minutes, size_t count)
{
    for (size_t i = 0; i < count; i++) {
        bytes[2 * i] = (uint8_t)(minutes[i] & 0xff);
        bytes[2 * i + 1] = (uint8_t)(minutes[i] >> 8);
    }
    return 2 * count;
}

/* ---------------------------------------------------------------- Solver and judge */

/* Solves with a table of so many bytes. Wanted: a refusal with its line, or with number 0 these minutes; and so many
 * rounds; the whole answer is compared. */
static void solve(const char *about, const char *sheet, size_t sheet_len, size_t table_len, unsigned number,
                  unsigned line, unsigned rounds, const uint16_t *minutes, size_t count)
{
    static struct lent paper, paper_before, table, wanted;
    lend(&paper, sheet, sheet_len, '\n');
    lend_room(&table, table_len);
    paper_before = paper;
    wanted = table;
    if (number == 0)
        pairs(slice(&wanted), minutes, count);

    uint64_t answer = opening_solve(slice(&paper), sheet_len, slice(&table), table_len);
    calls++;
    expect(about, "the number", opening_number(answer), number);
    expect(about, "the line", opening_line(answer), line);
    expect(about, "the count of minutes", opening_minutes(answer), number == 0 ? count : 0);
    expect(about, "the count of rounds", opening_rounds(answer), rounds);
    expect(about, "whether it finished", opening_finished(answer), rounds > 0);
    expect(about, "the sum that is left", opening_left(answer), 0);
    expect(about, "the highest bit", answer >> 63, 0);
    expect_memory(about, "table", &table, &wanted);
    expect_memory(about, "sheet", &paper, &paper_before);
}

/* What a run within so many rounds is to answer: a refusal with its line; or with number 0 so many minutes, as a table
 * or as a floor. With a table, and with 13, it says how many rounds it took, and with a floor, which sum is left. */
struct within {
    unsigned number, line, stopped, rounds, left;
    const uint16_t *minutes;
    size_t count;
};

/* Solves within so many rounds, with a table of so many bytes; the whole answer is compared. */
static void solve_within(const char *about, const char *sheet, size_t sheet_len, uint32_t limit, size_t table_len,
                         struct within asked)
{
    static struct lent paper, paper_before, table, wanted;
    lend(&paper, sheet, sheet_len, '\n');
    lend_room(&table, table_len);
    paper_before = paper;
    wanted = table;
    if (asked.number == 0)
        pairs(slice(&wanted), asked.minutes, asked.count);

    uint64_t answer = opening_solve_within(slice(&paper), sheet_len, limit, slice(&table), table_len);
    calls++;
    expect(about, "the number", opening_number(answer), asked.number);
    expect(about, "the line", opening_line(answer), asked.line);
    expect(about, "the count of minutes", opening_minutes(answer), asked.number == 0 ? asked.count : 0);
    expect(about, "whether it finished", opening_finished(answer), asked.rounds > 0);
    expect(about, "the count of rounds", opening_rounds(answer), asked.rounds);
    expect(about, "the sum that is left", opening_left(answer), asked.left);
    expect(about, "the highest bit", answer >> 63, asked.stopped);
    expect_memory(about, "table", &table, &wanted);
    expect_memory(about, "sheet", &paper, &paper_before);
}

/* Wanted: a refusal, whether the table is generous or empty. */
static void not_within(const char *about, const char *sheet, size_t sheet_len, uint32_t limit, unsigned number,
                       unsigned line)
{
    const struct within asked = {number, line, 0, 0, 0, NULL, 0};
    solve_within(about, sheet, sheet_len, limit, 100, asked);
    solve_within(about, sheet, sheet_len, limit, 0, asked);
}

/* Wanted: this answer where the table is exact or longer, and 12 where it is shorter. */
static void within_lengths(const char *about, const char *sheet, uint32_t limit, size_t exact, struct within asked)
{
    const struct within short_of = {12, 0, 0, 0, 0, NULL, 0};
    const size_t length = strlen(sheet);
    solve_within(about, sheet, length, limit, exact, asked);
    solve_within(about, sheet, length, limit, exact + 1, asked);
    solve_within(about, sheet, length, limit, exact + 2, asked);
    solve_within(about, sheet, length, limit, OPENING_TABLE_MOST + 7, asked);
    solve_within(about, sheet, length, limit, exact - 1, short_of);
    solve_within(about, sheet, length, limit, exact - 2, short_of);
    solve_within(about, sheet, length, limit, 0, short_of);
}

/* Judges these bytes. Wanted: a refusal with its line, or the word and its numbers; the whole answer is compared. */
static void judge_bytes(const char *about, const char *sheet, size_t sheet_len, const uint8_t *bytes, size_t length,
                        const unsigned wanted[6])
{
    static struct lent paper, paper_before, table, table_before;
    lend(&paper, sheet, sheet_len, '\n');
    lend(&table, bytes, length, 0);
    paper_before = paper;
    table_before = table;

    uint64_t answer = opening_judge(slice(&paper), sheet_len, slice(&table), length);
    calls++;
    expect(about, "the number", opening_number(answer), wanted[0]);
    expect(about, "the line", opening_line(answer), wanted[1]);
    expect(about, "the word", opening_word(answer), wanted[2]);
    expect(about, "the first number", opening_first(answer), wanted[3]);
    expect(about, "the second number", opening_second(answer), wanted[4]);
    expect(about, "the third number", opening_third(answer), wanted[5]);
    expect(about, "the unused byte", answer >> 56, 0);
    expect_memory(about, "table", &table, &table_before);
    expect_memory(about, "sheet", &paper, &paper_before);
}

static void judge(const char *about, const char *sheet, const uint16_t *minutes, size_t count, unsigned word, unsigned first,
                  unsigned second, unsigned third)
{
    uint8_t bytes[ROOM];
    const unsigned wanted[6] = {0, 0, word, first, second, third};
    judge_bytes(about, sheet, strlen(sheet), bytes, pairs(bytes, minutes, count), wanted);
}

static void judge_refused(const char *about, const char *sheet, size_t length, unsigned number, unsigned line)
{
    static const uint8_t bytes[64];
    const unsigned wanted[6] = {number, line, 0, 0, 0, 0};
    judge_bytes(about, sheet, strlen(sheet), bytes, length, wanted);
}

/* ---------------------------------------------------------------- The player, the writers and the listing's reader */

/* What is handed in: a sheet, and for the player and the listing a table as bytes. */
struct handed {
    const char *sheet;
    size_t sheet_len;
    const uint8_t *table;
    size_t table_len;
};

/* What is due at a minute for those who have heard this text. */
static uint64_t ask(const char *about, struct handed handed, unsigned minute, const char *heard, size_t heard_len)
{
    static struct lent paper, paper_before, table, table_before, text, text_before;
    lend(&paper, handed.sheet, handed.sheet_len, '\n');
    lend(&table, handed.table, handed.table_len, 0);
    lend(&text, heard, heard_len, 'p');
    paper_before = paper;
    table_before = table;
    text_before = text;

    uint64_t answer = opening_due(slice(&paper), handed.sheet_len, slice(&table), handed.table_len, (uint16_t)minute,
                                  slice(&text), heard_len);
    calls++;
    expect(about, "the number in the unused bytes", answer >> 40, 0);
    expect_memory(about, "text", &text, &text_before);
    expect_memory(about, "table", &table, &table_before);
    expect_memory(about, "sheet", &paper, &paper_before);
    return answer;
}

/* The same; wanted: a refusal with its line, or with number 0 these events. */
static void due(const char *about, struct handed handed, unsigned minute, const char *heard, size_t heard_len, unsigned number,
                unsigned line, unsigned events)
{
    uint64_t answer = ask(about, handed, minute, heard, heard_len);
    expect(about, "the number", opening_number(answer), number);
    expect(about, "the line", opening_line(answer), line);
    expect(about, "the number of the events due", opening_events(answer), events);
}

/* What a writer of text answered, and left in the room that it was lent. Wanted: a refusal with its line, or with number 0 this
 * text; the whole answer is compared. */
static void expect_text(const char *about, uint64_t answer, const struct lent *room, unsigned number, unsigned line,
                        const char *text)
{
    static struct lent wanted;
    lend_room(&wanted, room->length);
    if (number == 0)
        memcpy(slice(&wanted), text, strlen(text));
    expect(about, "the number", opening_number(answer), number);
    expect(about, "the line", opening_line(answer), line);
    expect(about, "the count of bytes", opening_bytes(answer), number == 0 ? strlen(text) : 0);
    expect(about, "the number in the unused bytes", answer >> 40, 0);
    expect_memory(about, "text", room, &wanted);
}

static void list(const char *about, struct handed handed, size_t length, unsigned number, unsigned line, const char *text)
{
    static struct lent paper, paper_before, table, table_before, room;
    lend(&paper, handed.sheet, handed.sheet_len, '\n');
    lend(&table, handed.table, handed.table_len, 0);
    lend_room(&room, length);
    paper_before = paper;
    table_before = table;

    uint64_t answer = opening_listing(slice(&paper), handed.sheet_len, slice(&table), handed.table_len, slice(&room), length);
    calls++;
    expect_text(about, answer, &room, number, line, text);
    expect_memory(about, "table", &table, &table_before);
    expect_memory(about, "sheet", &paper, &paper_before);
}

static void house(const char *about, const char *sheet, size_t sheet_len, size_t length, unsigned number, unsigned line,
                  const char *text)
{
    static struct lent paper, paper_before, room;
    lend(&paper, sheet, sheet_len, '\n');
    lend_room(&room, length);
    paper_before = paper;

    uint64_t answer = opening_house(slice(&paper), sheet_len, slice(&room), length);
    calls++;
    expect_text(about, answer, &room, number, line, text);
    expect_memory(about, "sheet", &paper, &paper_before);
}

static void convert(const char *about, const char *sheet, size_t sheet_len, size_t length, unsigned number, unsigned line,
                    const char *text)
{
    static struct lent paper, paper_before, room;
    lend(&paper, sheet, sheet_len, '\n');
    lend_room(&room, length);
    paper_before = paper;

    uint64_t answer = opening_convert(slice(&paper), sheet_len, slice(&room), length);
    calls++;
    expect_text(about, answer, &room, number, line, text);
    expect_memory(about, "sheet", &paper, &paper_before);
}

static void ring(const char *about, const char *line, size_t line_len, size_t length, unsigned number,
                 unsigned refused_line, const char *text)
{
    static struct lent typed, typed_before, room;
    lend(&typed, line, line_len, '\n');
    lend_room(&room, length);
    typed_before = typed;

    uint64_t answer = opening_ring(slice(&typed), line_len, slice(&room), length);
    calls++;
    expect_text(about, answer, &room, number, refused_line, text);
    expect_memory(about, "line", &typed, &typed_before);
}

/* Wanted: a refusal, whatever room is lent. */
static void not_ringed(const char *about, const char *line, size_t line_len, unsigned number, unsigned refused_line)
{
    ring(about, line, line_len, OPENING_SHEET_MOST, number, refused_line, NULL);
    ring(about, line, line_len, 40, number, refused_line, NULL);
    ring(about, line, line_len, 0, number, refused_line, NULL);
}

/* Wanted: a refusal, whatever room is lent. */
static void not_converted(const char *about, const char *sheet, size_t sheet_len, unsigned number, unsigned line)
{
    convert(about, sheet, sheet_len, OPENING_SHEET_MOST, number, line, NULL);
    convert(about, sheet, sheet_len, 40, number, line, NULL);
    convert(about, sheet, sheet_len, 0, number, line, NULL);
}

/* A listing handed in, as any bytes. */
struct printed {
    const char *text;
    size_t length;
};

static struct printed printed(const char *text)
{
    return (struct printed){text, strlen(text)};
}

/* Reads a listing back into a table of so many bytes. Wanted: a refusal with its line, or with number 0 this table;
 * the whole answer is compared. Around the listing the guards are line feeds, as around a sheet. */
static void reread(const char *about, const char *sheet, size_t sheet_len, struct printed listing, size_t table_len,
                   unsigned number, unsigned line, const uint8_t *bytes, size_t length)
{
    static struct lent paper, paper_before, text, text_before, table, wanted;
    lend(&paper, sheet, sheet_len, '\n');
    lend(&text, listing.text, listing.length, '\n');
    lend_room(&table, table_len);
    paper_before = paper;
    text_before = text;
    wanted = table;
    if (number == 0)
        memcpy(slice(&wanted), bytes, length);

    uint64_t answer = opening_read_listing(slice(&paper), sheet_len, slice(&text), listing.length, slice(&table),
                                           table_len);
    calls++;
    expect(about, "the number", opening_number(answer), number);
    expect(about, "the line", opening_line(answer), line);
    expect(about, "the count of minutes", opening_minutes(answer), number == 0 ? length / 2 : 0);
    expect(about, "the number in the unused bytes", answer >> 40, 0);
    expect_memory(about, "table", &table, &wanted);
    expect_memory(about, "listing", &text, &text_before);
    expect_memory(about, "sheet", &paper, &paper_before);
}

/* Wanted: these minutes. */
static void reread_minutes(const char *about, const char *sheet, const char *listing, size_t table_len,
                           const uint16_t *minutes, size_t count)
{
    uint8_t bytes[OPENING_TABLE_MOST];
    const size_t length = pairs(bytes, minutes, count);
    reread(about, sheet, strlen(sheet), printed(listing), table_len, 0, 0, bytes, length);
}

/* Wanted: a refusal, whether the table is exact, longer, too short or empty. */
static void misread(const char *about, const char *sheet, struct printed listing, unsigned number, unsigned line)
{
    static const size_t lengths[] = {12, OPENING_TABLE_MOST, 13, 11, 10, 1, 0};
    for (size_t i = 0; i < sizeof lengths / sizeof lengths[0]; i++)
        reread(about, sheet, strlen(sheet), listing, lengths[i], number, line, NULL, 0);
}

/* The others turn the same sheet away, whatever else they are handed. */
static void refused_by_all(const char *about, const char *sheet, size_t sheet_len, unsigned number, unsigned line)
{
    static const uint8_t bytes[64];
    static const size_t lengths[] = {12, 0, 7};
    static const char *const texts[] = {"case,start,call,door\nF,0,5,6\nT,0,5,20\n", "", "case,start,call,door\n",
                                        "case,start,call,door\nF,0,05,6\nT,0,5,20\n"};
    for (size_t i = 0; i < sizeof lengths / sizeof lengths[0]; i++) {
        const struct handed handed = {sheet, sheet_len, bytes, lengths[i]};
        due(about, handed, 0, "", 0, number, line, 0);
        due(about, handed, 6, "!!p", 3, number, line, 0);
        list(about, handed, ROOM, number, line, NULL);
        list(about, handed, 0, number, line, NULL);
    }
    house(about, sheet, sheet_len, ROOM, number, line, NULL);
    house(about, sheet, sheet_len, 0, number, line, NULL);
    for (size_t i = 0; i < sizeof texts / sizeof texts[0]; i++) {
        reread(about, sheet, sheet_len, printed(texts[i]), 12, number, line, NULL, 0);
        reread(about, sheet, sheet_len, printed(texts[i]), 0, number, line, NULL, 0);
    }
}

/* ---------------------------------------------------------------- The sheets */

#define HEAD "horizon,60\nevents,3\nstart\ncall\ndoor\nsignals,1\np,call\nrules,3\n"
#define TWO "min,start,call,5,-\nmin,call,door,15,p\n"

/* Document 01's sheet, and its trial 3. */
static const char example[] = HEAD TWO "max,start,door,30,-\n";
static const char no_table[] = HEAD TWO "max,start,door,19,-\n";
static const uint16_t opened[] = {0, 5, 6, 0, 5, 20};
#define NAMES "case,start,call,door\n"
static const char example_listing[] = NAMES "F,0,5,6\nT,0,5,20\n";

/* Numbers of bytes that its table has not. */
static const size_t other_lengths[] = {0, 1, 10, 11, 13, 14};

/* No rules: the last event gives the signal, and two events give one each. */
static const char signal_last[] = "horizon,60\nevents,3\nstart\ndoor\ncall\nsignals,1\np,call\nrules,0\n";
static const char two_signals[] = "horizon,60\nevents,4\nstart\na\nb\ndoor\nsignals,2\np,a\nq,b\nrules,0\n";

/* Two signals with rules, of which the first has weight 1, and four. */
static const char weights[] = "horizon,60\nevents,3\nstart\ncall\ndoor\nsignals,2\np,start\nq,call\nrules,2\n"
                              "min,start,call,2,-\nmin,call,door,5,p!q\n";
static const uint16_t weights_opened[] = {0, 2, 1, 0, 2, 7, 0, 2, 1, 0, 2, 3};
static const char weights_listing[] = NAMES "FF,0,2,1\nTF,0,2,7\nFT,0,2,1\nTT,0,2,3\n";
static const char four_signals[] = "horizon,60\nevents,6\nstart\na\nb\nc\nd\ndoor\nsignals,4\nw,c\np,a\nz,d\nq,b\nrules,8\n"
                                   "min,start,a,3,-\nmin,a,b,2,p\nmin,a,b,1,!p\nmin,a,c,4,q\nmin,b,c,3,p!q\nmin,c,d,2,w\n"
                                   "min,d,door,5,p!z\nmin,c,door,9,!pwz\n";

/* Document 01's sheet, whose signal counts after 1 minute, after 2, and after 15, when the door waits no longer; and
 * the form of the second. */
#define RULES "max,start,door,30,-\n"
static const char after_1[] = HEAD TWO RULES "reactions,1\np,1\n";
static const char after_2[] = HEAD TWO RULES "reactions,1\np,2\n";
static const char after_15[] = HEAD TWO RULES "reactions,1\np,15\n";
static const uint16_t opened_after_2[] = {0, 5, 7, 0, 5, 20};
static const uint16_t opened_after_15[] = {0, 5, 20, 0, 5, 20};
#define FORM HEAD "max,start,door,30,-\nmax,call,start,-5,-\nmax,door,call,-15,p\n"
static const char form_after_2[] = FORM "reactions,1\np,2\n";

/* The call at 5 gives a signal that counts after 60 minutes; the door waits until 100 where it is true. */
static const char after_60[] = "horizon,120\nevents,3\nstart\ncall\ndoor\nsignals,1\np,call\nrules,2\n"
                               "min,start,call,5,-\nmin,start,door,100,p\nreactions,1\np,60\n";
static const uint16_t opened_after_60[] = {0, 5, 65, 0, 5, 100};

/* The start gives p, which counts from 2 on, and the call at 2 gives q, which counts from 5 on. */
#define PAIR "horizon,60\nevents,3\nstart\ncall\ndoor\nsignals,2\np,start\nq,call\nrules,3\n"
#define PAIR_RULES "min,start,call,2,-\nmin,start,door,20,p\nmin,start,door,10,q\n"
static const char slow_pair[] = PAIR PAIR_RULES "reactions,2\nq,3\np,2\n";
static const uint16_t pair_opened[] = {0, 2, 5, 0, 2, 20, 0, 2, 10, 0, 2, 20};

/* The start gives p and the call q. */
#define KEYS "horizon,60\nevents,3\nstart\ncall\ndoor\nsignals,2\np,start\nq,call\n"

/* A key gives a duress signal that counts after 2 minutes; it is turned again only where that is true, 3 minutes after
 * the first turn at the soonest. The form of this. */
#define DURESS "horizon,60\nevents,3\nstart\nkey\nagain\nsignals,1\np,key\nrules,2\n"
static const char duress[] = DURESS "min,start,key,5,-\nmin,key,again,3,-\nreactions,1\np,2\ncases,2\nagain,p\nkey,-\n";
static const char duress_form[] = DURESS "max,key,start,-5,-\nmax,again,key,-3,-\nreactions,1\np,2\ncases,1\nagain,p\n";
static const char duress_listing[] = "case,start,key,again\nF,0,5,-\nT,0,5,8\n";
static const uint16_t duress_turned[] = {0, 5, 65535, 0, 5, 8};

/* A minute with a high byte: 1000 is 232 and 3. */
static const char high[] = "horizon,10080\nevents,2\nstart\ndoor\nsignals,0\nrules,1\nmin,start,door,1000,-\n";
static const uint16_t high_opened[] = {0, 1000};

/* Refusals 2 to 10, 20 and 21, each on some line; 1 needs a length of its own. */
static const struct {
    unsigned number, line;
    const char *sheet;
} faulty[] = {
    {2, 1, ""},
    {2, 1, "horizon,60"},
    {2, 11, HEAD TWO "max,start,door,30,-"},
    {3, 6, "horizon,60\nevents,3\nstart\ncall\ndoor\nrules,0\n"},
    {4, 1, "horizon,010\n"},
    {4, 11, HEAD TWO "max,start,door,-0,-\n"},
    {5, 1, "horizon,10081\n"},
    {5, 11, HEAD TWO "max,start,door,18446744073709551621,-\n"},
    {4, 1, "horizon,60\r\n"},
    {6, 3, "horizon,60\nevents,3\nstartstar\n"},
    {6, 3, "horizon,60\nevents,3\nStart\n"},
    {6, 11, HEAD TWO "max,start,door,30,p!\n"},
    {7, 4, "horizon,60\nevents,3\nstart\nstart\n"},
    {8, 11, HEAD TWO "max,start,gate,30,-\n"},
    {9, 11, HEAD TWO "max,start,door,30,p!p\n"},
    {3, 12, HEAD TWO RULES "\n"},
    {2, 12, HEAD TWO RULES "x"},
    {2, 12, HEAD TWO RULES "reactions,0"},
    {3, 12, HEAD TWO RULES "max,start,door,30,-\n"},
    {4, 12, HEAD TWO RULES "reactions,00\n"},
    {5, 12, HEAD TWO RULES "reactions,5\n"},
    {3, 8, "horizon,60\nevents,3\nstart\ncall\ndoor\nsignals,1\np,call\nreactions,0\nrules,0\n"},
    {2, 13, HEAD TWO RULES "reactions,1\n"},
    {2, 14, HEAD TWO RULES "reactions,2\np,2\n"},
    {3, 13, HEAD TWO RULES "reactions,1\np,2,-\n"},
    {4, 13, HEAD TWO RULES "reactions,1\np,02\n"},
    {5, 13, HEAD TWO RULES "reactions,1\np,0\n"},
    {5, 13, HEAD TWO RULES "reactions,1\np,61\n"},
    {5, 13, HEAD TWO RULES "reactions,1\np,258\n"},
    {5, 13, HEAD TWO RULES "reactions,1\nP,61\n"},
    {5, 14, HEAD TWO RULES "reactions,2\np,2\np,0\n"},
    {6, 13, HEAD TWO RULES "reactions,1\nP,60\n"},
    {6, 13, HEAD TWO RULES "reactions,1\npq,2\n"},
    {7, 14, HEAD TWO RULES "reactions,2\np,2\np,2\n"},
    {7, 14, HEAD TWO RULES "reactions,4\np,2\np,3\nq,4\nr,5\n"},
    {8, 13, HEAD TWO RULES "reactions,1\nq,2\n"},
    {8, 14, HEAD TWO RULES "reactions,4\np,2\nq,3\nr,4\ns,5\n"},
    {3, 13, HEAD TWO RULES "reactions,0\n\n"},
    {2, 13, HEAD TWO RULES "reactions,0\nx"},
    {3, 14, HEAD TWO RULES "reactions,1\np,2\nreactions,0\n"},
    {3, 12, HEAD TWO RULES "cases,0\n"},
    {2, 13, HEAD TWO RULES "reactions,0\ncases,0"},
    {4, 13, HEAD TWO RULES "reactions,0\ncases,00\n"},
    {5, 13, HEAD TWO RULES "reactions,0\ncases,4\n"},
    {5, 13, HEAD TWO RULES "reactions,0\ncases,-1\n"},
    {2, 14, HEAD TWO RULES "reactions,0\ncases,1\n"},
    {2, 15, HEAD TWO RULES "reactions,0\ncases,2\ndoor,p\ncall,-"},
    {3, 14, HEAD TWO RULES "reactions,0\ncases,1\ndoor\n"},
    {3, 14, HEAD TWO RULES "reactions,0\ncases,1\ndoor,p,\n"},
    {6, 14, HEAD TWO RULES "reactions,0\ncases,1\nDoor,p\n"},
    {6, 14, HEAD TWO RULES "reactions,0\ncases,1\ndoors,p!\n"},
    {7, 15, HEAD TWO RULES "reactions,0\ncases,2\ndoor,p\ndoor,q\n"},
    {7, 15, HEAD TWO RULES "reactions,0\ncases,2\ndoor,-\ndoor,p\n"},
    {8, 14, HEAD TWO RULES "reactions,0\ncases,1\ndoors,p\n"},
    {8, 14, HEAD TWO RULES "reactions,0\ncases,1\ndoor,qq\n"},
    {9, 14, HEAD TWO RULES "reactions,0\ncases,1\ndoor,p!p\n"},
    {10, 14, HEAD TWO RULES "reactions,0\ncases,0\n\n"},
    {10, 15, HEAD TWO RULES "reactions,0\ncases,1\ndoor,p\nx"},
    {20, 14, HEAD TWO RULES "reactions,0\ncases,1\nstart,p\n"},
    {20, 15, HEAD TWO RULES "reactions,0\ncases,2\nstart,!p\ndoor,p\nx"},
    {8, 15, HEAD TWO RULES "reactions,0\ncases,2\nstart,p\ndoor,q\n"},
    {21, 13, KEYS "rules,1\nmin,start,door,9,q\nreactions,0\ncases,1\ncall,p\n"},
    {21, 13, KEYS "rules,0\nreactions,0\ncases,2\ncall,p\ndoor,q\n"},
    {21, 13, KEYS "rules,0\nreactions,0\ncases,2\ndoor,!pq\ncall,p\n"},
    {20, 13, KEYS "rules,0\nreactions,0\ncases,2\nstart,q\ncall,p\n"},
};

/* ---------------------------------------------------------------- What is tried */

/* The readers of the header on two numbers made by hand: the highest bit says whether the 23 bits below it are the sum
 * of a run that was stopped, or the count of rounds. */
static void readers(void)
{
    const uint64_t answer = 0x0877665544332211u, stopped = 0x8877665544332211u, none = 0x0000005544332211u;
    expect("readers", "opening_number", opening_number(answer), 0x11);
    expect("readers", "opening_line", opening_line(answer), 0x3322);
    expect("readers", "opening_minutes", opening_minutes(answer), 0x5544);
    expect("readers", "opening_rounds", opening_rounds(answer), 0x087766);
    expect("readers", "opening_left", opening_left(answer), 0);
    expect("readers", "opening_finished", opening_finished(answer), 1);
    expect("readers", "opening_rounds, stopped", opening_rounds(stopped), 0);
    expect("readers", "opening_left, stopped", opening_left(stopped), 0x087766);
    expect("readers", "opening_finished, stopped", opening_finished(stopped), 0);
    expect("readers", "opening_rounds, none", opening_rounds(none), 0);
    expect("readers", "opening_left, none", opening_left(none), 0);
    expect("readers", "opening_finished, none", opening_finished(none), 0);
    expect("readers", "opening_word", opening_word(answer), 0x44);
    expect("readers", "opening_first", opening_first(answer), 0x55);
    expect("readers", "opening_second", opening_second(answer), 0x66);
    expect("readers", "opening_third", opening_third(answer), 0x77);
    expect("readers", "opening_events", opening_events(answer), 0x5544);
    expect("readers", "opening_bytes", opening_bytes(answer), 0x5544);
}

/* Each of them takes all of its bits and no other; with the highest bit beside, the count is 0, and the sum is read. */
static void readers_bit_by_bit(void)
{
    static const struct {
        const char *name;
        unsigned (*read)(uint64_t);
        unsigned first, behind;
    } reader[] = {
        {"opening_number", opening_number, 0, 8},
        {"opening_line", opening_line, 8, 24},
        {"opening_minutes", opening_minutes, 24, 40},
        {"opening_rounds", opening_rounds, 40, 63},
        {"opening_left", opening_left, 64, 64},
        {"opening_word", opening_word, 24, 32},
        {"opening_first", opening_first, 32, 40},
        {"opening_second", opening_second, 40, 48},
        {"opening_third", opening_third, 48, 56},
        {"opening_events", opening_events, 24, 40},
        {"opening_bytes", opening_bytes, 24, 40},
    };
    for (unsigned bit = 0; bit < 64; bit++) {
        const uint64_t answer = (uint64_t)1 << bit, stopped = answer | (uint64_t)1 << 63;
        const unsigned in_count = 40 <= bit && bit < 63;
        for (size_t i = 0; i < sizeof reader / sizeof reader[0]; i++) {
            const unsigned first = reader[i].first, wanted = first <= bit && bit < reader[i].behind;
            expect("readers, bit by bit", reader[i].name, reader[i].read(answer), wanted ? 1u << (bit - first) : 0);
        }
        expect("readers, bit by bit", "opening_finished", opening_finished(answer), in_count);
        expect("readers, stopped", "opening_rounds", opening_rounds(stopped), 0);
        expect("readers, stopped", "opening_left", opening_left(stopped), in_count ? 1u << (bit - 40) : 0);
        expect("readers, stopped", "opening_finished", opening_finished(stopped), 0);
    }
}

static void solver_lengths(void)
{
    const size_t length = strlen(example);
    solve("solve, exact", example, length, 12, 0, 0, 3, opened, 6);
    solve("solve, a byte more", example, length, 13, 0, 0, 3, opened, 6);
    solve("solve, a pair more", example, length, 14, 0, 0, 3, opened, 6);
    solve("solve, generous", example, length, OPENING_TABLE_MOST, 0, 0, 3, opened, 6);
    solve("solve, a byte less", example, length, 11, 12, 0, 0, NULL, 0);
    solve("solve, a pair less", example, length, 10, 12, 0, 0, NULL, 0);
    solve("solve, one byte", example, length, 1, 12, 0, 0, NULL, 0);
    solve("solve, no bytes", example, length, 0, 12, 0, 0, NULL, 0);
    solve("solve, both bytes of a minute", high, strlen(high), 4, 0, 0, 2, high_opened, 2);
}

/* Trials 6, 8, 9 and 11 of document 01, and two signals. */
static void solver_trials(void)
{
    static const char own[] = "horizon,60\nevents,1\nstart\nsignals,0\nrules,1\nmax,start,start,0,-\n";
    static const char edge[] = "horizon,10\nevents,2\nstart\ndoor\nsignals,0\nrules,1\nmin,start,door,10,-\n";
    static const char back[] = "horizon,60\nevents,2\nstart\ndoor\nsignals,0\nrules,1\nmax,door,start,-5,-\n";
    static const char apart[] = HEAD "min,start,call,5,-\nmin,start,door,10,p\nmax,start,door,6,!p\n";
    solve("trial 6", own, strlen(own), 2, 0, 0, 1, (const uint16_t[]){0}, 1);
    solve("trial 8", edge, strlen(edge), 4, 0, 0, 2, (const uint16_t[]){0, 10}, 2);
    solve("trial 9", back, strlen(back), 4, 0, 0, 2, (const uint16_t[]){0, 5}, 2);
    solve("trial 11", apart, strlen(apart), 12, 0, 0, 3, (const uint16_t[]){0, 5, 6, 0, 5, 10}, 6);
    solve("weights", weights, strlen(weights), 24, 0, 0, 3, weights_opened, 12);
    judge("trial 6, judged", own, (const uint16_t[]){0}, 1, OPENING_PASS, 0, 0, 0);
    judge("at the horizon exactly", edge, (const uint16_t[]){0, 10}, 2, OPENING_PASS, 0, 0, 0);
}

/* Slow signals: what they hold up, what they make impossible, and what of a table is too quick for them. */
static void slow_signals(void)
{
    static const char apart[] = HEAD "min,start,call,5,-\nmin,start,door,10,p\nmax,start,door,6,!p\n"
                                     "reactions,1\np,2\n";
    static const char none[] = HEAD TWO RULES "reactions,0\n";
    static const char only_p[] = "horizon,60\nevents,3\nstart\ncall\ndoor\nsignals,2\np,start\nq,call\nrules,2\n"
                                 "min,start,call,2,-\nmin,start,door,9,p\nreactions,2\np,2\nq,3\n";
    static const uint16_t too_quick_for_q[] = {0, 2, 4, 0, 2, 20, 0, 2, 10, 0, 2, 20};
    static const uint16_t too_quick_for_p[] = {0, 2, 1, 0, 2, 20, 0, 2, 10, 0, 2, 20};
    static const uint16_t only_p_opened[] = {0, 2, 2, 0, 2, 9, 0, 2, 2, 0, 2, 9};
    solve("p after 1 minute", after_1, strlen(after_1), 12, 0, 0, 3, opened, 6);
    solve("no lines of reactions", none, strlen(none), 12, 0, 0, 3, opened, 6);
    solve("p after 2 minutes", after_2, strlen(after_2), 12, 0, 0, 3, opened_after_2, 6);
    solve("p after 2 minutes, a pair less", after_2, strlen(after_2), 10, 12, 0, 0, NULL, 0);
    solve("p after 15 minutes", after_15, strlen(after_15), 12, 0, 0, 4, opened_after_15, 6);
    solve("p after 60 minutes", after_60, strlen(after_60), 12, 0, 0, 3, opened_after_60, 6);
    solve("two slow signals", slow_pair, strlen(slow_pair), 24, 0, 0, 3, pair_opened, 12);
    solve("each its own reaction", only_p, strlen(only_p), 24, 0, 0, 3, only_p_opened, 12);
    judge("each its own reaction, judged", only_p, only_p_opened, 12, OPENING_PASS, 0, 0, 0);
    solve("trial 11, p after 2 minutes", apart, strlen(apart), 12, 13, 0, 3, NULL, 0);
    judge("p after 1 minute, judged", after_1, opened, 6, OPENING_PASS, 0, 0, 0);
    judge("a minute too quick", after_2, opened, 6, OPENING_UNHEARD, 0, 1, 2);
    judge("p after 2 minutes, judged", after_2, opened_after_2, 6, OPENING_PASS, 0, 0, 0);
    judge("a minute later", after_2, (const uint16_t[]){0, 5, 8, 0, 5, 20}, 6, OPENING_PASS, 0, 0, 0);
    judge("a minute too quick for 60", after_60, (const uint16_t[]){0, 5, 64, 0, 5, 100}, 6, OPENING_UNHEARD, 0, 1, 2);
    judge("p after 60 minutes, judged", after_60, opened_after_60, 6, OPENING_PASS, 0, 0, 0);
    judge("two slow signals, judged", slow_pair, pair_opened, 12, OPENING_PASS, 0, 0, 0);
    judge("too quick for q", slow_pair, too_quick_for_q, 12, OPENING_UNHEARD, 0, 2, 2);
    judge("too quick for p", slow_pair, too_quick_for_p, 12, OPENING_UNHEARD, 0, 1, 2);
}

static void solver_without_table(void)
{
    const size_t length = strlen(no_table);
    solve("no good table, exact", no_table, length, 12, 13, 0, 3, NULL, 0);
    solve("no good table, generous", no_table, length, 100, 13, 0, 3, NULL, 0);
    solve("no good table, a pair less: 12 comes first", no_table, length, 10, 12, 0, 0, NULL, 0);
    solve("no good table, no bytes: 12 comes first", no_table, length, 0, 12, 0, 0, NULL, 0);
}

/* Sheets with a `fix`, the refusal by all but the converter, and the converter's own: 0 if there is none. */
static const struct {
    unsigned number, line, own_number, own_line;
    const char *sheet;
} outdated[] = {
    {22, 9, 0, 0, HEAD "fix,start,call,5,-\nmin,call,door,15,p\nmax,start,door,30,-\n"},
    {22, 10, 0, 0, HEAD "min,start,call,5,-\nfix,call,door,15,p\nfix,start,door,20,-\n"},
    {22, 11, 0, 0, HEAD TWO "fix,start,door,20,-\nreactions,1\np,2\ncases,1\ndoor,p\n"},
    {2, 11, 2, 11, HEAD TWO "fix,start,door,20,-"},
    {3, 11, 3, 11, HEAD TWO "fix,start,door,20\n"},
    {3, 11, 3, 11, HEAD TWO "fix,start,door,20,-,\n"},
    {3, 11, 3, 11, HEAD TWO "fixx,start,door,20,-\n"},
    {3, 11, 3, 11, HEAD TWO "Fix,start,door,20,-\n"},
    {3, 11, 3, 11, HEAD TWO " fix,start,door,20,-\n"},
    {3, 12, 3, 12, HEAD TWO RULES "fix,start,door,20,-\n"},
    {22, 11, 4, 11, HEAD TWO "fix,start,door,020,-\n"},
    {22, 11, 5, 11, HEAD TWO "fix,start,door,10081,-\n"},
    {22, 11, 6, 11, HEAD TWO "fix,start,Door,20,-\n"},
    {22, 11, 8, 11, HEAD TWO "fix,start,gate,20,-\n"},
    {22, 11, 9, 11, HEAD TWO "fix,start,door,20,p!p\n"},
    {22, 9, 2, 11, HEAD "fix,start,call,5,-\nmin,call,door,15,p\n"},
    {22, 9, 3, 10, HEAD "fix,start,call,5,-\nmin,call,door,15\nmax,start,door,30,-\n"},
    {8, 9, 8, 9, HEAD "max,start,gate,5,-\nfix,call,door,15,p\nmax,start,door,30,-\n"},
    {22, 11, 3, 12, HEAD TWO "fix,start,door,20,-\n\n"},
    {22, 11, 7, 14, HEAD TWO "fix,start,door,20,-\nreactions,2\np,2\np,2\n"},
    {22, 11, 10, 14, HEAD TWO "fix,start,door,20,-\nreactions,0\ncases,0\nx"},
    {22, 11, 20, 14, HEAD TWO "fix,start,door,20,-\nreactions,0\ncases,1\nstart,p\n"},
    {22, 10, 21, 13, KEYS "rules,1\nfix,start,door,9,q\nreactions,0\ncases,1\ncall,p\n"},
};

static void refused_by_all_calls(const char *about, const char *sheet, unsigned number, unsigned line)
{
    solve(about, sheet, strlen(sheet), 100, number, line, 0, NULL, 0);
    solve(about, sheet, strlen(sheet), 0, number, line, 0, NULL, 0);
    not_within(about, sheet, strlen(sheet), 0, number, line);
    not_within(about, sheet, strlen(sheet), 1, number, line);
    not_within(about, sheet, strlen(sheet), UINT32_MAX, number, line);
    judge_refused(about, sheet, 12, number, line);
    judge_refused(about, sheet, 0, number, line);
    judge_refused(about, sheet, 7, number, line);
    refused_by_all(about, sheet, strlen(sheet), number, line);
}

static void outdated_sheets(void)
{
    for (size_t i = 0; i < sizeof outdated / sizeof outdated[0]; i++) {
        const char *sheet = outdated[i].sheet;
        char about[64];
        sprintf(about, "outdated sheet %u (refusal %u line %u)", (unsigned)i, outdated[i].number, outdated[i].line);
        refused_by_all_calls(about, sheet, outdated[i].number, outdated[i].line);
        if (outdated[i].own_number != 0)
            not_converted(about, sheet, strlen(sheet), outdated[i].own_number, outdated[i].own_line);
    }
}

static void refused_sheets(void)
{
    for (size_t i = 0; i < sizeof faulty / sizeof faulty[0]; i++) {
        const char *sheet = faulty[i].sheet;
        const unsigned number = faulty[i].number, line = faulty[i].line;
        char about[64];
        sprintf(about, "faulty sheet %u (refusal %u line %u)", (unsigned)i, number, line);
        refused_by_all_calls(about, sheet, number, line);
        not_converted(about, sheet, strlen(sheet), number, line);
    }
}

/* 4,096 bytes are read, 4,097 are not. */
static void long_sheets(void)
{
    static char sheet[OPENING_SHEET_MOST + 1];
    static const uint8_t bytes[12];
    const unsigned behind[6] = {10, 16, 0, 0, 0, 0}, too_long[6] = {1, 0, 0, 0, 0, 0};
    memset(sheet, 'x', sizeof sheet);
    memcpy(sheet, duress, strlen(duress));
    solve("4,096 bytes", sheet, OPENING_SHEET_MOST, 12, 10, 16, 0, NULL, 0);
    solve("4,097 bytes", sheet, OPENING_SHEET_MOST + 1, 12, 1, 0, 0, NULL, 0);
    not_within("4,096 bytes, within 0 rounds", sheet, OPENING_SHEET_MOST, 0, 10, 16);
    not_within("4,097 bytes, within 0 rounds", sheet, OPENING_SHEET_MOST + 1, 0, 1, 0);
    judge_bytes("4,096 bytes, judged", sheet, OPENING_SHEET_MOST, bytes, sizeof bytes, behind);
    judge_bytes("4,097 bytes, judged", sheet, OPENING_SHEET_MOST + 1, bytes, sizeof bytes, too_long);
    refused_by_all("4,096 bytes, by the others", sheet, OPENING_SHEET_MOST, 10, 16);
    refused_by_all("4,097 bytes, by the others", sheet, OPENING_SHEET_MOST + 1, 1, 0);
    not_converted("4,096 bytes, by the converter", sheet, OPENING_SHEET_MOST, 10, 16);
    not_converted("4,097 bytes, by the converter", sheet, OPENING_SHEET_MOST + 1, 1, 0);
}

static void breaches(void)
{
    judge("pass", example, opened, 6, OPENING_PASS, 0, 0, 0);
    judge("pass, not the least", example, (const uint16_t[]){0, 9, 25, 0, 9, 25}, 6, OPENING_PASS, 0, 0, 0);
    judge("start late", example, (const uint16_t[]){1, 5, 6, 0, 5, 20}, 6, OPENING_LATE, 0, 0, 0);
    judge("start late in case 1", example, (const uint16_t[]){0, 5, 6, 1, 5, 20}, 6, OPENING_LATE, 1, 0, 0);
    judge("over the horizon", example, (const uint16_t[]){0, 5, 6, 0, 5, 61}, 6, OPENING_LATE, 1, 2, 0);
    judge("65535", example, (const uint16_t[]){0, 5, 65535, 0, 5, 20}, 6, OPENING_LATE, 0, 2, 0);
    judge("rule broken in case 0", example, (const uint16_t[]){0, 4, 6, 0, 4, 20}, 6, OPENING_RULE, 0, 0, 0);
    judge("by case and then rule", example, (const uint16_t[]){0, 5, 31, 0, 4, 20}, 6, OPENING_RULE, 0, 2, 0);
    judge("rule broken in case 1", example, (const uint16_t[]){0, 5, 6, 0, 5, 31}, 6, OPENING_RULE, 1, 2, 0);
    judge("heard in its own minute", example, (const uint16_t[]){0, 5, 5, 0, 5, 20}, 6, OPENING_UNHEARD, 0, 1, 2);
    judge("the signal's own event", example, (const uint16_t[]){0, 25, 26, 0, 5, 20}, 6, OPENING_UNHEARD, 0, 1, 1);
    judge("no good table, judged", no_table, opened, 6, OPENING_RULE, 1, 2, 0);
    judge("both bytes of a minute, judged", high, high_opened, 2, OPENING_PASS, 0, 0, 0);
    judge("a minute less", high, (const uint16_t[]){0, 999}, 2, OPENING_RULE, 0, 0, 0);
}

/* The signal's minute is the one in the first case: document 01's example, and a breach that shows from case 1 only. */
static void signal_of_its_own_case(void)
{
    judge("the signal at 5 and 2", signal_last, (const uint16_t[]){0, 3, 5, 0, 4, 2}, 6, OPENING_UNHEARD, 0, 1, 1);
    judge("the signal at 5 and 5", signal_last, (const uint16_t[]){0, 6, 5, 0, 5, 5}, 6, OPENING_UNHEARD, 1, 0, 1);
    judge("a minute after the signal", signal_last, (const uint16_t[]){0, 6, 5, 0, 7, 5}, 6, OPENING_PASS, 0, 0, 0);
}

/* Four cases: first breaches between cases that differ in both signals, or in the later one, and the order of the search. */
static void two_signals_apart(void)
{
    static const uint16_t both[] = {0, 9, 9, 4, 0, 9, 9, 4, 0, 9, 9, 4, 0, 9, 9, 5};
    static const uint16_t later[] = {0, 2, 9, 6, 0, 2, 9, 7, 0, 2, 9, 6, 0, 2, 9, 8};
    static const uint16_t order[] = {0, 9, 9, 4, 0, 9, 9, 5, 0, 8, 9, 4, 0, 9, 9, 4};
    static const uint16_t good[] = {0, 2, 3, 6, 0, 2, 3, 7, 0, 2, 3, 8, 0, 2, 3, 9};
    judge("cases 0 and 3", two_signals, both, 16, OPENING_UNHEARD, 0, 3, 3);
    judge("cases 1 and 3", two_signals, later, 16, OPENING_UNHEARD, 1, 3, 3);
    judge("by cases and then event", two_signals, order, 16, OPENING_UNHEARD, 0, 1, 3);
    judge("told apart", two_signals, good, 16, OPENING_PASS, 0, 0, 0);
}

static void judge_lengths(void)
{
    for (size_t i = 0; i < sizeof other_lengths / sizeof other_lengths[0]; i++)
        judge_refused("judge, another length", example, other_lengths[i], 11, 0);
}

/* Plays the solver's table of a sheet up to minute 120, each case minute by minute: an event is due exactly once, at
 * its minute in the case. What has been heard is kept here from the answers: a signal whose event was due, with its
 * truth in the case, from so many minutes later on as its reaction is, the last one first. */
static void play_slow(const char *sheet, unsigned events, const char *letters, const unsigned *givers,
                      const unsigned *reactions)
{
    uint8_t table[OPENING_TABLE_MOST], played[OPENING_TABLE_MOST];
    const unsigned signals = (unsigned)strlen(letters), cases = 1u << signals;
    uint64_t solved = opening_solve((const uint8_t *)sheet, strlen(sheet), table, sizeof table);
    const struct handed handed = {sheet, strlen(sheet), table, 2 * opening_minutes(solved)};
    calls++;
    expect("play", "the number", opening_number(solved), 0);
    expect("play", "the count of minutes", opening_minutes(solved), events * cases);
    for (unsigned s = 0; s < cases; s++) {
        char heard[16] = "", longer[16];
        uint16_t row[16] = {0};
        unsigned seen = 0, from[4] = {0};
        for (unsigned minute = 0; minute <= 120; minute++) {
            for (unsigned p = 0; p < signals; p++) {
                if (seen >> givers[p] & 1 && from[p] == minute) {
                    sprintf(longer, "%s%c%s", s >> p & 1 ? "" : "!", letters[p], heard);
                    strcpy(heard, longer);
                }
            }
            uint64_t answer = ask("play", handed, minute, heard, strlen(heard));
            expect("play", "the number", opening_number(answer), 0);
            const unsigned due = opening_events(answer);
            expect("play", "the number of the events due twice", due & seen, 0);
            seen |= due;
            for (unsigned u = 0; u < 16; u++) {
                if (due >> u & 1)
                    row[u] = (uint16_t)minute;
            }
            for (unsigned p = 0; p < signals; p++) {
                if (due >> givers[p] & 1)
                    from[p] = minute + reactions[p];
            }
        }
        expect("play", "the number of all events due", seen, (1u << events) - 1);
        pairs(played + 2 * events * s, row, events);
    }
    for (unsigned i = 0; i < 2 * events * cases; i++)
        expect("play", "a byte of the table as it was played", played[i], table[i]);
}

/* The same where each signal counts after a minute. */
static void play(const char *sheet, unsigned events, const char *letters, const unsigned *givers)
{
    play_slow(sheet, events, letters, givers, (const unsigned[]){1, 1, 1, 1});
}

static void played_tables(void)
{
    play(example, 3, "p", (const unsigned[]){1});
    play(signal_last, 3, "p", (const unsigned[]){2});
    play(two_signals, 4, "pq", (const unsigned[]){1, 2});
    play(weights, 3, "pq", (const unsigned[]){0, 1});
    play(four_signals, 6, "wpzq", (const unsigned[]){3, 1, 4, 2});
    play(after_1, 3, "p", (const unsigned[]){1});
    play_slow(after_2, 3, "p", (const unsigned[]){1}, (const unsigned[]){2});
    play_slow(after_15, 3, "p", (const unsigned[]){1}, (const unsigned[]){15});
    play_slow(after_60, 3, "p", (const unsigned[]){1}, (const unsigned[]){60});
    play_slow(slow_pair, 3, "pq", (const unsigned[]){0, 1}, (const unsigned[]){2, 3});
}

/* A question, and its answer by hand: event u is due where bit u stands. */
struct question {
    unsigned minute;
    const char *heard;
    unsigned number, events;
};

static void due_by_hand(struct handed handed, const struct question *questions, size_t count)
{
    for (size_t i = 0; i < count; i++) {
        char about[64];
        sprintf(about, "due at %u, heard '%s'", questions[i].minute, questions[i].heard);
        due(about, handed, questions[i].minute, questions[i].heard, strlen(questions[i].heard), questions[i].number, 0,
            questions[i].events);
    }
}

/* Document 01's example, `weights` and `high`. */
static void questions(void)
{
    static const struct question of_example[] = {
        {0, "", 0, 1},    {0, "-", 0, 1},     {0, "p", 16, 0},    {1, "", 0, 0},   {5, "", 0, 2},    {5, "-", 0, 2},
        {5, "p", 16, 0},  {5, "!p", 16, 0},   {6, "!p", 0, 4},    {6, "p", 0, 0},  {6, "", 16, 0},   {6, "-", 16, 0},
        {7, "!p", 0, 0},  {20, "!p", 0, 0},   {20, "p", 0, 4},    {21, "p", 0, 0}, {61, "p", 0, 0},  {262, "!p", 0, 0},
        {261, "", 16, 0}, {65535, "", 16, 0}, {65535, "p", 0, 0},
    };
    static const struct question of_weights[] = {
        {0, "", 0, 1},   {1, "!p", 0, 4},  {1, "p", 0, 0},   {1, "", 16, 0},  {1, "p!q", 16, 0}, {2, "p", 0, 2},
        {2, "!p", 0, 2}, {2, "pq", 16, 0}, {3, "pq", 0, 4},  {3, "qp", 0, 4}, {3, "p!q", 0, 0},  {3, "p", 16, 0},
        {3, "q", 16, 0}, {7, "p!q", 0, 4}, {7, "!qp", 0, 4}, {7, "pq", 0, 0}, {7, "!p!q", 0, 0}, {7, "q!p", 0, 0},
    };
    static const struct question of_high[] = {
        {0, "", 0, 1}, {232, "", 0, 0}, {1000, "", 0, 2}, {1001, "-", 0, 0}, {0, "p", 15, 0},
    };
    uint8_t bytes[24];
    struct handed handed = {example, strlen(example), bytes, pairs(bytes, opened, 6)};
    due_by_hand(handed, of_example, sizeof of_example / sizeof of_example[0]);
    handed = (struct handed){weights, strlen(weights), bytes, pairs(bytes, weights_opened, 12)};
    due_by_hand(handed, of_weights, sizeof of_weights / sizeof of_weights[0]);
    handed = (struct handed){high, strlen(high), bytes, pairs(bytes, high_opened, 2)};
    due_by_hand(handed, of_high, sizeof of_high / sizeof of_high[0]);
}

/* The player around the minute at which a slow signal counts: 7 for a reaction of 2, 65 for one of 60, and 2 and 5 for
 * two. */
static void slow_questions(void)
{
    static const struct question of_after_2[] = {
        {0, "", 0, 1},    {5, "", 0, 2},   {5, "p", 16, 0},  {6, "", 0, 0},   {6, "-", 0, 0},   {6, "p", 16, 0},
        {6, "!p", 16, 0}, {7, "", 16, 0},  {7, "p", 0, 0},   {7, "!p", 0, 4}, {8, "!p", 0, 0},  {20, "p", 0, 4},
        {20, "", 16, 0},  {263, "", 16, 0}, {263, "!p", 0, 0}, {7, "q", 15, 0},
    };
    static const struct question of_after_60[] = {
        {5, "", 0, 2},    {6, "", 0, 0},   {6, "p", 16, 0},   {64, "", 0, 0},    {64, "!p", 16, 0}, {65, "", 16, 0},
        {65, "!p", 0, 4}, {65, "p", 0, 0}, {66, "!p", 0, 0}, {100, "p", 0, 4}, {100, "", 16, 0},
    };
    static const struct question of_pair[] = {
        {0, "", 0, 1},    {1, "", 0, 0},    {1, "p", 16, 0},  {2, "", 16, 0},    {2, "p", 0, 2},    {2, "!p", 0, 2},
        {4, "p", 0, 0},   {4, "pq", 16, 0}, {4, "!p", 0, 0},  {5, "!p", 16, 0},  {5, "!p!q", 0, 4}, {5, "!q!p", 0, 4},
        {5, "!pq", 0, 0}, {10, "q!p", 0, 4}, {20, "pq", 0, 4}, {20, "p!q", 0, 4},
    };
    uint8_t bytes[24];
    struct handed handed = {after_2, strlen(after_2), bytes, pairs(bytes, opened_after_2, 6)};
    due_by_hand(handed, of_after_2, sizeof of_after_2 / sizeof of_after_2[0]);
    handed = (struct handed){after_60, strlen(after_60), bytes, pairs(bytes, opened_after_60, 6)};
    due_by_hand(handed, of_after_60, sizeof of_after_60 / sizeof of_after_60[0]);
    handed = (struct handed){slow_pair, strlen(slow_pair), bytes, pairs(bytes, pair_opened, 12)};
    due_by_hand(handed, of_pair, sizeof of_pair / sizeof of_pair[0]);
    handed = (struct handed){after_2, strlen(after_2), bytes, pairs(bytes, opened, 6)};
    due("too quick a table", handed, 0, "", 0, 14, 0, 0);
}

/* Events that only some cases have: what is blank, what may not be, and what is too soon for a label. */
static void labelled_events(void)
{
    static const char ring[] = DURESS "min,start,key,5,-\nmin,key,again,3,-\nreactions,0\ncases,1\nkey,p\n";
    static const char plain_form[] = DURESS "max,key,start,-5,-\nmax,again,key,-3,-\nreactions,0\ncases,1\nagain,p\n";
    static const char plain[] = DURESS "min,start,key,5,-\nmin,key,again,3,-\nreactions,1\np,1\ncases,1\nagain,p\n";
    static const struct question asked[] = {
        {0, "", 0, 1},   {5, "", 0, 2},      {6, "", 0, 0},  {7, "", 16, 0},     {7, "p", 0, 0},       {8, "p", 0, 4},
        {8, "!p", 0, 0}, {65535, "p", 0, 0}, {8, "", 16, 0}, {65535, "", 16, 0}, {65535, "!p", 0, 0},
    };
    uint8_t bytes[12];
    const struct handed handed = {duress, strlen(duress), bytes, pairs(bytes, duress_turned, 6)};
    solve("a second turn after duress", duress, strlen(duress), 12, 0, 0, 3, duress_turned, 6);
    solve("a second turn after duress, a pair less", duress, strlen(duress), 10, 12, 0, 0, NULL, 0);
    solve("labelled with its own signal", ring, strlen(ring), 12, 13, 0, 55, NULL, 0);
    judge("a second turn after duress, judged", duress, duress_turned, 6, OPENING_PASS, 0, 0, 0);
    judge("wrongly filled", duress, (const uint16_t[]){0, 5, 8, 0, 5, 8}, 6, OPENING_LATE, 0, 2, 0);
    judge("wrongly filled with 0", duress, (const uint16_t[]){0, 5, 0, 0, 5, 8}, 6, OPENING_LATE, 0, 2, 0);
    judge("wrongly blank", duress, (const uint16_t[]){0, 5, 65535, 0, 5, 65535}, 6, OPENING_LATE, 1, 2, 0);
    judge("too soon for its label", duress, (const uint16_t[]){0, 5, 65535, 0, 5, 6}, 6, OPENING_LATE, 1, 2, 0);
    judge("just in time for its label", duress, (const uint16_t[]){0, 5, 65535, 0, 5, 7}, 6, OPENING_RULE, 1, 1, 0);
    judge("a giver wrongly blank", duress, (const uint16_t[]){0, 5, 65535, 0, 65535, 8}, 6, OPENING_LATE, 1, 1, 0);
    due_by_hand(handed, asked, sizeof asked / sizeof asked[0]);
    list("a second turn after duress, listed", handed, strlen(duress_listing), 0, 0, duress_listing);
    list("a second turn after duress, a byte less", handed, strlen(duress_listing) - 1, 12, 0, NULL);
    reread_minutes("a second turn after duress, read back", duress, duress_listing, 12, duress_turned, 6);
    misread("65535 for a blank", duress, printed("case,start,key,again\nF,0,5,65535\nT,0,5,8\n"), 19, 2);
    house("house form, labelled", duress, strlen(duress), strlen(duress_form), 0, 0, duress_form);
    house("house form, labelled, a byte less", duress, strlen(duress), strlen(duress_form) - 1, 12, 0, NULL);
    house("house form of a labelled form", duress_form, strlen(duress_form), ROOM, 0, 0, duress_form);
    house("house form, no reactions before labels", plain, strlen(plain), strlen(plain_form), 0, 0, plain_form);
}

/* Texts that are no list of the sheet's one letter. */
static const struct {
    size_t length;
    const char *text;
} ill_told[] = {
    {1, "q"},     {1, "o"},    {2, "pq"},   {2, "qp"},  {3, "p!q"}, {2, "pp"},  {3, "p!p"}, {3, "!pp"}, {4, "!p!p"}, {1, "P"},
    {2, "!P"},    {1, "!"},    {2, "!!"},   {3, "!!p"}, {2, "p!"},  {3, "p!!"}, {1, " "},   {2, "p "},  {2, " p"},   {2, "-p"},
    {2, "p-"},    {3, "-!p"},  {2, "--"},   {2, "!-"},  {2, "-!"},  {3, "!-p"}, {1, "\n"},  {2, "p\n"}, {2, "-\n"},  {2, "\r\n"},
    {1, "\0"},    {2, "p\0"},  {2, "\0p"},  {3, "p\0p"}, {3, "p,q"}, {1, "1"},   {2, "p1"},  {1, "`"},   {1, "{"},    {1, "\xff"},
    {2, "\xf0p"}, {1, "+"},    {2, "+p"},
};

/* 15 in each of its shapes, and the order of 11, 14, 15 and 16; the second table uses the signal in the minute it is given. */
static void questions_turned_away(void)
{
    static char many[300];
    uint8_t bytes[14] = {0}, failing[12];
    const struct handed good = {example, strlen(example), bytes, pairs(bytes, opened, 6)};
    const struct handed fails = {example, strlen(example), failing, pairs(failing, (const uint16_t[]){0, 5, 5, 0, 5, 20}, 6)};
    memset(many, 'p', sizeof many);
    for (unsigned minute = 5; minute <= 6; minute++) {
        for (size_t i = 0; i < sizeof ill_told / sizeof ill_told[0]; i++) {
            char about[64];
            sprintf(about, "text %u at %u", (unsigned)i, minute);
            due(about, good, minute, ill_told[i].text, ill_told[i].length, 15, 0, 0);
            due(about, fails, minute, ill_told[i].text, ill_told[i].length, 14, 0, 0);
        }
        due("256 letters", good, minute, many, 256, 15, 0, 0);
        due("257 letters", good, minute, many, 257, 15, 0, 0);
        due("300 letters", good, minute, many, 300, 15, 0, 0);
        due("14, or 14 before 16", fails, minute, "", 0, 14, 0, 0);
        for (size_t i = 0; i < sizeof other_lengths / sizeof other_lengths[0]; i++) {
            const struct handed other = {example, strlen(example), bytes, other_lengths[i]};
            due("11, or 11 before 16", other, minute, "", 0, 11, 0, 0);
            due("11 before 15", other, minute, "!", 1, 11, 0, 0);
        }
    }
}

static void listings(void)
{
    static const char *const text = example_listing;
    static const char bad_text[] = NAMES "F,-,10,256\nT,9999,10000,0\n";
    static const char high_text[] = "case,start,door\n-,0,1000\n";
    static const uint16_t bad[] = {65535, 10, 256, 9999, 10000, 0};
    const size_t exact = strlen(text);
    uint8_t bytes[24];
    struct handed handed = {example, strlen(example), bytes, pairs(bytes, opened, 6)};
    list("listing, exact", handed, exact, 0, 0, text);
    list("listing, a byte more", handed, exact + 1, 0, 0, text);
    list("listing, generous", handed, OPENING_LISTING_MOST, 0, 0, text);
    list("listing, a byte less", handed, exact - 1, 12, 0, NULL);
    list("listing, one byte", handed, 1, 12, 0, NULL);
    list("listing, no bytes", handed, 0, 12, 0, NULL);
    pairs(bytes, bad, 6);
    list("listing of a table that is not good", handed, strlen(bad_text), 0, 0, bad_text);
    list("listing of a table that is not good, a byte less", handed, strlen(bad_text) - 1, 12, 0, NULL);
    handed = (struct handed){no_table, strlen(no_table), bytes, pairs(bytes, opened, 6)};
    list("listing where no table is good", handed, exact, 0, 0, text);
    for (size_t i = 0; i < sizeof other_lengths / sizeof other_lengths[0]; i++) {
        handed = (struct handed){example, strlen(example), bytes, other_lengths[i]};
        list("listing, 11", handed, ROOM, 11, 0, NULL);
        list("listing, 11 before 12", handed, 0, 11, 0, NULL);
    }
    handed = (struct handed){weights, strlen(weights), bytes, pairs(bytes, weights_opened, 12)};
    list("listing, two letters", handed, strlen(weights_listing), 0, 0, weights_listing);
    handed = (struct handed){high, strlen(high), bytes, pairs(bytes, high_opened, 2)};
    list("listing, no signal", handed, strlen(high_text), 0, 0, high_text);
}

/* 16 names of eight letters, four signals, and minutes of five digits: no listing is longer. */
static void longest_listing(void)
{
    static char sheet[OPENING_SHEET_MOST], text[OPENING_SHEET_MOST];
    static uint8_t bytes[OPENING_TABLE_MOST];
    size_t end = (size_t)sprintf(sheet, "horizon,60\nevents,16\n"), at = (size_t)sprintf(text, "case");
    for (int i = 0; i < 16; i++) {
        end += (size_t)sprintf(sheet + end, "eventno%c\n", 'a' + i);
        at += (size_t)sprintf(text + at, ",eventno%c", 'a' + i);
    }
    end += (size_t)sprintf(sheet + end, "signals,4\na,eventnoa\nb,eventnob\nc,eventnoc\nd,eventnod\nrules,0\n");
    at += (size_t)sprintf(text + at, "\n");
    for (unsigned s = 0; s < 16; s++) {
        for (unsigned p = 0; p < 4; p++)
            at += (size_t)sprintf(text + at, "%c", s >> p & 1 ? 'T' : 'F');
        for (unsigned u = 0; u < 16; u++) {
            const uint16_t minute = (uint16_t)(65534 - 16 * s - u);
            at += (size_t)sprintf(text + at, ",%u", minute);
            pairs(bytes + 2 * (16 * s + u), &minute, 1);
        }
        at += (size_t)sprintf(text + at, "\n");
    }
    const struct handed handed = {sheet, end, bytes, sizeof bytes};
    expect("longest listing", "its length", at, OPENING_LISTING_MOST);
    list("longest listing, exact", handed, OPENING_LISTING_MOST, 0, 0, text);
    list("longest listing, a byte less", handed, OPENING_LISTING_MOST - 1, 12, 0, NULL);
    reread("longest listing, read back", sheet, end, printed(text), 512, 0, 0, bytes, 512);
    reread("longest listing, read back, generous", sheet, end, printed(text), 600, 0, 0, bytes, 512);
    reread("longest listing, read back, a byte less", sheet, end, printed(text), 511, 12, 0, NULL, 0);
    reread("longest listing, read back, a pair less", sheet, end, printed(text), 510, 12, 0, NULL, 0);
    reread("longest listing, a byte less of it", sheet, end, (struct printed){text, at - 1}, 512, 18, 17, NULL, 0);
    text[at - 2] = 'x';
    reread("longest listing, its last digit smudged", sheet, end, printed(text), 512, 19, 17, NULL, 0);
}

/* The solver's table of a sheet, listed and read back. */
static void solve_list_and_reread(const char *sheet)
{
    static const char about[] = "solve, list and read back";
    uint8_t table[OPENING_TABLE_MOST], text[OPENING_LISTING_MOST];
    const uint8_t *bytes = (const uint8_t *)sheet;
    uint64_t solved = opening_solve(bytes, strlen(sheet), table, sizeof table);
    expect(about, "the solver's number", opening_number(solved), 0);
    const size_t length = 2 * opening_minutes(solved);
    uint64_t listed = opening_listing(bytes, strlen(sheet), table, length, text, sizeof text);
    expect(about, "the writer's number", opening_number(listed), 0);
    calls += 2;
    const struct printed listing = {(const char *)text, opening_bytes(listed)};
    reread(about, sheet, strlen(sheet), listing, length, 0, 0, table, length);
    reread(about, sheet, strlen(sheet), listing, length + 1, 0, 0, table, length);
    reread(about, sheet, strlen(sheet), listing, OPENING_TABLE_MOST, 0, 0, table, length);
    reread(about, sheet, strlen(sheet), listing, length - 1, 12, 0, NULL, 0);
    reread(about, sheet, strlen(sheet), listing, length - 2, 12, 0, NULL, 0);
}

/* Each table is recovered, whether it is good or not. */
static void listings_read_back(void)
{
    static const char *const solved[] = {example, signal_last, two_signals, weights, four_signals, after_1,
                                         after_2, after_15,    after_60,    slow_pair, high,         duress};
    for (size_t i = 0; i < sizeof solved / sizeof solved[0]; i++)
        solve_list_and_reread(solved[i]);
    reread_minutes("read back, exact", example, example_listing, 12, opened, 6);
    reread_minutes("read back, a byte more", example, example_listing, 13, opened, 6);
    reread_minutes("read back, a pair more", example, example_listing, 14, opened, 6);
    reread_minutes("read back, generous", example, example_listing, OPENING_TABLE_MOST, opened, 6);
    for (size_t length = 0; length < 12; length++)
        reread("read back, too short", example, strlen(example), printed(example_listing), length, 12, 0, NULL, 0);
    reread_minutes("read back, no good table", no_table, example_listing, 12, opened, 6);
    reread_minutes("read back, a table that is not good", example, NAMES "F,-,10,256\nT,9999,10000,0\n", 12,
                   (const uint16_t[]){65535, 10, 256, 9999, 10000, 0}, 6);
    reread_minutes("read back, one to five digits", example, NAMES "F,9,99,999\nT,100,65534,1\n", 12,
                   (const uint16_t[]){9, 99, 999, 100, 65534, 1}, 6);
    reread_minutes("read back, no signal", high, "case,start,door\n-,0,1000\n", 4, high_opened, 2);
    reread_minutes("read back, two letters", weights, weights_listing, 24, weights_opened, 12);
}

/* Listings of document 01's sheet that are turned away: 18 wherever it stands comes before 19. */
static const struct {
    unsigned number, line;
    const char *listing;
} misprinted[] = {
    {18, 1, ""},
    {18, 1, "\n"},
    {18, 1, "case,start,call,door"},
    {18, 1, "Case,start,call,door\nF,0,5,6\nT,0,5,20\n"},
    {18, 1, "case,start,door,call\nF,0,5,6\nT,0,5,20\n"},
    {18, 1, "case,start,call\nF,0,5,6\nT,0,5,20\n"},
    {18, 1, "case,start,call,door,vault\nF,0,5,6\nT,0,5,20\n"},
    {18, 1, "case,start,call,door\r\nF,0,5,6\r\nT,0,5,20\r\n"},
    {18, 1, "F,0,5,6\nT,0,5,20\n"},
    {18, 2, NAMES},
    {18, 2, NAMES "\nF,0,5,6\nT,0,5,20\n"},
    {18, 2, NAMES "T,0,5,20\nF,0,5,6\n"},
    {18, 2, NAMES "f,0,5,6\nT,0,5,20\n"},
    {18, 2, NAMES "FF,0,5,6\nT,0,5,20\n"},
    {18, 2, NAMES "-,0,5,6\nT,0,5,20\n"},
    {18, 2, NAMES ",0,5,6\nT,0,5,20\n"},
    {18, 2, NAMES "F,0,5\nT,0,5,20\n"},
    {18, 2, NAMES "F,0,5,6,\nT,0,5,20\n"},
    {18, 3, NAMES "F,0,5,6\n"},
    {18, 3, NAMES "F,0,5,6\nF,0,5,6\n"},
    {18, 3, NAMES "F,0,05,6\nT,0,5,20"},
    {18, 3, NAMES "F,0,05,6\nt,0,5,20\n"},
    {18, 4, NAMES "F,0,5,6\nT,0,5,20\n\n"},
    {18, 4, NAMES "F,0,05,6\nT,0,5,20\nT,0,5,20\n"},
    {19, 2, NAMES "F,,5,6\nT,0,5,20\n"},
    {19, 2, NAMES "F,0,05,6\nT,0,5,20\n"},
    {19, 2, NAMES "F,-0,5,6\nT,0,5,20\n"},
    {19, 2, NAMES "F,0,-5,6\nT,0,5,20\n"},
    {19, 2, NAMES "F,0,+5,6\nT,0,5,20\n"},
    {19, 2, NAMES "F,0, 5,6\nT,0,5,20\n"},
    {19, 2, NAMES "F,0,5,6\r\nT,0,5,20\r\n"},
    {19, 2, NAMES "F,0,5,65536\nT,0,5,020\n"},
    {19, 2, NAMES "F,0,5,65535\nT,0,5,65536\n"},
    {19, 2, NAMES "F,65535,5,6\nT,0,5,20\n"},
    {19, 2, NAMES "F,0,--,6\nT,0,5,20\n"},
    {19, 2, NAMES "F,0,5, -\nT,0,5,20\n"},
    {19, 3, NAMES "F,0,5,65534\nT,0,5,65536\n"},
    {19, 3, NAMES "F,-,-,-\nT,0,5,65535\n"},
    {19, 3, NAMES "F,1,5,6\nT,0,18446744073709551621,20\n"},
    {19, 3, NAMES "F,0,5,6\nT,0,5,\n"},
};

static void listings_turned_away(void)
{
    for (size_t i = 0; i < sizeof misprinted / sizeof misprinted[0]; i++) {
        const unsigned number = misprinted[i].number, line = misprinted[i].line;
        char about[64];
        sprintf(about, "misprinted listing %u (refusal %u line %u)", (unsigned)i, number, line);
        misread(about, example, printed(misprinted[i].listing), number, line);
    }
    misread("a NUL behind the last row", example, (struct printed){example_listing, sizeof example_listing}, 18, 4);
    misread("the listing of another sheet", signal_last, printed(example_listing), 18, 1);
    misread("the listing of a sheet with two signals", example, printed(weights_listing), 18, 2);
    misread("the listing of a sheet with one signal", weights, printed(example_listing), 18, 2);
}

/* Each byte of the listing written over in turn: a digit of a minute is 19, all else is 18. And the listing cut behind
 * each of its bytes: the line that is not whole, or is missing. */
static void smudged_and_cut(void)
{
    const size_t header = strlen(NAMES), length = strlen(example_listing);
    unsigned line = 1;
    for (size_t i = 0; i < length; i++) {
        static const char smudges[] = {'x', '\0', '\r', (char)200};
        char about[64], text[sizeof example_listing];
        const char byte = example_listing[i];
        sprintf(about, "the listing cut behind %u bytes", (unsigned)i);
        misread(about, example, (struct printed){example_listing, i}, 18, line);
        for (size_t j = 0; j < sizeof smudges; j++) {
            strcpy(text, example_listing);
            text[i] = smudges[j];
            sprintf(about, "byte %u of the listing smudged", (unsigned)i);
            const unsigned number = i >= header && byte >= '0' && byte <= '9' ? 19 : 18;
            misread(about, example, (struct printed){text, length}, number, line);
        }
        if (byte == '\n')
            line++;
    }
}

/* 4,096 bytes are read, 4,097 are not. */
static void long_listings(void)
{
    static char text[OPENING_SHEET_MOST + 1];
    const size_t length = strlen(example_listing);
    memset(text, 'x', sizeof text);
    memcpy(text, example_listing, length);
    misread("a listing of 4,096 bytes", example, (struct printed){text, OPENING_SHEET_MOST}, 18, 4);
    misread("a listing of 4,097 bytes", example, (struct printed){text, OPENING_SHEET_MOST + 1}, 18, 1);
    memset(text, '0', sizeof text);
    memcpy(text, example_listing, length - 1);
    text[OPENING_SHEET_MOST - 1] = '\n';
    misread("4,096 bytes, most of them digits", example, (struct printed){text, OPENING_SHEET_MOST}, 19, 3);
    text[OPENING_SHEET_MOST - 1] = '0';
    text[OPENING_SHEET_MOST] = '\n';
    misread("4,097 bytes, most of them digits", example, (struct printed){text, OPENING_SHEET_MOST + 1}, 18, 1);
}

static void house_forms(void)
{
    static const char form[] = FORM;
    static const char typed[] = "horizon,60\nevents,3\nstart\ncall\ndoor\nsignals,2\nq,call\np,door\nrules,6\n"
                                "min,call,door,0,p!q\nmax,call,door,0,p!q\nmin,start,door,7,-\nmax,call,door,4,!qp\n"
                                "min,start,door,9,-\nmax,start,start,0,q\n";
    static const char merged[] = "horizon,60\nevents,3\nstart\ncall\ndoor\nsignals,2\nq,call\np,door\nrules,4\n"
                                 "max,start,start,0,q\nmax,call,door,0,!qp\nmax,door,start,-9,-\nmax,door,call,0,!qp\n";
    const size_t exact = strlen(form);
    house("house form, exact", example, strlen(example), exact, 0, 0, form);
    house("house form, a byte more", example, strlen(example), exact + 1, 0, 0, form);
    house("house form, generous", example, strlen(example), OPENING_SHEET_MOST, 0, 0, form);
    house("house form, a byte less", example, strlen(example), exact - 1, 12, 0, NULL);
    house("house form, no bytes", example, strlen(example), 0, 12, 0, NULL);
    house("house form of a form", form, strlen(form), exact, 0, 0, form);
    house("house form, shorter than its sheet", typed, strlen(typed), strlen(merged), 0, 0, merged);
    house("house form, shorter than its sheet, a byte less", typed, strlen(typed), strlen(merged) - 1, 12, 0, NULL);
}

/* Only reactions other than 1 are listed, in signal order. */
static void house_forms_of_slow_signals(void)
{
    static const char two_and_one[] = PAIR PAIR_RULES "reactions,2\nq,1\np,2\n";
    static const char pair_rows[] = PAIR "max,call,start,-2,-\nmax,door,start,-20,p\nmax,door,start,-10,q\n";
    char wanted[sizeof pair_rows + 32];
    house("house form, p after 1 minute", after_1, strlen(after_1), strlen(FORM), 0, 0, FORM);
    house("house form, p after 2 minutes", after_2, strlen(after_2), strlen(form_after_2), 0, 0, form_after_2);
    house("house form, a byte less of it", after_2, strlen(after_2), strlen(form_after_2) - 1, 12, 0, NULL);
    house("house form, room for the rules only", after_2, strlen(after_2), strlen(FORM), 12, 0, NULL);
    house("house form of a slow form", form_after_2, strlen(form_after_2), ROOM, 0, 0, form_after_2);
    sprintf(wanted, "%sreactions,1\np,2\n", pair_rows);
    house("house form, only the 2", two_and_one, strlen(two_and_one), strlen(wanted), 0, 0, wanted);
    sprintf(wanted, "%sreactions,2\np,2\nq,3\n", pair_rows);
    house("house form, in signal order", slow_pair, strlen(slow_pair), strlen(wanted), 0, 0, wanted);
    house("house form, in signal order, again", wanted, strlen(wanted), strlen(wanted), 0, 0, wanted);
}

/* 16 events and no signal, up to the rules. */
static size_t head_of_16(char *text)
{
    size_t end = (size_t)sprintf(text, "horizon,60\nevents,16\n");
    for (int i = 0; i < 16; i++)
        end += (size_t)sprintf(text + end, "e%d\n", i);
    return end + (size_t)sprintf(text + end, "signals,0\n");
}

/* One of the rows of sheet_with_rows, each of which has a pair of events of its own. */
static int row(char *text, const char *kind, unsigned left)
{
    int from = 15, to = 0;
    for (unsigned i = 1; i < left; i++) {
        if (++to == from) {
            from--;
            to = 0;
        }
    }
    return sprintf(text, "%s,e%d,e%d,%u,-\n", kind, from, to, left);
}

/* A sheet of so many `fix` rows, behind which so many `max` rows stand, and what it is converted to. */
static void sheet_with_rows(char *sheet, char *converted, unsigned fixes, unsigned others)
{
    size_t end = head_of_16(sheet), at = head_of_16(converted);
    at += (size_t)sprintf(converted + at, "rules,%u\n", 2 * fixes + others);
    end += (size_t)sprintf(sheet + end, "rules,%u\n", fixes + others);
    for (unsigned left = fixes + others; left > 0; left--) {
        const int is_fix = left > others;
        end += (size_t)row(sheet + end, is_fix ? "fix" : "max", left);
        at += (size_t)row(converted + at, "max", left);
        if (is_fix)
            at += (size_t)row(converted + at, "min", left);
    }
}

/* 64 rows may result, 65 may not, and that is said before 12. What results has a form, and it stays as it is. */
static void rows_resulting(void)
{
    static const struct {
        unsigned fixes, others;
    } few[] = {{0, 0}, {0, 9}, {1, 7}, {1, 8}, {4, 1}, {5, 0}, {9, 0}, {1, 9}, {31, 1}, {1, 61}, {32, 0}, {1, 62}, {0, 64}},
      many[] = {{32, 1}, {33, 0}, {1, 63}, {64, 0}, {40, 5}};
    static char sheet[OPENING_SHEET_MOST], converted[2 * OPENING_SHEET_MOST];
    for (size_t i = 0; i < sizeof few / sizeof few[0]; i++) {
        char about[64];
        sheet_with_rows(sheet, converted, few[i].fixes, few[i].others);
        const size_t length = strlen(sheet), exact = strlen(converted);
        sprintf(about, "%u rows of fix and %u others", few[i].fixes, few[i].others);
        convert(about, sheet, length, exact, 0, 0, converted);
        convert(about, sheet, length, exact + 1, 0, 0, converted);
        convert(about, sheet, length, OPENING_SHEET_MOST, 0, 0, converted);
        convert(about, sheet, length, exact - 1, 12, 0, NULL);
        convert(about, sheet, length, length - 1, 12, 0, NULL);
        convert(about, sheet, length, 0, 12, 0, NULL);
        convert(about, converted, exact, exact, 0, 0, converted);
    }
    for (size_t i = 0; i < sizeof many / sizeof many[0]; i++) {
        char about[64];
        sheet_with_rows(sheet, converted, many[i].fixes, many[i].others);
        sprintf(about, "%u rows of fix and %u others", many[i].fixes, many[i].others);
        not_converted(about, sheet, strlen(sheet), 17, 0);
        convert(about, sheet, strlen(sheet), strlen(sheet), 17, 0, NULL);
        strcat(sheet, "reactions,0\ncases,0\n");
        not_converted(about, sheet, strlen(sheet), 17, 0);
        strcat(sheet, "x");
        not_converted("17 behind 10", sheet, strlen(sheet), 10, 23 + many[i].fixes + many[i].others);
    }
}

/* A `max` and a `min` row for each `fix`, and all else byte for byte: labels as they are typed, reactions of 1, lines `-`,
 * and lines that begin with the word but are no rows. */
static void converted_sheets(void)
{
#define WORDS "horizon,60\nevents,3\nrules\nfix\nmax\nsignals,2\np,fix\nq,rules\n"
    static const struct {
        const char *former, *converted;
    } sheets[] = {
        {HEAD TWO "fix,start,door,20,-\n",
         "horizon,60\nevents,3\nstart\ncall\ndoor\nsignals,1\np,call\nrules,4\n" TWO
         "max,start,door,20,-\nmin,start,door,20,-\n"},
        {WORDS "rules,3\nfix,fix,max,-3,!qp\nmin,rules,fix,0,q!p\nfix,rules,rules,0,-\n"
               "reactions,2\nq,1\np,60\ncases,3\nrules,-\nfix,-\nmax,p\n",
         WORDS "rules,5\nmax,fix,max,-3,!qp\nmin,fix,max,-3,!qp\nmin,rules,fix,0,q!p\nmax,rules,rules,0,-\n"
               "min,rules,rules,0,-\nreactions,2\nq,1\np,60\ncases,3\nrules,-\nfix,-\nmax,p\n"},
        {WORDS "rules,0\nreactions,0\ncases,2\nfix,-\nmax,p\n", WORDS "rules,0\nreactions,0\ncases,2\nfix,-\nmax,p\n"},
        {example, example},
        {duress, duress},
    };
    for (size_t i = 0; i < sizeof sheets / sizeof sheets[0]; i++) {
        const char *former = sheets[i].former, *converted = sheets[i].converted;
        const size_t exact = strlen(converted);
        char about[64];
        sprintf(about, "converted sheet %u", (unsigned)i);
        convert(about, former, strlen(former), exact, 0, 0, converted);
        convert(about, former, strlen(former), exact + 1, 0, 0, converted);
        convert(about, former, strlen(former), ROOM, 0, 0, converted);
        convert(about, former, strlen(former), exact - 1, 12, 0, NULL);
        convert(about, former, strlen(former), 0, 12, 0, NULL);
        convert(about, converted, exact, exact, 0, 0, converted);
    }
}

/* Trial 4 of document 01: converted, then solved and judged. */
static void fourth_trial(void)
{
    static const char former[] = HEAD TWO "fix,start,door,20,-\n";
    uint8_t room[OPENING_SHEET_MOST];
    uint64_t answer = opening_convert((const uint8_t *)former, strlen(former), room, sizeof room);
    calls++;
    expect("trial 4", "the number", opening_number(answer), 0);
    char sheet[OPENING_SHEET_MOST + 1] = "";
    memcpy(sheet, room, opening_bytes(answer));
    solve("trial 4", sheet, strlen(sheet), 12, 0, 0, 2, (const uint16_t[]){0, 5, 20, 0, 5, 20}, 6);
    judge("trial 4, a minute sooner", sheet, (const uint16_t[]){0, 5, 19, 0, 5, 20}, 6, OPENING_RULE, 0, 3, 0);
    judge("trial 4, a minute later", sheet, (const uint16_t[]){0, 5, 20, 0, 5, 21}, 6, OPENING_RULE, 1, 2, 0);
}

/* 64 rows, as many as are left at most: half of them typed from their other end, the last first. */
static void rows_left(void)
{
    static char sheet[OPENING_SHEET_MOST], form[OPENING_SHEET_MOST];
    size_t end = head_of_16(sheet), at = head_of_16(form);
    end += (size_t)sprintf(sheet + end, "rules,64\n");
    at += (size_t)sprintf(form + at, "rules,64\n");
    for (int i = 0; i < 64; i++) {
        const int j = 63 - i, from = 12 + j / 16, to = j % 16;
        at += (size_t)sprintf(form + at, "max,e%d,e%d,%d,-\n", 12 + i / 16, i % 16, i - 32);
        if (i % 2 == 0)
            end += (size_t)sprintf(sheet + end, "max,e%d,e%d,%d,-\n", from, to, j - 32);
        else
            end += (size_t)sprintf(sheet + end, "min,e%d,e%d,%d,-\n", to, from, 32 - j);
    }
    house("64 rows, exact", sheet, end, at, 0, 0, form);
    house("64 rows, a byte less", sheet, end, at - 1, 12, 0, NULL);
    house("64 rows, no bytes", sheet, end, 0, 12, 0, NULL);
}

/* 16 events, 4 signals: 256 minutes in 512 bytes, so that both bytes of their count are used. Event i waits for minute
 * i, so the first round makes the table, and 16 * (15 * 60 - 120) minutes are left of the horizon. */
static void largest_table(void)
{
    static char sheet[OPENING_SHEET_MOST];
    static uint16_t minutes[256];
    size_t end = (size_t)sprintf(sheet, "horizon,60\nevents,16\nstart\n");
    for (int i = 1; i < 16; i++)
        end += (size_t)sprintf(sheet + end, "e%d\n", i);
    end += (size_t)sprintf(sheet + end, "signals,4\na,e1\nb,e2\nc,e3\nd,e4\nrules,15\n");
    for (int i = 1; i < 16; i++)
        end += (size_t)sprintf(sheet + end, "min,start,e%d,%d,-\n", i, i);
    play(sheet, 16, "abcd", (const unsigned[]){1, 2, 3, 4});
    for (size_t i = 0; i < 256; i++)
        minutes[i] = (uint16_t)(i % 16);
    solve("256 minutes, exact", sheet, end, 512, 0, 0, 2, minutes, 256);
    solve("256 minutes, generous", sheet, end, 600, 0, 0, 2, minutes, 256);
    solve("256 minutes, a pair less", sheet, end, 510, 12, 0, 0, NULL, 0);
    judge("256 minutes", sheet, minutes, 256, OPENING_PASS, 0, 0, 0);
    within_lengths("256 minutes, as a floor", sheet, 1, 512, (struct within){0, 0, 1, 0, 12480, minutes, 256});
    within_lengths("256 minutes, as a table", sheet, 2, 512, (struct within){0, 0, 0, 2, 0, minutes, 256});
    minutes[255] = 61;
    judge("the last of 256 late", sheet, minutes, 256, OPENING_LATE, 15, 15, 0);
    minutes[255] = 14;
    judge("the last rule broken in the last case", sheet, minutes, 256, OPENING_RULE, 15, 14, 0);
}

#define TWO_EVENTS "events,2\na\nb\nsignals,0\n"

/* b one later in each round, up to the horizon, which the round behind passes */
static const char climb[] = "horizon,60\n" TWO_EVENTS "rules,1\nmin,b,b,1,-\n";
static const char short_climb[] = "horizon,0\n" TWO_EVENTS "rules,1\nmin,b,b,1,-\n";
/* by 7 in each round: 7, 14, .., 56, 63 */
static const char steps[] = "horizon,60\n" TWO_EVENTS "rules,1\nmin,b,b,7,-\n";
/* the start itself: 0 is its limit, whatever the horizon */
static const char start[] = "horizon,60\n" TWO_EVENTS "rules,1\nmin,a,a,1,-\n";
/* the start is raised where b is later than 40: by the round behind the one in which b has reached 41 */
static const char held[] = "horizon,60\n" TWO_EVENTS "rules,2\nmin,b,b,1,-\nmax,a,b,40,-\n";
/* each one later than the other before the round, so both one later in each */
static const char pair[] = "horizon,60\nevents,3\na\nb\nc\nsignals,0\nrules,2\nmin,b,c,1,-\nmin,c,b,1,-\n";
/* a chain: b reaches its minute in the first round, c in the second, d in the third; the one behind raises nothing */
static const char chain[] = "horizon,60\nevents,4\na\nb\nc\nd\nsignals,0\nrules,3\n"
                            "min,c,d,1,-\nmin,b,c,1,-\nmin,a,b,1,-\n";
/* the same chain typed from its end, as `max` rows */
static const char turned[] = "horizon,60\nevents,4\na\nb\nc\nd\nsignals,0\nrules,3\n"
                             "max,d,c,-1,-\nmax,c,b,-1,-\nmax,b,a,-1,-\n";
/* b and c drive each other while the cases can't be told apart, that is until 51. A minute takes four rounds: b is
 * raised where p is false, then where it is true, then c there, then c where p is false. The last is b, to 52 in
 * round 4 * 51 + 1, and the round behind it raises nothing. */
static const char until_heard[] = "horizon,60\nevents,4\na\nkey\nb\nc\nsignals,1\np,key\nrules,3\n"
                                  "min,a,key,50,-\nmin,b,c,0,p\nmin,c,b,1,!p\n";

/* How long a sheet keeps the solver: the start's own row, a climb that a signal ends, and one that a limit ends. */
static void counted_rounds(void)
{
    solve("a climb", climb, strlen(climb), 4, 13, 0, 61, NULL, 0);
    solve("a climb, a pair less", climb, strlen(climb), 2, 12, 0, 0, NULL, 0);
    solve("a climb, no bytes", climb, strlen(climb), 0, 12, 0, 0, NULL, 0);
    solve("a climb to 0", short_climb, strlen(short_climb), 4, 13, 0, 1, NULL, 0);
    solve("steps of 7", steps, strlen(steps), 4, 13, 0, 9, NULL, 0);
    solve("the start raised", start, strlen(start), 4, 13, 0, 1, NULL, 0);
    solve("the start raised at last", held, strlen(held), 4, 13, 0, 42, NULL, 0);
    solve("two that climb", pair, strlen(pair), 6, 13, 0, 61, NULL, 0);
    solve("a chain", chain, strlen(chain), 8, 0, 0, 4, (const uint16_t[]){0, 1, 2, 3}, 4);
    solve("a chain, turned about", turned, strlen(turned), 8, 0, 0, 4, (const uint16_t[]){0, 1, 2, 3}, 4);
    solve("until it is heard", until_heard, strlen(until_heard), 16, 0, 0, 206,
          (const uint16_t[]){0, 50, 52, 51, 0, 50, 51, 51}, 8);
}

/* One that climbs of 16 events in 16 cases: the other cells stay 0. */
#define SIXTEEN "events,16\na\nb\nc\nd\ne\nf\ng\nh\ni\nj\nk\nl\nm\nn\no\np\n"
static const char broad_climb[] = "horizon,10080\n" SIXTEEN "signals,4\nw,b\nx,c\ny,d\nz,e\n"
                                  "rules,1\nmin,p,p,1,-\n";

/* Floors after so many rounds, fewer than the run takes, and the sum of what is left of the horizon beside each, over
 * the events but the start, and not over blanks. */
static const struct {
    const char *sheet;
    uint32_t limit;
    unsigned left;
    size_t count;
    uint16_t minutes[8];
} floors[] = {
    /* The call comes to 5 and, where p is true, the door to 15; then the door to 20 there, and to 6 where p is false,
     * as p counts from then on. The third round raises nothing: 55 + 60 + 55 + 45, and 55 + 54 + 55 + 40. */
    {example, 1, 215, 6, {0, 5, 0, 0, 5, 15}},
    {example, 2, 204, 6, {0, 5, 6, 0, 5, 20}},
    /* The same: it is the third round in which the start is to come at 1, since the door is at 20 and not at 19. */
    {no_table, 1, 215, 6, {0, 5, 0, 0, 5, 15}},
    {no_table, 2, 204, 6, {0, 5, 6, 0, 5, 20}},
    /* With a reaction of 15 the door, where p is false, follows where it is true: to 15, then to 20. */
    {after_15, 1, 215, 6, {0, 5, 0, 0, 5, 15}},
    {after_15, 2, 195, 6, {0, 5, 15, 0, 5, 20}},
    {after_15, 3, 190, 6, {0, 5, 20, 0, 5, 20}},
    /* The key comes to 5, and what happens only where p is true to 3, then to 8: 55 + 55 + 57, then 55 + 55 + 52. */
    {duress, 1, 167, 6, {0, 5, 65535, 0, 5, 3}},
    {duress, 2, 162, 6, {0, 5, 65535, 0, 5, 8}},
    {high, 1, 9080, 2, {0, 1000}},
    {climb, 1, 59, 2, {0, 1}},
    {climb, 37, 23, 2, {0, 37}},
    {climb, 59, 1, 2, {0, 59}},
    {climb, 60, 0, 2, {0, 60}},
    {steps, 1, 53, 2, {0, 7}},
    {steps, 8, 4, 2, {0, 56}},
    {held, 40, 20, 2, {0, 40}},
    {held, 41, 19, 2, {0, 41}},
    {pair, 1, 118, 3, {0, 1, 1}},
    {pair, 60, 0, 3, {0, 60, 60}},
    {chain, 1, 177, 4, {0, 1, 1, 1}},
    {chain, 2, 175, 4, {0, 1, 2, 2}},
    {chain, 3, 174, 4, {0, 1, 2, 3}},
    {turned, 2, 175, 4, {0, 1, 2, 2}},
    /* The key at 50 leaves 10 in each case. b and c stand at 25 in both after 4 * 25 rounds; then b comes to 26 where p
     * is false, then where it is true, then c there, then c where p is false. */
    {until_heard, 1, 259, 8, {0, 50, 1, 0, 0, 50, 0, 0}},
    {until_heard, 100, 160, 8, {0, 50, 25, 25, 0, 50, 25, 25}},
    {until_heard, 101, 159, 8, {0, 50, 26, 25, 0, 50, 25, 25}},
    {until_heard, 102, 158, 8, {0, 50, 26, 25, 0, 50, 26, 25}},
    {until_heard, 103, 157, 8, {0, 50, 26, 25, 0, 50, 26, 26}},
    {until_heard, 104, 156, 8, {0, 50, 26, 26, 0, 50, 26, 26}},
    {until_heard, 204, 56, 8, {0, 50, 51, 51, 0, 50, 51, 51}},
    {until_heard, 205, 55, 8, {0, 50, 52, 51, 0, 50, 51, 51}},
};

static void floors_by_hand(void)
{
    for (size_t i = 0; i < sizeof floors / sizeof floors[0]; i++) {
        const struct within asked = {0, 0, 1, 0, floors[i].left, floors[i].minutes, floors[i].count};
        char about[64];
        sprintf(about, "floor %u, after %u rounds", (unsigned)i, (unsigned)floors[i].limit);
        within_lengths(about, floors[i].sheet, floors[i].limit, 2 * floors[i].count, asked);
    }
}

/* Runs that finish within so many rounds: how many they take, and the table, unless there is none. */
static const struct {
    const char *sheet;
    unsigned rounds;
    size_t count;
    uint16_t minutes[8];
    int none;
} finished[] = {
    {example, 3, 6, {0, 5, 6, 0, 5, 20}, 0},
    {no_table, 3, 6, {0}, 1},
    {after_15, 4, 6, {0, 5, 20, 0, 5, 20}, 0},
    {duress, 3, 6, {0, 5, 65535, 0, 5, 8}, 0},
    {high, 2, 2, {0, 1000}, 0},
    {climb, 61, 2, {0}, 1},
    {short_climb, 1, 2, {0}, 1},
    {steps, 9, 2, {0}, 1},
    {start, 1, 2, {0}, 1},
    {held, 42, 2, {0}, 1},
    {pair, 61, 3, {0}, 1},
    {chain, 4, 4, {0, 1, 2, 3}, 0},
    {turned, 4, 4, {0, 1, 2, 3}, 0},
    {until_heard, 206, 8, {0, 50, 52, 51, 0, 50, 51, 51}, 0},
};

/* Within as many rounds as it takes, or more, those too whose low bits are all 0; and within none: that is 23, with a
 * table and without, unless it is 12. */
static void finished_by_hand(void)
{
    static const uint32_t limits[] = {0, 1, 256, 65536, 16777216, 2147483648u, UINT32_MAX};
    for (size_t i = 0; i < sizeof finished / sizeof finished[0]; i++) {
        const int none = finished[i].none;
        const size_t count = none ? 0 : finished[i].count;
        const struct within asked = {none ? 13 : 0, 0, 0, finished[i].rounds, 0, finished[i].minutes, count};
        const size_t exact = 2 * finished[i].count;
        char about[64];
        for (size_t j = 0; j < sizeof limits / sizeof limits[0]; j++) {
            const uint32_t limit = limits[j] < 256 ? finished[i].rounds + limits[j] : limits[j];
            sprintf(about, "finished %u, within %u rounds", (unsigned)i, (unsigned)limit);
            within_lengths(about, finished[i].sheet, limit, exact, asked);
        }
        sprintf(about, "finished %u, within 0 rounds", (unsigned)i);
        within_lengths(about, finished[i].sheet, 0, exact, (struct within){23, 0, 0, 0, 0, NULL, 0});
    }
}

/* Of 240 cells 16 are raised by 1 in each round: 240 * 10080 is 2419200. */
static void broad_floors(void)
{
    static const uint32_t limits[] = {1, 5000, 10079, 10080};
    static const unsigned left[] = {2419184, 2339200, 2257936, 2257920};
    static const struct within none = {13, 0, 0, 10081, 0, NULL, 0};
    for (size_t i = 0; i < sizeof limits / sizeof limits[0]; i++) {
        uint16_t minutes[256] = {0};
        for (size_t s = 0; s < 16; s++)
            minutes[16 * s + 15] = (uint16_t)limits[i];
        const struct within asked = {0, 0, 1, 0, left[i], minutes, 256};
        within_lengths("a broad climb", broad_climb, limits[i], 512, asked);
    }
    within_lengths("a broad climb, to its end", broad_climb, 10081, 512, none);
}

/* The heaviest sheets by hand, and how many rounds they take: (n - 1) * H + 1. */
static const struct {
    const char *line, *sheet;
    unsigned rounds;
} heaviest[] = {
    {"2,0\n", "horizon,0\nevents,2\na\nb\nsignals,0\nrules,1\nmin,b,b,1,-\n", 1},
    {"2,10080\n", "horizon,10080\nevents,2\na\nb\nsignals,0\nrules,1\nmin,b,b,1,-\n", 10081},
    {"3,7\n", "horizon,7\nevents,3\na\nb\nc\nsignals,0\nrules,2\nmin,b,c,0,-\nmin,c,b,1,-\n", 15},
    {"4,60\n",
     "horizon,60\nevents,4\na\nb\nc\nd\nsignals,0\nrules,3\nmin,b,c,0,-\nmin,c,d,0,-\nmin,d,b,1,-\n", 181},
    {"11,100\n",
     "horizon,100\nevents,11\na\nb\nc\nd\ne\nf\ng\nh\ni\nj\nk\nsignals,0\nrules,10\n"
     "min,b,c,0,-\nmin,c,d,0,-\nmin,d,e,0,-\nmin,e,f,0,-\nmin,f,g,0,-\nmin,g,h,0,-\nmin,h,i,0,-\n"
     "min,i,j,0,-\nmin,j,k,0,-\nmin,k,b,1,-\n", 1001},
    {"16,10080\n",
     "horizon,10080\nevents,16\na\nb\nc\nd\ne\nf\ng\nh\ni\nj\nk\nl\nm\nn\no\np\nsignals,0\nrules,15\n"
     "min,b,c,0,-\nmin,c,d,0,-\nmin,d,e,0,-\nmin,e,f,0,-\nmin,f,g,0,-\nmin,g,h,0,-\nmin,h,i,0,-\n"
     "min,i,j,0,-\nmin,j,k,0,-\nmin,k,l,0,-\nmin,l,m,0,-\nmin,m,n,0,-\nmin,n,o,0,-\nmin,o,p,0,-\n"
     "min,p,b,1,-\n", 151201},
};

static void heaviest_sheets(void)
{
    for (size_t i = 0; i < sizeof heaviest / sizeof heaviest[0]; i++) {
        const char *line = heaviest[i].line, *sheet = heaviest[i].sheet;
        const size_t length = strlen(line), exact = strlen(sheet);
        char about[64];
        sprintf(about, "heaviest sheet %u", (unsigned)i);
        ring(about, line, length, exact, 0, 0, sheet);
        ring(about, line, length, exact + 1, 0, 0, sheet);
        ring(about, line, length, OPENING_SHEET_MOST, 0, 0, sheet);
        for (size_t room = 0; room < exact; room++)
            ring(about, line, length, room, 12, 0, NULL);
        solve(about, sheet, exact, OPENING_TABLE_MOST, 13, 0, heaviest[i].rounds, NULL, 0);
        solve(about, sheet, exact, 2, 12, 0, 0, NULL, 0);
        house(about, sheet, exact, 0, 12, 0, NULL);
    }
    expect("heaviest sheets", "the longest", strlen(heaviest[5].sheet), 255);
}

/* Floors of the heaviest sheets, each by its place: a round raises one event by a minute, b first and then the next in
 * turn, so the sum is (n - 1) * H less the rounds. */
static const struct {
    size_t sheet;
    uint32_t limit;
    unsigned left;
    size_t count;
    uint16_t minutes[16];
} heavy_floors[] = {
    {1, 1, 10079, 2, {0, 1}},
    {1, 10080, 0, 2, {0, 10080}},
    {2, 14, 0, 3, {0, 7, 7}},
    {2, 13, 1, 3, {0, 7, 6}},
    {3, 1, 179, 4, {0, 1, 0, 0}},
    {3, 2, 178, 4, {0, 1, 1, 0}},
    {3, 3, 177, 4, {0, 1, 1, 1}},
    {3, 4, 176, 4, {0, 2, 1, 1}},
    {3, 100, 80, 4, {0, 34, 33, 33}},
    {3, 101, 79, 4, {0, 34, 34, 33}},
    {3, 102, 78, 4, {0, 34, 34, 34}},
    {3, 180, 0, 4, {0, 60, 60, 60}},
    {4, 555, 445, 11, {0, 56, 56, 56, 56, 56, 55, 55, 55, 55, 55}},
    {5, 65535, 85665, 16,
     {0, 4369, 4369, 4369, 4369, 4369, 4369, 4369, 4369, 4369, 4369, 4369, 4369, 4369, 4369, 4369}},
    {5, 65536, 85664, 16,
     {0, 4370, 4369, 4369, 4369, 4369, 4369, 4369, 4369, 4369, 4369, 4369, 4369, 4369, 4369, 4369}},
    {5, 75007, 76193, 16,
     {0, 5001, 5001, 5001, 5001, 5001, 5001, 5001, 5000, 5000, 5000, 5000, 5000, 5000, 5000, 5000}},
    {5, 151199, 1, 16,
     {0, 10080, 10080, 10080, 10080, 10080, 10080, 10080, 10080, 10080, 10080, 10080, 10080, 10080, 10080, 10079}},
    {5, 151200, 0, 16,
     {0, 10080, 10080, 10080, 10080, 10080, 10080, 10080, 10080, 10080, 10080, 10080, 10080, 10080, 10080, 10080}},
};

static void floors_of_heaviest_sheets(void)
{
    for (size_t i = 0; i < sizeof heavy_floors / sizeof heavy_floors[0]; i++) {
        const struct within asked = {0, 0, 1, 0, heavy_floors[i].left, heavy_floors[i].minutes, heavy_floors[i].count};
        char about[64];
        const char *sheet = heaviest[heavy_floors[i].sheet].sheet;
        const uint32_t limit = heavy_floors[i].limit;
        sprintf(about, "heaviest sheet %u, after %u rounds", (unsigned)heavy_floors[i].sheet, (unsigned)limit);
        within_lengths(about, sheet, limit, 2 * heavy_floors[i].count, asked);
    }
    for (size_t i = 0; i < sizeof heaviest / sizeof heaviest[0]; i++) {
        const char *sheet = heaviest[i].sheet;
        const struct within none = {13, 0, 0, heaviest[i].rounds, 0, NULL, 0};
        solve_within("heaviest sheet, to its end", sheet, strlen(sheet), heaviest[i].rounds, 32, none);
        solve_within("heaviest sheet, to its end", sheet, strlen(sheet), UINT32_MAX, 32, none);
    }
}

/* Lines that are turned away, each whatever room is lent. */
static const struct {
    unsigned number, refused_line;
    const char *line;
} turned_away[] = {
    {2, 1, ""},          {2, 1, "4,60"},        {2, 1, "4"},         {2, 1, "010,10081"},  {2, 1, "4,60\r"},
    {3, 1, "\n"},        {3, 1, "4\n"},         {3, 1, "4,60,\n"},   {3, 1, "4,60,1\n"},  {3, 1, "4;60\n"},
    {3, 1, ",,\n"},      {3, 1, "010\n"},       {3, 1, "17,10081,0\n"}, {3, 1, "4\n60\n"},
    {4, 1, ",\n"},       {4, 1, "4,\n"},        {4, 1, ",60\n"},     {4, 1, "04,60\n"},   {4, 1, "4,060\n"},
    {4, 1, "4,-0\n"},    {4, 1, "+4,60\n"},     {4, 1, "4, 60\n"},   {4, 1, "4 ,60\n"},   {4, 1, "4,60\r\n"},
    {4, 1, "n,H\n"},     {4, 1, "1,060\n"},     {4, 1, "17,-0\n"},   {4, 1, "04,10081\n"}, {4, 1, ",-1\n"},
    {4, 1, "-,10081\n"}, {4, 1, "horizon,60\n"}, {4, 1, "4,6O\n"},   {4, 1, "18446744073709551620,x\n"},
    {5, 1, "1,60\n"},    {5, 1, "17,60\n"},     {5, 1, "0,60\n"},    {5, 1, "-4,60\n"},   {5, 1, "4,10081\n"},
    {5, 1, "4,-1\n"},    {5, 1, "1,10081\n"},   {5, 1, "60,4\n"},    {5, 1, "65540,60\n"}, {5, 1, "4,65596\n"},
    {5, 1, "4294967300,60\n"}, {5, 1, "4,18446744073709551676\n"},   {5, 1, "99999999999999999999999999999999,0\n"},
    {10, 2, "4,60\n\n"}, {10, 2, "4,60\nx"},    {10, 2, "2,0\n2,0\n"}, {10, 2, "4,60\n\r\n"}, {10, 2, "16,10080\n "},
    {3, 1, "\n4,60\n"},  {4, 1, "04,60\nx"},    {5, 1, "17,60\n\n"}, {3, 1, "4,60,1\n4,60\n"},
};

static void lines_turned_away(void)
{
    static char line[OPENING_SHEET_MOST + 1];
    for (size_t i = 0; i < sizeof turned_away / sizeof turned_away[0]; i++) {
        char about[64];
        sprintf(about, "line %u (refusal %u)", (unsigned)i, turned_away[i].number);
        not_ringed(about, turned_away[i].line, strlen(turned_away[i].line), turned_away[i].number,
                   turned_away[i].refused_line);
    }
    not_ringed("a NUL behind the line", "4,60\n", 6, 10, 2);
    not_ringed("a NUL for the feed", "4,60", 5, 2, 1);
    memset(line, '1', sizeof line);
    not_ringed("4,096 digits", line, OPENING_SHEET_MOST, 2, 1);
    not_ringed("4,097 digits", line, OPENING_SHEET_MOST + 1, 1, 0);
    memcpy(line, "4,", 2);
    line[OPENING_SHEET_MOST - 1] = '\n';
    not_ringed("4,096 bytes, most of them digits", line, OPENING_SHEET_MOST, 5, 1);
    not_ringed("4,096 bytes, and one behind", line, OPENING_SHEET_MOST + 1, 1, 0);
    line[2] = '0';
    not_ringed("4,096 bytes, a leading zero", line, OPENING_SHEET_MOST, 4, 1);
    memcpy(line, "4,60\n", 5);
    not_ringed("4,096 bytes, most of them behind", line, OPENING_SHEET_MOST, 10, 2);
    not_ringed("4,097 bytes, most of them behind", line, OPENING_SHEET_MOST + 1, 1, 0);
}

/* A line's sheet, handed on to the solver as it is. */
static void ring_then_solve(const char *line, unsigned rounds)
{
    static const char about[] = "ring, then solve";
    uint8_t sheet[OPENING_SHEET_MOST], table[OPENING_TABLE_MOST];
    uint64_t written = opening_ring((const uint8_t *)line, strlen(line), sheet, sizeof sheet);
    expect(about, "the writer's number", opening_number(written), 0);
    uint64_t solved = opening_solve(sheet, opening_bytes(written), table, sizeof table);
    expect(about, "the solver's number", opening_number(solved), 13);
    expect(about, "the line", opening_line(solved), 0);
    expect(about, "the count of minutes", opening_minutes(solved), 0);
    expect(about, "the count of rounds", opening_rounds(solved), rounds);
    calls += 2;
}

/* What the solver wrote, after so many rounds, handed on to the judge as it is. */
static void solve_then_judge(const char *sheet, unsigned rounds)
{
    uint8_t table[OPENING_TABLE_MOST];
    const uint8_t *bytes = (const uint8_t *)sheet;
    uint64_t solved = opening_solve(bytes, strlen(sheet), table, sizeof table);
    expect("solve, then judge", "the number", opening_number(solved), 0);
    expect("solve, then judge", "the count of rounds", opening_rounds(solved), rounds);
    uint64_t judged = opening_judge(bytes, strlen(sheet), table, 2 * opening_minutes(solved));
    expect("solve, then judge", "the judge's answer", judged, 0);
    calls += 2;
}

int main(void)
{
    readers();
    readers_bit_by_bit();
    solver_lengths();
    solver_trials();
    slow_signals();
    solver_without_table();
    refused_sheets();
    long_sheets();
    breaches();
    signal_of_its_own_case();
    two_signals_apart();
    judge_lengths();
    largest_table();
    played_tables();
    questions();
    slow_questions();
    labelled_events();
    questions_turned_away();
    listings();
    longest_listing();
    listings_read_back();
    listings_turned_away();
    smudged_and_cut();
    long_listings();
    house_forms();
    house_forms_of_slow_signals();
    rows_left();
    outdated_sheets();
    converted_sheets();
    rows_resulting();
    fourth_trial();
    counted_rounds();
    floors_by_hand();
    finished_by_hand();
    broad_floors();
    heaviest_sheets();
    floors_of_heaviest_sheets();
    lines_turned_away();
    for (size_t i = 0; i < sizeof heaviest / sizeof heaviest[0]; i++)
        ring_then_solve(heaviest[i].line, heaviest[i].rounds);
    solve_then_judge(example, 3);
    solve_then_judge(signal_last, 1);
    solve_then_judge(two_signals, 1);
    solve_then_judge(high, 2);
    solve_then_judge(after_60, 3);
    solve_then_judge(slow_pair, 3);
    solve_then_judge(duress, 3);
    printf("bench: %u calls, all answers and all lent bytes as the papers ask\n", calls);
    return 0;
}
