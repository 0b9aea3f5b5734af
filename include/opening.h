/* opening.h: opening tables for time lock procedures, called from C (C99 or later) or C++.
 *
 * The sheet
 *
 * A sheet is ASCII text. Each line ends with a line feed, and one comma stands between its fields; there are no spaces. A CR
 * is a byte like any other and so is refused: read files in binary mode. The length is handed in, so no NUL is needed behind
 * the sheet, and one that is counted is refused. The lines stand in this order:
 *
 *     horizon,H     H from 0 to 10,080, the last minute
 *     events,n      n from 1 to 16; then n lines, each a name: a letter from a to z, then at most seven letters from a to z
 *                   or digits. The first event is the start
 *     signals,k     k from 0 to 4; then k lines `letter,event`, the letter from a to z. An event gives at most one signal
 *     rules,m       m from 0 to 64; then m lines `kind,from,to,limit,label`
 *     reactions,r   r from 0 to 4; then r lines `letter,minutes`, minutes from 1 to 60. The sheet may end before this section;
 *                   any byte behind the rules begins it
 *     cases,c       c from 0 to n; then c lines `event,label`. The sheet may end before this section; any byte behind the
 *                   reactions begins it, so where there are none `reactions,0` stands before it
 *
 * Of the difference minute(to) - minute(from) the kind `max` asks that it is at most the limit, and `min` that it is at least
 * the limit, which is from -10,080 to 10,080. A third kind, `fix`, is retired: opening_convert turns sheets that still hold it
 * into sheets of this form, and every other call refuses them. A label is `-` for every case, or letters, each with `!`
 * before it for false: `p!q` means the cases in which p is true and q false. A number is `0`, or digits without a leading
 * zero, with `-` before it if it is negative.
 *
 * A signal's reaction is how many minutes after its event it is trusted. Without a line it is 1; a letter has at most one line.
 *
 * An event with a line among the cases happens where its label holds, and every other event in all cases; an event has at most
 * one line. The start has none but `-`, and the label of an event or a rule that uses a signal has each letter of the label of
 * the event that gives it, with its sign. A signal is given only where its event happens.
 *
 * The table
 *
 * Signal i of the sheet (the first is 0) is true in case c where c >> i & 1: there are 2^k cases. A table has one minute for
 * each event in each case. The minute of event u (the first is 0) in case c is the two bytes from byte 2 * (c * n + u) on, the
 * low byte first. So a table takes 2 * n * 2^k bytes, and never more than OPENING_TABLE_MOST. n and k are those of the sheet's
 * lines: no call hands them out. Where the event does not happen in the case, both bytes are 255: this blank, 65,535, is no
 * minute, and is listed as `-`.
 *
 * A table is good if, first, it has blanks just where events do not happen, no minute is over the horizon, the start is at 0 in
 * each case, and each event that happens comes no sooner than each signal in its label plus that signal's reaction; second, each
 * rule holds in each case of its label in which both its events happen; and third, each event has the same minute in any two
 * cases s and r in which it happens, unless the minute in s of a signal that is given in s and tells them apart, plus the
 * signal's reaction, is at most the event's minute in s: what is given at minute 5 may change what happens from minute 6 on, and
 * with a reaction of 8 from minute 13 on.
 *
 * Signals heard are handed in as text: their letters, each with `!` before it if the signal said false (`p!q`), in any order;
 * nothing, or `-`, for none; no line feed and no NUL.
 *
 * Calls and answers
 *
 * But for the pointers, nothing has to be tested before a call: any bytes may be handed in as a sheet, a listing, a
 * line or text, any length as a table, any minute from 0 to 65,535 and any count of rounds from 0 to 4,294,967,295 (C
 * cuts a wider number before the call). A pointer must point to as many bytes as the length says, and must not be NULL,
 * even if the length is 0. Memory that a call writes into must not overlap any other memory that is handed to the same
 * call. The library keeps no pointer, has no memory of its own between calls and allocates nothing, so calls may run
 * beside each other.
 *
 * Each function answers with a uint64_t of eight bytes. Read it with the functions at the end, each of which says for which
 * answers it is:
 *
 *     byte     opening_solve,         opening_judge     opening_due       opening_listing,    opening_read_listing
 *              opening_solve_within                                       opening_house,
 *                                                                         opening_convert,
 *                                                                         opening_ring
 *     0        number                 number            number            number              number
 *     1, 2     line                   line              line              line                line
 *     3        minutes, low byte      word              events 0 to 7     bytes, low byte     minutes, low byte
 *     4        minutes, high byte     first             events 8 to 15    bytes, high byte    minutes, high byte
 *     5        rounds, low byte       second            0                 0                   0
 *     6        rounds, middle byte    third             0                 0                   0
 *     7        rounds, high byte      0                 0                 0                   0
 *
 * number is 0 if the call was not refused, or says why it was; line is a line of the sheet, with 18 and 19 of the
 * listing, and of opening_ring of what that reads, low byte first; minutes and bytes are as many as were written;
 * rounds are as many as the solver took, or, where opening_solve_within was stopped, what is left, and then the highest
 * bit of byte 7, which neither reaches, is 1; word is 0 pass, 1 Late, 2 Rule or 3 Unheard; of the events due, event u
 * is bit u of the two bytes. Byte 0 is the lowest: (answer & 0xff) is the number. On a refusal all bytes from 3 on are
 * 0, save that the rounds stand beside number 13 too.
 *
 * Rounds
 *
 * The solver begins with 0 in every cell, that is for every event in every case, and makes rounds. In a round each cell
 * takes the greatest of its own value and of what bounds it from below, all of it read off the table as it was before
 * the round:
 *
 *     - a `min` rule sets its `to` at least the limit after its `from`, a `max` rule its `from` at least the minute of
 *       its `to` less the limit, in each case of its label in which both happen;
 *     - each other case in which the event happens sets it at least its minute there or, if that is sooner, the first
 *       minute here at which a signal counts that tells the two cases apart: as long as they can't be told apart, it
 *       comes no sooner here than there. A signal counts its reaction after its event, and only if it is given here;
 *     - each signal in the event's label sets it at least that signal's reaction after the signal's event.
 *
 * Cells without their event take no part. A round that raised nothing ends the run, and the table is the least good
 * one; a round that passed a limit, which is the horizon, or 0 for the start, ends it with number 13. That last round
 * is counted too: a run whose first round raises nothing takes 1. With C the number of cells in which an event other
 * than the start happens, and H the horizon, a run takes at most C * H + 1 rounds. The library need not make each of
 * them, as it may pass over rounds that go on as those before; they are counted all the same.
 *
 * The number of a refusal, and its line (the first line is 1; line 0 where none is to blame). What opening_ring reads
 * is refused as a sheet of one line:
 *
 *      1  the sheet is longer than 4,096 bytes                                                             (line 0)
 *      2  the sheet ends where a line is due, or that line has no line feed: the line that is due, if need be one
 *         behind the last
 *      3  the line has another count of fields, another section word or another kind than its place asks; so has an
 *         empty line, but where a name is due; ring: not two fields
 *      4  an ill-formed number: `010`, `-0`, `+5`, nothing
 *      5  a well-formed number beyond its range, however many digits it has;
 *         ring: n is not from 2 to 16, or H not from 0 to 10,080
 *      6  an ill-formed name, letter or label; an empty line where a name is due
 *      7  a name or letter defined a second time, an event that already gives a signal, a letter that already has a line
 *         among the reactions, or an event that already has one among the cases
 *      8  an event or letter that is not defined
 *      9  a label with one letter twice, with either sign
 *     10  bytes behind the last line of the cases, a lone line feed or a NUL too: the line that they begin; bytes behind
 *         the rules, or behind the reactions, that are no such section are 2 to 5;
 *         ring: bytes behind the line feed                                                                 (line 2)
 *     11  judge, due, listing: not exactly n * 2^k minutes in the table, or an odd number of bytes         (line 0)
 *     12  solve, solve_within, read_listing: the table has fewer than n * 2^k whole pairs of bytes;
 *         listing, house, convert, ring: out is shorter than the text                                      (line 0)
 *     13  solve, solve_within: the sheet is in order, and no good table exists                             (line 0)
 *     14  due: the table does not pass the judge                                                           (line 0)
 *     15  due: the text is not of the form above, or a letter in it is undefined or stands twice, with
 *         either sign                                                                                      (line 0)
 *     16  due: no case has heard exactly this before the minute                                            (line 0)
 *     17  convert: more than 64 rules would result                                                         (line 0)
 *     18  read_listing: the listing is longer than 4,096 bytes (line 1), or the line is not that of this sheet's
 *         listing: another header, another case, another count of fields, no line feed, a line missing (the line that
 *         it would be) or left over
 *     19  read_listing: a minute on the line is ill-formed (`05`, `-0`, `+5`, a space, nothing), negative or over 65,534; a
 *         `-` alone is a blank
 *     20  the start is given a label other than `-`: the last line of the cases
 *     21  an event's or rule's label lacks part of the label of an event whose signal it uses: the last line of the cases
 *     22  the row is a `fix`, which 3 takes for a kind; never of convert
 *     23  solve_within: a count of 0 rounds                                                                (line 0)
 *
 * Of the sheet, 1 is tried before any line; then its first line at fault decides, and on it the lowest number, but 22
 * is tried directly after 3, before 4. 20 and 21 look at all labels, and are tried on the last line of the cases, if
 * that section has lines. A fault of the sheet (1 to 10, 20 to 22) comes before all others. Then each call has its own,
 * in this order: solve 12, 13; solve_within 12, 23, 13; judge 11; due 11, 14, 15, 16; listing 11, 12; house 12; convert
 * 17, 12; read_listing 18, 19, 12, where 18 is tried over the whole listing before any 19. Of ring the order is 1, then
 * on its line 2, 3, 4 and 5, where a 4 in either field is before a 5 in the other, then 10, and then 12.
 *
 * Example, with <stdio.h> and <string.h>:
 *
 *     static const char text[] = "horizon,60\nevents,3\nstart\ncall\ndoor\nsignals,1\np,call\nrules,2\n"
 *                                "min,start,call,5,-\nmin,call,door,15,p\n";
 *     const uint8_t *sheet = (const uint8_t *)text;
 *     uint8_t table[OPENING_TABLE_MOST];
 *
 *     uint64_t early = opening_solve_within(sheet, strlen(text), 1, table, sizeof table);
 *     if (opening_number(early) == 0 && !opening_finished(early))
 *         printf("%u left\n", opening_left(early));                           // prints 215 left
 *
 *     uint64_t solved = opening_solve(sheet, strlen(text), table, sizeof table);
 *     if (opening_number(solved) != 0) {
 *         printf("refused %u line %u\n", opening_number(solved), opening_line(solved));
 *         return 1;
 *     }
 *     for (unsigned i = 0; i < opening_minutes(solved); i++)
 *         printf("%u\n", table[2 * i] + 256u * table[2 * i + 1]);            // prints 0, 5, 6 and 0, 5, 20
 *     printf("%u rounds\n", opening_rounds(solved));                         // prints 3 rounds
 *
 *     uint64_t judged = opening_judge(sheet, strlen(text), table, 2 * opening_minutes(solved));
 *     if (opening_number(judged) == 0 && opening_word(judged) == OPENING_PASS)
 *         puts("good");
 *
 *     const char *heard = "";                                                // nothing so far
 *     for (uint16_t minute = 0; minute <= 60; minute++) {
 *         uint64_t due = opening_due(sheet, strlen(text), table, 2 * opening_minutes(solved), minute,
 *                                    (const uint8_t *)heard, strlen(heard));
 *         if (opening_number(due) != 0)
 *             return 1;
 *         if (opening_events(due) & 1u << 2)
 *             printf("door at %u\n", minute);                                // 20 where p is true, 6 where it is false
 *         if (opening_events(due) & 1u << 1)
 *             heard = caller_says_p() ? "p" : "!p";                          // the call, heard from the next minute on
 *     }
 */

#ifndef OPENING_H
#define OPENING_H

#include <stddef.h>
#include <stdint.h>

#ifdef __cplusplus
extern "C" {
#endif

enum {
    OPENING_SHEET_MOST = 4096,   /* bytes of the longest sheet that is read; none that is written is longer */
    OPENING_TABLE_MOST = 512,    /* bytes of the largest table: 16 events, 16 cases, two bytes each */
    OPENING_LISTING_MOST = 1765, /* bytes of the longest listing: that of such a table, long names, five digits everywhere */
    OPENING_PRINTED_MOST = 4096  /* bytes of the longest listing that is read back; a longer one is refused with 18 */
};

/* The judge's words. */
enum { OPENING_PASS = 0, OPENING_LATE = 1, OPENING_RULE = 2, OPENING_UNHEARD = 3 };

/* Writes the least good table of the sheet, that is the good table in which no event that happens is later than in any other.
 *
 * Whole pairs are counted: of an odd table_len the last byte is not used. If the answer's number is 0, the first
 * 2 * opening_minutes(answer) bytes of the table are written, and all bytes behind them are unaltered; a table longer
 * than needed is no fault. Otherwise the table keeps all its contents. With number 0, and with 13, opening_rounds(answer)
 * says how many rounds it took; with every other number that is 0. */
uint64_t opening_solve(const uint8_t *sheet, size_t sheet_len, uint8_t *table, size_t table_len);

/* Does the same in at most `rounds` rounds. What opening_solve refuses before any round is refused alike. If these
 * rounds are enough, the answer and the table are those of opening_solve, bit for bit, with 13 too, and
 * opening_finished(answer) is 1. Otherwise the run is stopped after the last of them, which raised a cell and passed no
 * limit: the answer's number is 0, opening_finished(answer) is 0, and the table holds a floor, that is each cell's
 * minute after so many rounds, with the blanks of a table.
 *
 * No good table has any event earlier than its floor. opening_left(answer) is the sum, over the cells in which an event
 * other than the start happens, of the horizon minus the floor: at most so many rounds remain, and one more, until the
 * table, or 13, is known. This sum may be 0. A floor need not be good, and the judge may not pass it; where only the
 * round that raises nothing is missing, it is the least good table already.
 *
 * The table is lent as for opening_solve, and a floor takes as many bytes as a table. A count of 0 is refused with 23,
 * after 12 and before 13; with every number but 0 the table keeps all its contents. */
uint64_t opening_solve_within(const uint8_t *sheet, size_t sheet_len, uint32_t rounds, uint8_t *table,
                              size_t table_len);

/* Says whether a table, whoever wrote it, is good for the sheet, and if not, what the first breach is.
 *
 * table_len is the exact number of bytes of the table, and not that of the memory it stands in. Nothing is written. Number 0
 * says only that there is a verdict; opening_word(answer) then is
 *
 *     OPENING_PASS     the table is good
 *     OPENING_LATE     in case opening_first, event opening_second is over the horizon, is the start and not at 0, has a minute
 *                      where it does not happen or a blank where it does, or comes sooner than its label's signals allow
 *     OPENING_RULE     in case opening_first, rule opening_second of the sheet (the first is 0) is broken
 *     OPENING_UNHEARD  in case opening_first, event opening_third has another minute than in case opening_second, in which it
 *                      happens too, although no signal that tells the two cases apart has in case opening_first come at least
 *                      its reaction before that event's minute there
 *
 * All cells are tried for Late first, by case and then event; then all rules, by case and then rule; then the pairs of cases,
 * by the first, the second and then the event. Numbers that a word does not use are 0. */
uint64_t opening_judge(const uint8_t *sheet, size_t sheet_len, const uint8_t *table, size_t table_len);

/* Says which events are due at a minute, for those who have heard exactly these signals before it.
 *
 * A signal is heard before the minute if its event was due its reaction ago or earlier: what is given at 5 is heard from 6 on,
 * and with a reaction of 8 from 13 on. The text must be all that has been heard, and no more, in any order. Two cases that have
 * heard the same get the same events. Nothing is written; table_len is as for the judge. If the answer's number is 0, bit u of
 * opening_events(answer) says whether event u is due. That nothing is due is no fault, nor is a minute over the horizon. An event
 * that does not happen is never due, and its signal never heard.
 *
 * The judge is asked first, at each call: a table that it does not pass is answered with 14 at every minute, whatever has been
 * heard. opening_judge says what is wrong with such a table. */
uint64_t opening_due(const uint8_t *sheet, size_t sheet_len, const uint8_t *table, size_t table_len, uint16_t minute,
                     const uint8_t *heard, size_t heard_len);

/* Writes the listing of a table: a line with `case`, then a comma and a name for each event; and for each case a line with
 * `T` or `F` for each signal (`-` if there is none), then a comma and a minute for each event, `-` for a blank. Each line ends
 * with a line feed.
 *
 * table_len is as for the judge. The table need not be good: any minutes are listed. If the answer's number is 0, the first
 * opening_bytes(answer) bytes of out are the listing, with no NUL behind it, and all bytes behind them are unaltered; an out
 * longer than needed is no fault, and OPENING_LISTING_MOST bytes are always enough. Otherwise out keeps all its contents. */
uint64_t opening_listing(const uint8_t *sheet, size_t sheet_len, const uint8_t *table, size_t table_len, uint8_t *out,
                         size_t out_len);

/* Reads a listing back and writes its table: any table of n * 2^k minutes that opening_listing has listed for this sheet is
 * recovered minute for minute, and what is accepted is listed as the same bytes again. So a listing is accepted if and only if
 * it is the listing of a table, and of one table only. The table need not be good: ask opening_judge.
 *
 * listing_len is the exact number of bytes of the listing; no NUL is needed behind it. Each line ends with a line feed alone: a
 * CR before it is refused, with 18 in the header and with 19 in the line of a case. The table is lent as for opening_solve:
 * whole pairs are counted, and OPENING_TABLE_MOST bytes are always enough. If the answer's number is 0, the first
 * 2 * opening_minutes(answer) bytes of the table are written, and all bytes behind them are unaltered. Otherwise the table
 * keeps all its contents. */
uint64_t opening_read_listing(const uint8_t *sheet, size_t sheet_len, const uint8_t *listing, size_t listing_len,
                              uint8_t *table, size_t table_len);

/* Writes the sheet in its house form: horizon, events and signals as they are, and every rule as a `max` row (a `min` with its
 * ends swapped and its limit negated). Of rows with equal ends and label the one with the least limit stays.
 * They are ordered by `from`, then `to`, in event order, then by the sum of the weights of the label's true letters (signal i
 * has weight 1 << i), then of its false ones; a label's letters stand in signal order. Of the reactions only those other than
 * 1 are listed, in signal order, with no section if there are none; of the cases only the lines whose label is not `-`, in event
 * order, with no section if there are none, and `reactions,0` before it where no reaction is listed.
 *
 * The form is itself a sheet, with the same good tables, and it is its own form; its rules have other places than the sheet's,
 * so a Rule verdict on the one does not name a rule of the other. Two sheets have the same form, byte for byte, if and only if
 * horizons, events, signals, reactions (1 without a line), event labels (`-` without one) and the rows that stay are equal. If the
 * answer's number is 0, the first opening_bytes(answer) bytes of out are the form, with no NUL behind it, and all bytes behind
 * them are unaltered; an out longer than needed is no fault, and OPENING_SHEET_MOST bytes are always enough. Otherwise out keeps
 * all its contents. */
uint64_t opening_house(const uint8_t *sheet, size_t sheet_len, uint8_t *out, size_t out_len);

/* Converts a former sheet, whose rules may be of the kind `fix`: the difference is the limit. It is read by the former rules,
 * those above with that kind, and refused by them: with the number and the line that it would have if each `fix` were a `max`.
 * 17 is answered where more than 64 rules would result, whatever out is.
 * In the converted sheet a `max` and a `min` row stand in the place of each `fix` row, with its other bytes, and the count of
 * the rules is raised; every other byte stays. It has exactly the good tables of the former one. An accepted sheet without
 * `fix` comes back byte for byte. If the answer's number is 0, the first opening_bytes(answer) bytes of out are the converted sheet, with
 * no NUL behind it, and all bytes behind them are unaltered; an out longer than needed is no fault, and OPENING_SHEET_MOST
 * bytes are always enough. Otherwise out keeps all its contents. */
uint64_t opening_convert(const uint8_t *sheet, size_t sheet_len, uint8_t *out, size_t out_len);

/* Reads one line `n,H` and writes the heaviest sheet: of those with n events, the horizon H and no signal it is one
 * that takes the most rounds, exactly (n - 1) * H + 1, and opening_solve answers it with 13.
 *
 * n is from 2 to 16 and H from 0 to 10,080, each a number as in a sheet; the line ends with a line feed, behind which
 * there is nothing. The events are a, b, c and so on; the rules are `min` rows labelled `-`, of 0 from b on to each
 * next event, then of 1 from the last back to b. For the line `4,60` it is
 *
 *     horizon,60
 *     events,4
 *     a
 *     b
 *     c
 *     d
 *     signals,0
 *     rules,3
 *     min,b,c,0,-
 *     min,c,d,0,-
 *     min,d,b,1,-
 *
 * and for two events the one row is `min,b,b,1,-`. The line is refused as a sheet of one line is, with 1 to 5 or 10; 12
 * comes after these. If the answer's number is 0, the first opening_bytes(answer) bytes of out are the sheet, with no
 * NUL behind it, and all bytes behind them are unaltered; an out longer than needed is no fault, and OPENING_SHEET_MOST
 * bytes are always enough (no such sheet takes more than 255). Otherwise out keeps all its contents. */
uint64_t opening_ring(const uint8_t *line, size_t line_len, uint8_t *out, size_t out_len);

/* Of every answer: the number of the refusal, or 0. */
static inline unsigned opening_number(uint64_t answer) { return (unsigned)(answer & 0xff); }

/* Of every answer: the line of the refusal, 0 if there is none. */
static inline unsigned opening_line(uint64_t answer) { return (unsigned)(answer >> 8 & 0xffff); }

/* Of the answers of opening_solve, opening_solve_within and opening_read_listing: how many minutes were written,
 * n * 2^k, or 0 on a refusal. */
static inline unsigned opening_minutes(uint64_t answer) { return (unsigned)(answer >> 24 & 0xffff); }

/* Of the answers of opening_solve and opening_solve_within: how many rounds the solver took, the last one included,
 * with number 13 too; 0 where it was stopped, and with every other refusal. */
static inline uint32_t opening_rounds(uint64_t answer)
{
    return (uint32_t)((1 - (answer >> 63)) * (answer >> 40 & 0x7fffff));
}

/* Of the same: what is left, where it was stopped; otherwise 0. */
static inline uint32_t opening_left(uint64_t answer)
{
    return (uint32_t)((answer >> 63) * (answer >> 40 & 0x7fffff));
}

/* Of the same: 1 where the solver finished, with a table or with 13; 0 where it was stopped, and where it was refused
 * before any round. */
static inline unsigned opening_finished(uint64_t answer) { return opening_rounds(answer) != 0; }

/* Of the answer of opening_due: the events due, bit u for event u. 0 on a refusal too, so look at the number first. */
static inline unsigned opening_events(uint64_t answer) { return (unsigned)(answer >> 24 & 0xffff); }

/* Of the answers of opening_listing, opening_house, opening_convert and opening_ring: how many bytes were written, or 0
 * on a refusal. */
static inline unsigned opening_bytes(uint64_t answer) { return (unsigned)(answer >> 24 & 0xffff); }

/* Of the judge's answer: the word, and its three numbers. All are 0 on a refusal, so look at the number first. */
static inline unsigned opening_word(uint64_t answer) { return (unsigned)(answer >> 24 & 0xff); }
static inline unsigned opening_first(uint64_t answer) { return (unsigned)(answer >> 32 & 0xff); }
static inline unsigned opening_second(uint64_t answer) { return (unsigned)(answer >> 40 & 0xff); }
static inline unsigned opening_third(uint64_t answer) { return (unsigned)(answer >> 48 & 0xff); }

#ifdef __cplusplus
}
#endif

#endif
