#include "years.h"

#include "alerts.h"
#include "calls.h"
#include "handed.h"
#include "replay.h"
#include "times.h"

#include <stdio.h>
#include <string.h>

#define LEAP_DAY 366

/* What the record has for its year. Those before NO_YEAR keep the rules. */
enum way {
    OWN_YEAR, OTHER_YEAR, OTHER_LEAP_YEAR, NO_YEAR, YEAR_1999, YEAR_2100, FAR_YEAR, EXCHANGED, NO_LEAP_YEAR,
    BEHIND_YEAR, NOTICE_YEAR, WITHDRAWAL_YEAR, WAYS
};

static const char *const ways[WAYS] = {
    "aired with the year of its notice", "with another", "on day 366 with another leap year", "without a year",
    "with 1999", "with 2100", "with a number that is further from a year", "with the bytes of its year exchanged",
    "on day 366 with a year that is no leap year", "with a byte behind its year", "a notice with its year",
    "a withdrawal with its year",
};

static unsigned long tried[WAYS];

/* ---- the records */

/* The notice of a weekly test that no made record concerns, on a day of leap years alone where the way asks for it. */
static void make_notice(uint8_t *notice, enum way way)
{
    static struct bytes header;
    int64_t day = way == OTHER_LEAP_YEAR || way == NO_LEAP_YEAR || once_in(8) ? LEAP_DAY : between(1, LEAP_DAY - 1);
    int64_t sent = instant(draw_year(day), day, between(0, DAY - 1));

    memset(notice, 0, RECORD);
    notice[0] = NOTICE;
    place_sent(notice, sent);
    memcpy(notice + SENDER_AT, "bench", 5);
    memcpy(notice + IDENTIFIER_AT, "weekly", 6);
    header.length = 0;
    put(&header, "ZCZC-EAS-RWT-999999+0015-");
    put_moment(&header, sent);
    put_byte(&header, '-');
    memcpy(notice + HEADER_AT, header.byte, header.length);
}

static int64_t draw_other_year(const uint8_t *notice)
{
    int64_t year;

    do
        year = draw_year(day_of(sent_in(notice)));
    while (year == year_in(notice));
    return year;
}

/* A number of two bytes that is no year of 2000 to 2099, none of the two beside these, and not 0. */
static int64_t draw_far_year(void)
{
    static const int64_t borders[] = {1, 0x0700, 0x07ce, 0x0835, 0x0900, 0x17d0, 0x87d0, 0xffff};

    switch (below(3)) {
    case 0:
        return PICK(borders);
    case 1:
        return between(1, FIRST_YEAR - 2);
    default:
        return between(LAST_YEAR + 2, 0xffff);
    }
}

static void exchange(uint8_t *record)
{
    /* Both bytes of 2056 are 8. */
    while (record[YEAR_AT] == record[YEAR_AT + 1])
        place_year(record, draw_year(1));
    place_year(record, record[YEAR_AT + 1] * 256 + record[YEAR_AT]);
}

/* The record beside the notice: most often the aired record of its header, with the year that the way gives it. */
static void make_other(uint8_t *record, const uint8_t *notice, enum way way)
{
    make_aired(record, notice, year_in(notice));
    switch (way) {
    case OWN_YEAR:
        break;
    case OTHER_YEAR:
    case OTHER_LEAP_YEAR:
        place_year(record, draw_other_year(notice));
        break;
    case NO_YEAR:
        place_year(record, 0);
        break;
    case YEAR_1999:
        place_year(record, FIRST_YEAR - 1);
        break;
    case YEAR_2100:
        place_year(record, LAST_YEAR + 1);
        break;
    case FAR_YEAR:
        place_year(record, draw_far_year());
        break;
    case EXCHANGED:
        exchange(record);
        break;
    case NO_LEAP_YEAR:
        place_year(record, FIRST_YEAR + 4 * between(0, 24) + between(1, 3));
        break;
    case BEHIND_YEAR:
        record[BEHIND_YEAR_AT + below(RECORD - BEHIND_YEAR_AT)] = (uint8_t)between(1, 255);
        break;
    case NOTICE_YEAR:
        memcpy(record, notice, YEAR_AT);
        record[IDENTIFIER_AT] = 'W';
        break;
    default:
        memset(record, 0, YEAR_AT);
        record[0] = WITHDRAWAL;
        memcpy(record + SENT_AT, notice + SENT_AT, HEADER_AT - SENT_AT);
    }
}

/* ---- what is answered */

static bool was_handed(const struct handed *handed, const uint8_t *notice)
{
    for (size_t i = 0; i < handed->count; i++)
        if (memcmp(handed->record[i], notice, RECORD) == 0)
            return true;
    return false;
}

/* Hands out all that is due. The notice's header is, while there is room, unless it was aired with its own year. */
static void check_handed_out(struct bytes *board, const uint8_t *notice, enum way way)
{
    static struct handed handed;
    unsigned last;

    begin_handed(&handed, board);
    last = check_all_handed(board, &handed);
    must(way == OWN_YEAR || last == STUIVERHAAG_BOARD_FULL || was_handed(&handed, notice),
         "A header was not handed out that was aired only with another year.");
}

/* Whether an offer or a hand-out is answered 1. */
static bool is_refused(const struct bytes *board)
{
    static struct bytes lent, message;

    copy(&lent, board);
    if (once_in(2))
        return stuiverhaag_number(hand_out(&lent)) == STUIVERHAAG_BOARD_RULES;
    sound_message(&message);
    return stuiverhaag_number(offer(&lent, slice_of(&message))) == STUIVERHAAG_BOARD_RULES;
}

void case_year(void)
{
    static struct bytes board;
    enum way way = (enum way)below(WAYS);
    uint8_t notice[RECORD], other[RECORD];
    size_t records = once_in(20) ? STUIVERHAAG_RECORDS_MOST : 2 + below(12);

    made_board(&board, records, below(records - 1), 10);
    make_notice(notice, way);
    make_other(other, notice, way);
    put_record(&board, notice);
    put_record(&board, other);
    tried[way]++;
    must(is_refused(&board) == (way >= NO_YEAR), "A board is refused for a year that it may have, or not for another.");
    if (way < NO_YEAR)
        check_handed_out(&board, notice, way);
}

/* ---- what was tried */

bool print_years(void)
{
    bool all = true;

    printf("boards with a record that is");
    for (size_t i = 0; i < WAYS; i++) {
        printf("%s %s: ", i == 0 ? "" : ",", ways[i]);
        print_grouped(tried[i]);
        all = all && tried[i] > 0;
    }
    putchar('\n');
    return all;
}
