#include "handed.h"

#include "calls.h"
#include "replay.h"

#include <stdio.h>
#include <string.h>

/* How often a hand-out was held to what is due on its board, and to the one before it, by what it gave. */
static struct {
    unsigned long first, other_year, none, aired, successors, later_years;
} held;

static void note(struct handed *handed, const uint8_t *record)
{
    memcpy(handed->record[handed->count], record, RECORD);
    handed->count++;
}

void begin_handed(struct handed *handed, const struct bytes *board)
{
    handed->count = 0;
    handed->since = 0;
    if (!keeps_rules(board->byte, board->length))
        return;
    for (size_t at = 0; at < board->length; at += RECORD)
        if (board->byte[at] == AIRED)
            note(handed, board->byte + at);
}

/* No header with its year is aired twice; those between two offers come by their bytes and then by their years. */
static void check_handed(const struct handed *handed, const uint8_t *notice)
{
    const uint8_t *last;

    for (size_t i = 0; i < handed->count; i++)
        must(compare_headers(handed->record[i], notice) != 0, "A header with its year was handed out twice.");
    if (handed->since == 0)
        return;
    last = handed->record[handed->count - 1];
    must(compare_headers(last, notice) < 0, "Headers were not handed out by their bytes and then by their years.");
    held.successors++;
    held.later_years += memcmp(last + HEADER_AT, notice + HEADER_AT, HEADER_ROOM) == 0;
}

/* A hand-out from a board that keeps the rules is answered what the records say. */
static void check_due(const struct bytes *before, uint64_t answer)
{
    unsigned number = hand_out_number(before);

    must(stuiverhaag_number(answer) == number, "The number is not what the records of the board say.");
    if (number == STUIVERHAAG_DONE) {
        must(stuiverhaag_index(answer) == hand_out_index(before),
             "The index is not that of the smallest notice that makes the first due header due.");
        held.first++;
        held.other_year += aired_otherwise(before, stuiverhaag_index(answer));
    } else if (number == STUIVERHAAG_NOTHING_DUE) {
        held.none++;
        held.aired += holds_aired_notice(before);
    }
}

unsigned check_hand_out(struct bytes *board, struct handed *handed)
{
    static struct bytes before;
    uint64_t answer;
    unsigned number;

    copy(&before, board);
    answer = hand_out(board);
    number = stuiverhaag_number(answer);
    if (number == STUIVERHAAG_DONE) {
        const uint8_t *notice = notice_at(&before, stuiverhaag_index(answer));

        check_handed(handed, notice);
        check_aired(&before, board, notice);
        note(handed, notice);
        handed->since++;
    }
    if (number != STUIVERHAAG_BOARD_RULES)
        check_due(&before, answer);
    return number;
}

unsigned check_all_handed(struct bytes *board, struct handed *handed)
{
    unsigned number;

    do
        number = check_hand_out(board, handed);
    while (number == STUIVERHAAG_DONE);
    return number;
}

bool print_handed(void)
{
    bool all = true;

    puts("hand-outs held to the records of the board:");
    all = print_seen(held.first, "of the first due header, by the smallest notice that makes it due") && all;
    all = print_seen(held.other_year, "of them of a header that was aired with another year") && all;
    all = print_seen(held.none, "refused since nothing is due") && all;
    all = print_seen(held.aired, "of them where a header was aired with the year of its notice") && all;
    all = print_seen(held.successors, "behind another, in order of the header's bytes and then of its year") && all;
    all = print_seen(held.later_years, "of them behind the same header with an earlier year") && all;
    return all;
}
