#include "boards.h"

#include "records.h"
#include "replay.h"
#include "times.h"

#include <stdlib.h>
#include <string.h>

static const uint8_t zeros[RECORD];

static const uint8_t *record_at(const struct bytes *board, size_t index)
{
    return board->byte + index * RECORD;
}

static bool is_filled(const uint8_t *record)
{
    return memcmp(record, zeros, RECORD) != 0;
}

static size_t filled_records(const struct bytes *board)
{
    size_t count = 0;

    while ((count + 1) * RECORD <= board->length && is_filled(record_at(board, count)))
        count++;
    return count;
}

/* ---- the rules of a board */

bool is_board_length(size_t length)
{
    return length % RECORD == 0 && length > 0 && length <= (size_t)STUIVERHAAG_RECORDS_MOST * RECORD;
}

/* Behind an empty record stand only such; a filled one keeps its rules and is above the one before it. */
static bool may_follow(const uint8_t *before, const uint8_t *record)
{
    if (!is_filled(record))
        return true;
    return is_record(record) && memcmp(before, record, RECORD) < 0 && is_filled(before);
}

bool keeps_rules(const uint8_t *board, size_t length)
{
    if (!is_board_length(length) || (is_filled(board) && !is_record(board)))
        return false;
    for (size_t at = RECORD; at < length; at += RECORD)
        if (!may_follow(board + at - RECORD, board + at))
            return false;
    return true;
}

/* ---- what is due on a board that keeps them */

bool holds_notice(const struct bytes *board, const uint8_t *header, size_t length)
{
    for (size_t i = filled_records(board); i > 0; i--) {
        const uint8_t *record = record_at(board, i - 1);

        if (record[0] == NOTICE && memcmp(record + HEADER_AT, header, length) == 0 &&
            memcmp(record + HEADER_AT + length, zeros, HEADER_ROOM - length) == 0)
            return true;
    }
    return false;
}

static bool is_withdrawn(const struct bytes *board, const uint8_t *notice)
{
    for (size_t i = filled_records(board); i > 0; i--)
        if (withdraws(record_at(board, i - 1), notice))
            return true;
    return false;
}

/* Whether a board holds an aired record of this header with this year. */
static bool is_aired(const struct bytes *board, const uint8_t *notice)
{
    for (size_t i = filled_records(board); i > 0; i--) {
        const uint8_t *record = record_at(board, i - 1);

        if (record[0] == AIRED && compare_headers(record, notice) == 0)
            return true;
    }
    return false;
}

bool aired_otherwise(const struct bytes *board, size_t index)
{
    const uint8_t *notice = record_at(board, index);

    for (size_t i = filled_records(board); i > 0; i--) {
        const uint8_t *record = record_at(board, i - 1);

        if (record[0] == AIRED && memcmp(record + HEADER_AT, notice + HEADER_AT, HEADER_ROOM) == 0 &&
            year_in(record) != year_in(notice))
            return true;
    }
    return false;
}

/* Whether the record at an index is a notice that is not withdrawn. */
static bool is_standing(const struct bytes *board, size_t index)
{
    return record_at(board, index)[0] == NOTICE && !is_withdrawn(board, record_at(board, index));
}

bool holds_aired_notice(const struct bytes *board)
{
    for (size_t i = filled_records(board); i > 0; i--)
        if (is_standing(board, i - 1) && is_aired(board, record_at(board, i - 1)))
            return true;
    return false;
}

/* The smallest notice that makes the first due header due, by header and then by year; behind all where none does. */
size_t hand_out_index(const struct bytes *board)
{
    size_t filled = filled_records(board);
    size_t first = filled;

    for (size_t i = 0; i < filled; i++)
        if (is_standing(board, i) && !is_aired(board, record_at(board, i)) &&
            (first == filled || compare_headers(record_at(board, i), record_at(board, first)) < 0))
            first = i;
    return first;
}

unsigned hand_out_number(const struct bytes *board)
{
    size_t filled = filled_records(board);

    if (hand_out_index(board) == filled)
        return STUIVERHAAG_NOTHING_DUE;
    return filled == board->length / RECORD ? STUIVERHAAG_BOARD_FULL : STUIVERHAAG_DONE;
}

/* ---- making */

void empty_board(struct bytes *board, size_t records)
{
    board->length = 0;
    for (size_t i = 0; i < records; i++)
        put_bytes(board, zeros, RECORD);
}

void put_record(struct bytes *board, const uint8_t *record)
{
    size_t filled = filled_records(board);
    size_t at = 0;

    while (at < filled && memcmp(record_at(board, at), record, RECORD) < 0)
        at++;
    if (at < filled && memcmp(record_at(board, at), record, RECORD) == 0)
        return;
    memmove(board->byte + (at + 1) * RECORD, record_at(board, at), (filled - at) * RECORD);
    memcpy(board->byte + at * RECORD, record, RECORD);
}

int64_t draw_year(int64_t day)
{
    static const int64_t borders[] = {2000, 2004, 2047, 2048, 2055, 2056, 2096, 2099};
    int64_t year;

    do
        year = once_in(2) ? PICK(borders) : between(FIRST_YEAR, LAST_YEAR);
    while (day > days_in(year));
    return year;
}

/* An instant on one of few days, at one of few times of the day: headers are often the same but for their year. */
static int64_t draw_sent(size_t world)
{
    static const int64_t days[] = {65, 366, 1, 365};
    static const int64_t seconds[] = {0, 0, 59, DAY - 60, DAY - 1};
    int64_t day = world > COUNT(days) ? between(1, 366) : days[below(world)];

    return instant(draw_year(day), day, PICK(seconds));
}

/* Puts a word of two letters at a place of a record, once or 32 times. */
static void place_word(uint8_t *record, size_t at, const char *word)
{
    for (size_t left = once_in(4) ? 32 : 1; left > 0; left--) {
        memcpy(record + at, word, 2);
        at += 2;
    }
}

static void place_identity(uint8_t *record, int64_t sent)
{
    static const char *const senders[] = {"s1", "s2", "s!", "~~"};
    static const char *const identifiers[] = {"i1", "i2", "i3", "\"'"};

    place_sent(record, sent);
    place_word(record, SENDER_AT, PICK(senders));
    place_word(record, IDENTIFIER_AT, PICK(identifiers));
}

static void place_header(uint8_t *record, int64_t sent, size_t world)
{
    static struct bytes header;
    static const char *const events[] = {"CEM", "TOR", "RWT"};
    static const size_t counts[] = {1, 1, 1, 1, 2, 31};

    header.length = 0;
    put(&header, "ZCZC-CIV-");
    put(&header, PICK(events));
    for (size_t left = PICK(counts); left > 0; left--) {
        put_byte(&header, '-');
        put_number(&header, below(world), 6);
    }
    put(&header, "+0030-");
    put_moment(&header, sent);
    put_byte(&header, '-');
    memcpy(record + HEADER_AT, header.byte, header.length);
}

static void make_record(uint8_t *record, size_t world)
{
    static const uint8_t kinds[] = {NOTICE, NOTICE, NOTICE, WITHDRAWAL, AIRED};
    int64_t sent = draw_sent(world);

    record[0] = PICK(kinds);
    if (record[0] != AIRED)
        place_identity(record, sent);
    else
        place_year(record, year_of(sent));
    if (record[0] != WITHDRAWAL)
        place_header(record, sent, world);
}

/* A record that concerns a notice: one of the same header, in its year or in another, or one that withdraws it. */
static void make_concerning(uint8_t *record, const uint8_t *notice)
{
    int64_t sent = sent_in(notice);
    int64_t year = once_in(2) ? year_of(sent) : draw_year(day_of(sent));

    switch (below(3)) {
    case 0:
        make_aired(record, notice, year);
        break;
    case 1:
        record[0] = NOTICE;
        place_identity(record, instant(year, day_of(sent), sent % DAY / 60 * 60 + between(0, 59)));
        memcpy(record + HEADER_AT, notice + HEADER_AT, HEADER_ROOM);
        break;
    default:
        record[0] = WITHDRAWAL;
        memcpy(record + SENT_AT, notice + SENT_AT, HEADER_AT - SENT_AT);
    }
}

static int by_bytes(const void *a, const void *b)
{
    return memcmp(a, b, RECORD);
}

void made_board(struct bytes *board, size_t records, size_t filled, size_t world)
{
    static uint8_t made[STUIVERHAAG_RECORDS_MOST][RECORD];

    for (size_t i = 0; i < filled; i++) {
        const uint8_t *other = i == 0 ? zeros : made[below(i)];

        memset(made[i], 0, RECORD);
        if (other[0] == NOTICE && once_in(2))
            make_concerning(made[i], other);
        else
            make_record(made[i], world);
    }
    qsort(made, filled, RECORD, by_bytes);
    board->length = 0;
    for (size_t i = 0; i < filled; i++)
        if (i == 0 || memcmp(made[i - 1], made[i], RECORD) != 0)
            put_bytes(board, made[i], RECORD);
    while (board->length < records * RECORD)
        put_bytes(board, zeros, RECORD);
}

/* ---- damage */

/* Lengths that no board has, or that another board has. */
static void damage_length(struct bytes *board)
{
    static const size_t lengths[] = {0, 1, 383, 384, 385, 768, 65279, 65280, 65281, 65664};
    size_t length = once_in(2) ? board->length + 1 : board->length - 1;

    if (!once_in(4))
        length = once_in(2) ? PICK(lengths) : below(70000);
    while (board->length < length)
        put_byte(board, once_in(1000) ? 1 : 0);
    board->length = length;
}

static void swap_records(struct bytes *board, size_t first, size_t second)
{
    uint8_t kept[RECORD];

    memcpy(kept, record_at(board, first), RECORD);
    memcpy(board->byte + first * RECORD, record_at(board, second), RECORD);
    memcpy(board->byte + second * RECORD, kept, RECORD);
}

/* A byte at the start or the end of a field, or anywhere. */
static void damage_byte(uint8_t *record)
{
    static const size_t places[] = {
        0, 1, 4, 5, 6, 7, 68, 69, 70, 71, 132, 133, 137, 141, 152, 153, 375, 376, 377, 378, 383,
    };
    static const uint8_t values[] = {
        0, 1, 2, 3, 4, 7, 8, ',', '-', '+', '<', '&', '0', '9', 'A', 'Z', ' ', 127, 128, 188, 207, 208, 255,
    };
    size_t at = once_in(2) ? PICK(places) : below(RECORD);

    record[at] = once_in(2) ? PICK(values) : (uint8_t)(record[at] ^ 1u << below(8));
}

/* Damages a record, after which the order may be kept all the same. */
static void damage_record(struct bytes *board, size_t index)
{
    uint8_t *record = board->byte + index * RECORD;

    if (once_in(8))
        place_sent(record, END_OF_TIME - between(0, 1));
    else
        damage_byte(record);
    if (once_in(2))
        qsort(board->byte, filled_records(board), RECORD, by_bytes);
}

void damage_board(struct bytes *board)
{
    size_t records = board->length / RECORD;
    size_t filled = filled_records(board);
    size_t some = filled == 0 ? 0 : below(filled);

    switch (below(8)) {
    case 0:
        damage_length(board);
        break;
    case 1:
        swap_records(board, some, below(records));
        break;
    case 2:
        memcpy(board->byte + below(records) * RECORD, record_at(board, some), RECORD);
        break;
    case 3:
        memset(board->byte + some * RECORD, once_in(2) ? 0 : (int)below(256), RECORD);
        break;
    case 4:
        board->byte[below(board->length)] = (uint8_t)below(256);
        break;
    default:
        damage_record(board, some);
    }
}

/* ---- what a call left */

void check_grown(const struct bytes *before, const struct bytes *after, size_t by)
{
    size_t filled = filled_records(after);
    size_t held = 0;

    if (after->length != before->length)
        broken("The board has another length.");
    if (filled != filled_records(before) + by)
        broken("The board has not grown by what the answer says.");
    if (!keeps_rules(after->byte, after->length))
        broken("The board that the call left breaks the rules.");
    for (size_t i = 0; i < filled; i++)
        if (held < filled - by && memcmp(record_at(before, held), record_at(after, i), RECORD) == 0)
            held++;
    if (held != filled - by)
        broken("A record that the board held is gone.");
}

/* The record that the board held not before. */
static const uint8_t *new_record(const struct bytes *before, const struct bytes *after)
{
    size_t i = 0;

    while ((i + 1) * RECORD < after->length && memcmp(record_at(before, i), record_at(after, i), RECORD) == 0)
        i++;
    return record_at(after, i);
}

const uint8_t *notice_at(const struct bytes *board, size_t index)
{
    if (index >= filled_records(board) || record_at(board, index)[0] != NOTICE)
        broken("The index is that of no notice.");
    return record_at(board, index);
}

void check_aired(const struct bytes *before, const struct bytes *after, const uint8_t *notice)
{
    uint8_t aired[RECORD];

    check_grown(before, after, 1);
    if (memcmp(notice, after->byte + (notice - before->byte), RECORD) != 0)
        broken("The record at the index is another one after the call.");
    make_aired(aired, notice, year_in(notice));
    if (memcmp(new_record(before, after), aired, RECORD) != 0)
        broken("The record that was added is not the aired record of that header with its year.");
}
