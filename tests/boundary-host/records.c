#include "records.h"

#include "times.h"

#include <string.h>

/* ORG and EEE with their dashes, 7 bytes for each location, and `+TTTT-JJJHHMM-`. */
#define FRONT 12
#define LOCATION 7
#define TIMES 14
#define MOMENT 7

static const uint8_t zeros[RECORD];

/* ---- fields */

static bool is_zero(const uint8_t *from, const uint8_t *end)
{
    return memcmp(from, zeros, (size_t)(end - from)) == 0;
}

/* How many bytes of a field stand before its first zero. */
static size_t filled_bytes(const uint8_t *field, size_t room)
{
    size_t length = 0;

    while (length < room && field[length] != 0)
        length++;
    return length;
}

static bool is_zero_filled(const uint8_t *field, size_t room)
{
    return is_zero(field + filled_bytes(field, room), field + room);
}

int64_t sent_in(const uint8_t *record)
{
    int64_t sent = 0;

    for (size_t i = 0; i < 4; i++)
        sent = sent * 256 + record[SENT_AT + i];
    return sent;
}

void place_sent(uint8_t *record, int64_t sent)
{
    for (size_t i = 0; i < 4; i++)
        record[SENT_AT + i] = (uint8_t)(sent >> (24 - 8 * i));
}

void place_year(uint8_t *record, int64_t year)
{
    record[YEAR_AT] = (uint8_t)(year >> 8);
    record[YEAR_AT + 1] = (uint8_t)year;
}

int64_t year_in(const uint8_t *record)
{
    if (record[0] == NOTICE)
        return year_of(sent_in(record));
    return record[YEAR_AT] * 256 + record[YEAR_AT + 1];
}

int compare_headers(const uint8_t *record, const uint8_t *other)
{
    int order = memcmp(record + HEADER_AT, other + HEADER_AT, HEADER_ROOM);

    return order != 0 ? order : (int)(year_in(record) - year_in(other));
}

bool withdraws(const uint8_t *record, const uint8_t *notice)
{
    return record[0] == WITHDRAWAL && memcmp(record + SENT_AT, notice + SENT_AT, HEADER_AT - SENT_AT) == 0;
}

void make_aired(uint8_t *record, const uint8_t *notice, int64_t year)
{
    memset(record, 0, RECORD);
    record[0] = AIRED;
    memcpy(record + HEADER_AT, notice + HEADER_AT, HEADER_ROOM);
    place_year(record, year);
}

/* ---- the rules of a header */

static bool are_between(const uint8_t *bytes, size_t count, char low, char high)
{
    for (size_t i = 0; i < count; i++)
        if (bytes[i] < low || bytes[i] > high)
            return false;
    return true;
}

static bool are_digits(const uint8_t *bytes, size_t count)
{
    return are_between(bytes, count, '0', '9');
}

static int64_t decimal(const uint8_t *digits, size_t count)
{
    int64_t number = 0;

    for (size_t i = 0; i < count; i++)
        number = number * 10 + (digits[i] - '0');
    return number;
}

static bool is_originator(const uint8_t *bytes)
{
    static const char *const originators[] = {"PEP", "EAS", "WXR", "CIV"};

    for (size_t i = 0; i < COUNT(originators); i++)
        if (memcmp(bytes, originators[i], 3) == 0)
            return true;
    return false;
}

static bool are_locations(const uint8_t *bytes, size_t length)
{
    for (size_t i = 0; i < length; i += LOCATION)
        if (bytes[i] != '-' || !are_digits(bytes + i + 1, LOCATION - 1))
            return false;
    return length > 0;
}

/* 0015, 0030, 0045, or hours 01 to 99 with minutes 00 or 30. */
static bool is_period(const uint8_t *bytes)
{
    int64_t hours = decimal(bytes, 2), minutes = decimal(bytes + 2, 2);

    if (!are_digits(bytes, 4) || minutes >= 60)
        return false;
    return hours > 0 ? minutes % 30 == 0 : minutes % 15 == 0 && minutes > 0;
}

/* Day 001 to 366, hour 00 to 23, minute 00 to 59. */
static bool is_moment(const uint8_t *bytes)
{
    int64_t day = decimal(bytes, 3);

    return are_digits(bytes, MOMENT) && day >= 1 && day <= 366 && decimal(bytes + 3, 2) < 24 &&
           decimal(bytes + 5, 2) < 60;
}

static bool are_times(const uint8_t *bytes)
{
    return bytes[0] == '+' && is_period(bytes + 1) && bytes[5] == '-' && is_moment(bytes + 6) && bytes[13] == '-';
}

/* A header through the dash after JJJHHMM, and zeros behind it. */
static bool is_header(const uint8_t *field)
{
    size_t length = filled_bytes(field, HEADER_ROOM);

    if (!is_zero_filled(field, HEADER_ROOM) || length < FRONT + TIMES || (length - FRONT - TIMES) % LOCATION != 0)
        return false;
    return memcmp(field, "ZCZC-", 5) == 0 && is_originator(field + 5) && field[8] == '-' &&
           are_between(field + 9, 3, 'A', 'Z') && are_locations(field + FRONT, length - FRONT - TIMES) &&
           are_times(field + length - TIMES);
}

/* Where a header has its JJJHHMM. */
static const uint8_t *moment_in(const uint8_t *record)
{
    const uint8_t *header = record + HEADER_AT;

    return header + filled_bytes(header, HEADER_ROOM) - MOMENT - 1;
}

/* ---- the rules of a record */

/* A sender or an identifier: 1 to 64 bytes of 33 to 126 without comma, `<` and `&`, and zeros behind them. */
static bool is_word(const uint8_t *field)
{
    size_t length = filled_bytes(field, IDENTIFIER_AT - SENDER_AT);

    for (size_t i = 0; i < length; i++)
        if (field[i] == ',' || field[i] == '<' || field[i] == '&')
            return false;
    return length > 0 && are_between(field, length, '!', '~') && is_zero_filled(field, IDENTIFIER_AT - SENDER_AT);
}

static bool has_identity(const uint8_t *record)
{
    return sent_in(record) < END_OF_TIME && is_word(record + SENDER_AT) && is_word(record + IDENTIFIER_AT);
}

/* JJJHHMM of a notice is that of its sent. */
static bool has_moment_of_sent(const uint8_t *record)
{
    static struct bytes moment;

    moment.length = 0;
    put_moment(&moment, sent_in(record));
    return memcmp(moment_in(record), moment.byte, MOMENT) == 0;
}

/* The year of an aired record is 2000 to 2099, and has the header's day. */
static bool has_year(const uint8_t *record)
{
    int64_t year = year_in(record);

    return year >= FIRST_YEAR && year <= LAST_YEAR && decimal(moment_in(record), 3) <= days_in(year);
}

bool is_record(const uint8_t *record)
{
    const uint8_t *end = record + RECORD;

    switch (record[0]) {
    case NOTICE:
        return has_identity(record) && is_header(record + HEADER_AT) && has_moment_of_sent(record) &&
               is_zero(record + YEAR_AT, end);
    case WITHDRAWAL:
        return has_identity(record) && is_zero(record + HEADER_AT, end);
    case AIRED:
        return is_zero(record + SENT_AT, record + HEADER_AT) && is_header(record + HEADER_AT) && has_year(record) &&
               is_zero(record + BEHIND_YEAR_AT, end);
    default:
        return false;
    }
}
