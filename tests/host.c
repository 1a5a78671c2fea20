/*
 * Answers case lines (docs/CASES.md) as a host in C: `header`, `text`, `canadian`, `read`, `write`, `offer` and
 * `handout`, and `?` to any other.
 *
 * Every slice is lent between guard bytes, and an output is filled with a pattern. After a call every
 * byte that it must leave alone is compared with what it was: the guards, what was lent to be read, an
 * output behind the answer, and all of it on a refusal. Where one has changed, or an answer does not
 * hold together, the program says so on standard error and ends with 1.
 */
#include "stuiverhaag.h"

#include <stdbool.h>
#include <stdio.h>
#include <stdlib.h>
#include <string.h>

#define LONGEST_LINE 200000
#define LARGEST_CAP 65280
#define MOST_DIGITS 9
#define MOST_FIELDS 10
#define MOST_LENT 4
#define GUARD 64

static unsigned long line_number;

/* Ends the program where a call did what it must not do. */
static void broken(const char *sentence)
{
    fprintf(stderr, "Line %lu: %s\n", line_number, sentence);
    exit(EXIT_FAILURE);
}

/* ---- slices that are lent */

struct lent {
    uint8_t *bytes;
    size_t length;
    /* How many bytes the answer says were written. */
    size_t written;
    /* The guards with the bytes between them, and these as they were before the call. */
    uint8_t *all;
    uint8_t *before;
};

/* All that one call is lent. */
struct loans {
    struct lent lent[MOST_LENT];
    size_t count;
};

/*
 * Lends a slice, its bytes and its guards a pattern of bytes that no answer has: they are not ASCII, and in no UTF-8,
 * so that a byte that is written is another one.
 */
static struct lent *lend(struct loans *loans, size_t length)
{
    struct lent *lent = &loans->lent[loans->count];
    size_t size = length + 2 * GUARD;

    lent->all = malloc(size);
    lent->before = malloc(size);
    if (lent->all == NULL || lent->before == NULL)
        broken("There is no memory for a slice.");
    for (size_t i = 0; i < size; i++)
        lent->all[i] = (uint8_t)(0xf5 + i % 11);
    lent->bytes = lent->all + GUARD;
    lent->length = length;
    lent->written = 0;
    loans->count++;
    return lent;
}

/* Notes every byte, just before the call. */
static void note(struct loans *loans)
{
    for (size_t i = 0; i < loans->count; i++) {
        struct lent *lent = &loans->lent[i];

        memcpy(lent->before, lent->all, lent->length + 2 * GUARD);
    }
}

/* Compares every byte but those written, after the call. */
static void compare(const struct loans *loans)
{
    for (size_t i = 0; i < loans->count; i++) {
        const struct lent *lent = &loans->lent[i];
        size_t rest = GUARD + lent->written;

        if (lent->written > lent->length)
            broken("The answer is longer than the output.");
        if (memcmp(lent->all, lent->before, GUARD) != 0)
            broken("A byte before a lent slice has changed.");
        if (memcmp(lent->all + rest, lent->before + rest, lent->length + 2 * GUARD - rest) != 0)
            broken("A lent byte that was to stay, or one behind the slice, has changed.");
    }
}

static void give_back(struct loans *loans)
{
    for (size_t i = 0; i < loans->count; i++) {
        free(loans->lent[i].all);
        free(loans->lent[i].before);
    }
    loans->count = 0;
}

/* A refusal is its number alone, and after 7 its field. */
static void check_refusal(uint64_t answer)
{
    unsigned number = stuiverhaag_number(answer);
    uint64_t field = number == STUIVERHAAG_ELEMENT_BAD ? stuiverhaag_field(answer) : 0;

    if (number != STUIVERHAAG_DONE && answer != (field << 8 | number))
        broken("A refusal has more than its number.");
}

/* ---- the fields of a line */

struct field {
    const uint8_t *start;
    size_t length;
};

struct line {
    struct field field[MOST_FIELDS];
    size_t count;
};

/* The fields, parted by one space each; none where there are more than any line has. */
static struct line split(const uint8_t *bytes, size_t length)
{
    struct line line = {.count = 1};
    size_t start = 0;

    for (size_t i = 0; i < length; i++) {
        if (bytes[i] != ' ')
            continue;
        if (line.count == MOST_FIELDS)
            return (struct line){.count = 0};
        line.field[line.count - 1] = (struct field){bytes + start, i - start};
        line.count++;
        start = i + 1;
    }
    line.field[line.count - 1] = (struct field){bytes + start, length - start};
    return line;
}

static bool is(struct field field, const char *word)
{
    return field.length == strlen(word) && memcmp(field.start, word, field.length) == 0;
}

/* A decimal number of 1 to 9 digits, at most `most`. */
static bool decimal(struct field field, uint32_t most, uint32_t *number)
{
    *number = 0;
    if (field.length == 0 || field.length > MOST_DIGITS)
        return false;
    for (size_t i = 0; i < field.length; i++) {
        if (field.start[i] < '0' || field.start[i] > '9')
            return false;
        *number = *number * 10 + (field.start[i] - (uint32_t)'0');
    }
    return *number <= most;
}

/* What a hexadecimal digit counts; 16 for what is none, and capitals are none. */
static unsigned hex_digit(uint8_t byte)
{
    if (byte >= '0' && byte <= '9')
        return byte - (unsigned)'0';
    if (byte >= 'a' && byte <= 'f')
        return byte - (unsigned)'a' + 10;
    return 16;
}

/* Lends the bytes that a field writes in hexadecimal, none for `-`; NULL where it is no such field. */
static struct lent *lend_hex(struct loans *loans, struct field field)
{
    struct lent *lent;

    if (is(field, "-"))
        return lend(loans, 0);
    if (field.length == 0 || field.length % 2 != 0)
        return NULL;
    lent = lend(loans, field.length / 2);
    for (size_t i = 0; i < lent->length; i++) {
        unsigned high = hex_digit(field.start[2 * i]);
        unsigned low = hex_digit(field.start[2 * i + 1]);

        if (high > 15 || low > 15)
            return NULL;
        lent->bytes[i] = (uint8_t)(high * 16 + low);
    }
    return lent;
}

/* Lends an output of as many bytes as a field says; NULL where it says no such number. */
static struct lent *lend_output(struct loans *loans, struct field field)
{
    uint32_t cap;

    return decimal(field, LARGEST_CAP, &cap) ? lend(loans, cap) : NULL;
}

/* Lends the text of a field, none for `-`; NULL where the field is empty. */
static struct lent *lend_text(struct loans *loans, struct field field)
{
    struct lent *lent;

    if (field.length == 0)
        return NULL;
    lent = lend(loans, is(field, "-") ? 0 : field.length);
    memcpy(lent->bytes, field.start, lent->length);
    return lent;
}

/* Whether a field is codes of six bytes joined by commas. */
static bool is_codes(struct field field)
{
    for (size_t i = 6; i < field.length; i += 7)
        if (field.start[i] != ',')
            return false;
    return field.length % 7 == 6;
}

/* Lends such codes one behind the other; any other text as it stands and a comma, which no code has. */
static struct lent *lend_codes(struct loans *loans, struct field field)
{
    struct lent *lent;

    if (field.length == 0 || is(field, "-"))
        return lend_text(loans, field);
    if (is_codes(field)) {
        lent = lend(loans, (field.length + 1) / 7 * 6);
        for (size_t i = 0; i < lent->length; i++)
            lent->bytes[i] = field.start[i + i / 6];
        return lent;
    }
    lent = lend(loans, field.length + 1);
    memcpy(lent->bytes, field.start, field.length);
    lent->bytes[field.length] = ',';
    return lent;
}

/* ---- printing */

static void print_text(const uint8_t *bytes, size_t length)
{
    for (size_t i = 0; i < length; i++)
        putchar(bytes[i]);
}

static void print_hex(const uint8_t *bytes, size_t length)
{
    static const char digits[] = "0123456789abcdef";

    if (length == 0)
        putchar('-');
    for (size_t i = 0; i < length; i++) {
        putchar(digits[bytes[i] / 16]);
        putchar(digits[bytes[i] % 16]);
    }
}

static void print_written(const struct lent *lent)
{
    print_hex(lent->bytes, lent->written);
}

/* ---- the calls: each answers its line, or says that the line is none */

static const char *const originators[] = {
    [STUIVERHAAG_ORG_PEP] = "PEP",
    [STUIVERHAAG_ORG_EAS] = "EAS",
    [STUIVERHAAG_ORG_WXR] = "WXR",
    [STUIVERHAAG_ORG_CIV] = "CIV",
};

/* What a header that was read says: numbers by the answer, all else by the header's own bytes. */
static void print_read(uint64_t answer, const struct lent *header)
{
    unsigned originator = stuiverhaag_originator(answer);
    size_t locations = stuiverhaag_locations(answer);

    if (originator < STUIVERHAAG_ORG_PEP || originator > STUIVERHAAG_ORG_CIV)
        broken("The originator is none of the four.");
    if (locations < 1 || header->length != 35 + 7 * locations)
        broken("The header has another number of locations.");
    printf("0 %s ", originators[originator]);
    print_text(header->bytes + 9, 3);
    for (size_t i = 0; i < locations; i++) {
        putchar(i == 0 ? ' ' : ',');
        print_text(header->bytes + 13 + 7 * i, 6);
    }
    printf(" %u %u %u %u ", stuiverhaag_period(answer), stuiverhaag_day(answer),
           stuiverhaag_hour(answer), stuiverhaag_minute(answer));
    print_hex(header->bytes + header->length - STUIVERHAAG_STATION_LENGTH - 1, STUIVERHAAG_STATION_LENGTH);
    putchar('\n');
}

/* read HEADER */
static bool answer_read(const struct line *line, struct loans *loans)
{
    const struct lent *header;
    uint64_t answer;

    if (line->count != 2)
        return false;
    header = lend_hex(loans, line->field[1]);
    if (header == NULL)
        return false;
    note(loans);
    answer = stuiverhaag_read_header(header->bytes, header->length);
    check_refusal(answer);
    compare(loans);
    if (stuiverhaag_number(answer) != STUIVERHAAG_DONE)
        printf("%u - - - 0 0 0 0 -\n", stuiverhaag_number(answer));
    else
        print_read(answer, header);
    return true;
}

/* The number of an originator's word, and 0 for any other. */
static uint32_t originator_number(struct field field)
{
    for (uint32_t i = STUIVERHAAG_ORG_PEP; i <= STUIVERHAAG_ORG_CIV; i++)
        if (is(field, originators[i]))
            return i;
    return 0;
}

/* write ORG EVENT LOCATIONS PERIOD DAY HOUR MINUTE STATION CAP */
static bool answer_write(const struct line *line, struct loans *loans)
{
    const struct lent *event, *locations, *station;
    struct lent *out;
    uint32_t number[4];
    uint64_t answer;

    if (line->count != 10 || line->field[1].length == 0)
        return false;
    for (size_t i = 0; i < 4; i++)
        if (!decimal(line->field[4 + i], UINT32_MAX, &number[i]))
            return false;
    event = lend_text(loans, line->field[2]);
    locations = lend_codes(loans, line->field[3]);
    station = lend_hex(loans, line->field[8]);
    out = lend_output(loans, line->field[9]);
    if (event == NULL || locations == NULL || station == NULL || out == NULL)
        return false;
    note(loans);
    answer = stuiverhaag_write_header(originator_number(line->field[1]),
                                      event->bytes, event->length,
                                      locations->bytes, locations->length,
                                      number[0], number[1], number[2], number[3],
                                      station->bytes, station->length,
                                      out->bytes, out->length);
    check_refusal(answer);
    out->written = stuiverhaag_header_length(answer);
    compare(loans);
    printf("%u ", stuiverhaag_number(answer));
    print_written(out);
    putchar('\n');
    return true;
}

/* `number field`, with which every answer to a message begins. */
static void print_number(uint64_t answer)
{
    printf("%u %u ", stuiverhaag_number(answer), stuiverhaag_field(answer));
}

/* header MESSAGE STATION HEADERCAP */
static bool answer_header(const struct line *line, struct loans *loans)
{
    const struct lent *message, *station;
    struct lent *header;
    uint64_t answer;

    if (line->count != 4)
        return false;
    message = lend_hex(loans, line->field[1]);
    station = lend_hex(loans, line->field[2]);
    header = lend_output(loans, line->field[3]);
    if (message == NULL || station == NULL || header == NULL)
        return false;
    note(loans);
    answer = stuiverhaag_header(message->bytes, message->length, station->bytes, station->length,
                                header->bytes, header->length);
    check_refusal(answer);
    if (stuiverhaag_audio(answer) != 0 || stuiverhaag_uri_length(answer) != 0 || stuiverhaag_text_length(answer) != 0)
        broken("A header is answered with an audio or a text.");
    header->written = stuiverhaag_header_length(answer);
    compare(loans);
    print_number(answer);
    print_written(header);
    printf(" %u\n", stuiverhaag_carry(answer));
    return true;
}

/* Checks and prints what either mode answers: `number field audio URI TEXT`. */
static void text_answered(struct loans *loans, struct lent *text, struct lent *uri, uint64_t answer)
{
    check_refusal(answer);
    if (stuiverhaag_header_length(answer) != 0 || stuiverhaag_carry(answer) != 0)
        broken("A text is answered with a header or a carry.");
    text->written = stuiverhaag_text_length(answer);
    uri->written = stuiverhaag_uri_length(answer);
    compare(loans);
    print_number(answer);
    printf("%u ", stuiverhaag_audio(answer));
    print_written(uri);
    putchar(' ');
    print_written(text);
    putchar('\n');
}

/* text MESSAGE STATION TEXTCAP URICAP */
static bool answer_text(const struct line *line, struct loans *loans)
{
    const struct lent *message, *station;
    struct lent *text, *uri;

    if (line->count != 5)
        return false;
    message = lend_hex(loans, line->field[1]);
    station = lend_hex(loans, line->field[2]);
    text = lend_output(loans, line->field[3]);
    uri = lend_output(loans, line->field[4]);
    if (message == NULL || station == NULL || text == NULL || uri == NULL)
        return false;
    note(loans);
    text_answered(loans, text, uri,
                  stuiverhaag_text(message->bytes, message->length, station->bytes, station->length,
                                   text->bytes, text->length, uri->bytes, uri->length));
    return true;
}

/* canadian MESSAGE TEXTCAP URICAP */
static bool answer_canadian(const struct line *line, struct loans *loans)
{
    const struct lent *message;
    struct lent *text, *uri;

    if (line->count != 4)
        return false;
    message = lend_hex(loans, line->field[1]);
    text = lend_output(loans, line->field[2]);
    uri = lend_output(loans, line->field[3]);
    if (message == NULL || text == NULL || uri == NULL)
        return false;
    note(loans);
    text_answered(loans, text, uri,
                  stuiverhaag_canadian(message->bytes, message->length, text->bytes, text->length,
                                       uri->bytes, uri->length));
    return true;
}

/* After 0 any byte of a board may be another; after a refusal none is. */
static void board_answered(struct lent *board, uint64_t answer)
{
    check_refusal(answer);
    board->written = stuiverhaag_number(answer) == STUIVERHAAG_DONE ? board->length : 0;
}

/* offer BOARD MESSAGE */
static bool answer_offer(const struct line *line, struct loans *loans)
{
    struct lent *board;
    const struct lent *message;
    uint64_t answer;

    if (line->count != 3)
        return false;
    board = lend_hex(loans, line->field[1]);
    message = lend_hex(loans, line->field[2]);
    if (board == NULL || message == NULL)
        return false;
    note(loans);
    answer = stuiverhaag_offer(board->bytes, board->length, message->bytes, message->length);
    board_answered(board, answer);
    compare(loans);
    print_number(answer);
    printf("%u ", stuiverhaag_added(answer));
    print_hex(board->bytes, board->length);
    putchar('\n');
    return true;
}

/* handout BOARD */
static bool answer_hand_out(const struct line *line, struct loans *loans)
{
    struct lent *board;
    uint64_t answer;

    if (line->count != 2)
        return false;
    board = lend_hex(loans, line->field[1]);
    if (board == NULL)
        return false;
    note(loans);
    answer = stuiverhaag_hand_out(board->bytes, board->length);
    board_answered(board, answer);
    compare(loans);
    printf("%u %u ", stuiverhaag_number(answer), stuiverhaag_index(answer));
    print_hex(board->bytes, board->length);
    putchar('\n');
    return true;
}

static bool answer_line(const struct line *line, struct loans *loans)
{
    if (line->count == 0)
        return false;
    if (is(line->field[0], "read"))
        return answer_read(line, loans);
    if (is(line->field[0], "write"))
        return answer_write(line, loans);
    if (is(line->field[0], "header"))
        return answer_header(line, loans);
    if (is(line->field[0], "text"))
        return answer_text(line, loans);
    if (is(line->field[0], "canadian"))
        return answer_canadian(line, loans);
    if (is(line->field[0], "offer"))
        return answer_offer(line, loans);
    if (is(line->field[0], "handout"))
        return answer_hand_out(line, loans);
    return false;
}

/* ---- the lines */

/* Reads a line without its end: how long it is, and one more than the longest for every longer one. */
static bool read_line(uint8_t *bytes, size_t *length)
{
    int byte = getchar();

    *length = 0;
    if (byte == EOF)
        return false;
    while (byte != EOF && byte != '\n') {
        if (*length <= LONGEST_LINE)
            bytes[(*length)++] = (uint8_t)byte;
        byte = getchar();
    }
    return true;
}

int main(void)
{
    static uint8_t bytes[LONGEST_LINE + 1];
    struct loans loans = {.count = 0};
    size_t length;

    for (line_number = 1; read_line(bytes, &length); line_number++) {
        struct line line = split(bytes, length);

        if (length > LONGEST_LINE || !answer_line(&line, &loans))
            puts("?");
        give_back(&loans);
    }
    return fflush(stdout) == 0 ? EXIT_SUCCESS : EXIT_FAILURE;
}
