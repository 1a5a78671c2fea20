#include "calls.h"

#include "boards.h"
#include "characters.h"
#include "lent.h"
#include "replay.h"

#include <stdio.h>
#include <string.h>

/* What a slice is to a call. One before BOARD is read, a board is changed, and one behind it is an output. */
enum use { MESSAGE, STATION, PART, HEADER, BOARD, HEADER_OUTPUT, TEXT_OUTPUT, URI_OUTPUT, USES };

/* An output has NULL for its bytes. */
struct used {
    enum use use;
    struct slice slice;
};

/* A call with all that it is lent. */
struct asked {
    enum call call;
    const struct parts *parts;
    struct used used[MOST_LENT];
    size_t count;
};

/* What a call answered, and of each slice what it wrote. */
struct answered {
    enum call call;
    uint64_t answer;
    struct bytes wrote[MOST_LENT];
};

static const char *const names[CALLS] = {
    "stuiverhaag_header", "stuiverhaag_text", "stuiverhaag_canadian", "stuiverhaag_read_header",
    "stuiverhaag_write_header", "stuiverhaag_offer", "stuiverhaag_hand_out",
};

/* The numbers that a call may answer, a bit for each. */
static const uint32_t numbers[CALLS] = {
    1u << 0 | 0x7ffcu,           /* 0 and 2 to 14 */
    1u << 0 | 0x7ffcu,           /* the same */
    1u << 0 | 0x3f4u | 1u << 18, /* 0, 2, 4 to 9 and 18 */
    1u << 0 | 1u << 17,          /* 0 and 17 */
    1u << 0 | 0xcu | 1u << 17,   /* 0, 2, 3 and 17 */
    1u << 0 | 1u << 1 | 0xfff0u, /* 0, 1 and 4 to 15 */
    1u << 0 | 1u << 1 | 0x18000u /* 0, 1, 15 and 16 */
};

/* What an output is called, and how many bytes it must have. */
static const struct {
    const char *name;
    size_t enough;
} outputs[USES] = {
    [HEADER_OUTPUT] = {"header", STUIVERHAAG_HEADER_LENGTH},
    [TEXT_OUTPUT] = {"text", STUIVERHAAG_TEXT_LENGTH},
    [URI_OUTPUT] = {"uri", STUIVERHAAG_URI_LENGTH},
};

/* Kinds of text, of which one may be several. */
enum text_kind { HAS_TWO, HAS_THREE, HAS_FOUR, OF_MORE_BYTES, OF_MOST_CHARACTERS, OF_MOST_BYTES, TEXT_KINDS };

static const char *const text_kinds[TEXT_KINDS] = {
    "with characters of 2 bytes", "of 3", "of 4", "of more than 1,800 bytes", "of 1,800 characters", "of 7,200 bytes",
};

static const uint8_t bench[] = "BENCH/01";
const struct slice bench_station = {bench, STUIVERHAAG_STATION_LENGTH};
const struct lengths just_enough = {STUIVERHAAG_HEADER_LENGTH, STUIVERHAAG_TEXT_LENGTH, STUIVERHAAG_URI_LENGTH};

static unsigned long counts[CALLS][NUMBERS];
static unsigned long fields[CALLS][FIELDS];
static unsigned long texts[CALLS][TEXT_KINDS];
static unsigned long nothing_given[CALLS];
static unsigned long short_by_one[CALLS][USES];
static unsigned long short_of_all[CALLS][USES];
static unsigned long decided_by_characters;
static unsigned long decided_by_records;
static unsigned long wide_calls;
static bool printing;
static struct answered last;

struct slice slice_of(const struct bytes *bytes)
{
    return (struct slice){bytes->byte, bytes->length};
}

struct slice written_header(void)
{
    return slice_of(&last.wrote[last.call == GIVE_HEADER ? 2 : 3]);
}

struct slice written_text(void)
{
    return slice_of(&last.wrote[last.call == GIVE_TEXT ? 2 : 1]);
}

struct slice written_uri(void)
{
    return slice_of(&last.wrote[last.call == GIVE_TEXT ? 3 : 2]);
}

void print_calls(void)
{
    printing = true;
}

/* ---- what can be said of an answer by itself */

static bool is_printable(const struct bytes *bytes)
{
    for (size_t i = 0; i < bytes->length; i++)
        if (bytes->byte[i] < 32 || bytes->byte[i] > 126)
            return false;
    return true;
}

static bool is_station(struct slice station)
{
    if (station.length != STUIVERHAAG_STATION_LENGTH)
        return false;
    for (size_t i = 0; i < STUIVERHAAG_STATION_LENGTH; i++)
        if (station.bytes[i] < 32 || station.bytes[i] > 126 || station.bytes[i] == '-' || station.bytes[i] == '+')
            return false;
    return true;
}

static bool is_message_length(size_t length)
{
    return length >= 1 && length <= STUIVERHAAG_MESSAGE_LONGEST;
}

static bool is_header_length(size_t length)
{
    return length >= 42 && length <= STUIVERHAAG_HEADER_LENGTH && length % 7 == 0;
}

/* A refusal is its number alone, and after 7 its field. */
static void check_number(enum call call, uint64_t answer)
{
    unsigned number = stuiverhaag_number(answer);
    uint64_t field = number == STUIVERHAAG_ELEMENT_BAD ? stuiverhaag_field(answer) : 0;

    must(number < NUMBERS && (numbers[call] >> number & 1) == 1, "The number is none that this call may answer.");
    must(number == STUIVERHAAG_DONE || answer == (field << 8 | number), "A refusal has more than its number.");
    must(number != STUIVERHAAG_ELEMENT_BAD ||
         (field >= STUIVERHAAG_FIELD_IDENTIFIER && field <= STUIVERHAAG_FIELD_OTHER), "The field is none of 1 to 7.");
}

static unsigned decided_by_message(struct slice message)
{
    if (!is_message_length(message.length))
        return STUIVERHAAG_MESSAGE_LENGTH_BAD;
    return are_of_message(message.bytes, message.length) ? STUIVERHAAG_DONE : STUIVERHAAG_XML_BAD;
}

/* The number that a slice alone decides, by its length, its characters, its records or as a station; 0 for none. */
static unsigned decided_by(const struct used *used)
{
    size_t length = used->slice.length;

    switch (used->use) {
    case MESSAGE:
        return decided_by_message(used->slice);
    case STATION:
        return is_station(used->slice) ? STUIVERHAAG_DONE : STUIVERHAAG_STATION_BAD;
    case HEADER:
        return is_header_length(length) ? STUIVERHAAG_DONE : STUIVERHAAG_NO_HEADER;
    case BOARD:
        return keeps_rules(used->slice.bytes, length) ? STUIVERHAAG_DONE : STUIVERHAAG_BOARD_RULES;
    case PART:
        return STUIVERHAAG_DONE;
    default:
        return length >= outputs[used->use].enough ? STUIVERHAAG_DONE : STUIVERHAAG_OUTPUT_SHORT;
    }
}

/* The lowest number that a slice alone decides; 0 where none does. */
static unsigned lowest_decided(const struct asked *asked)
{
    unsigned lowest = STUIVERHAAG_DONE;

    for (size_t i = 0; i < asked->count; i++) {
        unsigned decided = decided_by(&asked->used[i]);

        if (decided != STUIVERHAAG_DONE && (lowest == STUIVERHAAG_DONE || decided < lowest))
            lowest = decided;
    }
    return lowest;
}

/* That number is answered, and 1 to 4 only where they are so decided. */
static void check_decided(unsigned lowest, unsigned number)
{
    must(lowest == STUIVERHAAG_DONE || number == lowest,
         "The number is not the one that a length, the station, the records or the message's characters decide.");
    must(number < STUIVERHAAG_BOARD_RULES || number > STUIVERHAAG_MESSAGE_LENGTH_BAD || number == lowest,
         "Number 1, 2, 3 or 4 does not go with the lengths, the station and the records.");
    decided_by_characters += lowest == STUIVERHAAG_XML_BAD && number == lowest;
}

/* Counts a text by its bytes, its characters, and how many of these have as many bytes as their index says. */
static void count_text(enum call call, size_t length, size_t characters, const size_t *of_length)
{
    unsigned long *kinds = texts[call];

    kinds[HAS_TWO] += of_length[2] > 0;
    kinds[HAS_THREE] += of_length[3] > 0;
    kinds[HAS_FOUR] += of_length[4] > 0;
    kinds[OF_MORE_BYTES] += length > STUIVERHAAG_TEXT_CHARACTERS;
    kinds[OF_MOST_CHARACTERS] += characters == STUIVERHAAG_TEXT_CHARACTERS;
    kinds[OF_MOST_BYTES] += length == STUIVERHAAG_TEXT_LENGTH;
}

/* A text is UTF-8 of legal characters; its white space is collapsed, and it begins with none. */
static void check_characters(enum call call, const struct bytes *text)
{
    size_t characters = 0;
    size_t of_length[LONGEST_CHARACTER + 1] = {0};
    bool spaced = true;

    for (size_t at = 0; at < text->length; characters++) {
        uint32_t character = 0;
        size_t taken = character_at(text->byte + at, text->length - at, &character);

        must(taken > 0, "The text is not UTF-8.");
        must(is_legal(character), "The text has a character that XML 1.0 has not.");
        must(character >= ' ' && !(character == ' ' && spaced), "The text has white space that is not one space.");
        spaced = character == ' ';
        of_length[taken]++;
        at += taken;
    }
    must(characters <= STUIVERHAAG_TEXT_CHARACTERS, "The text has more than 1,800 characters.");
    count_text(call, text->length, characters, of_length);
}

/* The text and the audio of either mode, one by one and beside each other. */
static void check_text(enum call call, uint64_t answer, const struct bytes *text, const struct bytes *uri)
{
    must(text->length > 0 && text->length <= STUIVERHAAG_TEXT_LENGTH, "The text has no byte, or more than 7,200.");
    check_characters(call, text);
    must(stuiverhaag_audio(answer) <= STUIVERHAAG_AUDIO_STREAMING_MP3, "The audio is none of its numbers.");
    must((stuiverhaag_audio(answer) == STUIVERHAAG_AUDIO_NONE) == (uri->length == 0),
         "There is a uri without audio, or none with it.");
    must(uri->length <= STUIVERHAAG_URI_LENGTH, "The uri has more than 1,024 bytes.");
    must(is_printable(uri), "The uri has a byte that is none of 32 to 126.");
}

/* A header and its carry, and nothing else; neither for a Cancel that activates nothing. */
static void check_given_header(const struct answered *answered)
{
    uint64_t answer = answered->answer;
    uint64_t length = answered->wrote[2].length;
    uint64_t carry = stuiverhaag_carry(answer);

    must(answer == (length << 16 | carry << 28), "The answer has more than a header and a carry.");
    must(length > 0 || carry == 0, "A Cancel that activates nothing has a carry.");
    must(length == 0 || is_header_length(length), "The header has a length that no header has.");
    must(carry <= 1, "The carry is neither 0 nor 1.");
}

/* A text and an audio, and nothing else; in the American mode neither for a Cancel that activates nothing. */
static void check_given_text(const struct answered *answered, const struct bytes *text, const struct bytes *uri)
{
    uint64_t answer = answered->answer;

    must(stuiverhaag_field(answer) == 0 && stuiverhaag_header_length(answer) == 0 && stuiverhaag_carry(answer) == 0,
         "The answer has more than a text and an audio.");
    if (answered->call == GIVE_TEXT && text->length == 0)
        must(answer == 0, "A Cancel that activates nothing has an audio.");
    else
        check_text(answered->call, answer, text, uri);
}

static void check_read(uint64_t answer, size_t length)
{
    unsigned originator = stuiverhaag_originator(answer);
    unsigned period = stuiverhaag_period(answer);
    unsigned day = stuiverhaag_day(answer);

    must(originator >= STUIVERHAAG_ORG_PEP && originator <= STUIVERHAAG_ORG_CIV, "The originator is none of the four.");
    must(length == 35 + 7 * stuiverhaag_locations(answer), "The header has another number of locations.");
    must(period == 15 || period == 45 || (period % 30 == 0 && period >= 30 && period <= 5970), "The period is none.");
    must(day >= 1 && day <= 366, "The day is none of 1 to 366.");
    must(stuiverhaag_hour(answer) <= 23 && stuiverhaag_minute(answer) <= 59, "The time is none of a day.");
}

/* What an answer of 0 has, and that it has nothing else. What a board then holds is for the caller to check. */
static void check_done(const struct asked *asked, const struct answered *answered)
{
    uint64_t answer = answered->answer;

    switch (asked->call) {
    case GIVE_HEADER:
        check_given_header(answered);
        break;
    case GIVE_TEXT:
        check_given_text(answered, &answered->wrote[2], &answered->wrote[3]);
        break;
    case CANADIAN:
        check_given_text(answered, &answered->wrote[1], &answered->wrote[2]);
        break;
    case READ_HEADER:
        check_read(answer, asked->used[0].slice.length);
        break;
    case WRITE_HEADER:
        must(answer == (uint64_t)stuiverhaag_header_length(answer) << 16, "The answer has more than a length.");
        must(is_header_length(stuiverhaag_header_length(answer)), "The header has a length that no header has.");
        break;
    case OFFER:
        must(answer == (uint64_t)stuiverhaag_added(answer) << 16, "The answer has more than what was added.");
        break;
    default:
        must(answer == (uint64_t)stuiverhaag_index(answer) << 16, "The answer has more than an index.");
    }
}

/* ---- making a call */

/* How many bytes of a slice the answer says were written. After 0 any byte of a board may be another. */
static size_t written(const struct used *used, uint64_t answer)
{
    if (stuiverhaag_number(answer) != STUIVERHAAG_DONE)
        return 0;
    switch (used->use) {
    case BOARD:
        return used->slice.length;
    case HEADER_OUTPUT:
        return stuiverhaag_header_length(answer);
    case TEXT_OUTPUT:
        return stuiverhaag_text_length(answer);
    case URI_OUTPUT:
        return stuiverhaag_uri_length(answer);
    default:
        return 0;
    }
}

static void print_asked(const struct asked *asked)
{
    const struct parts *parts = asked->parts;

    printf("%s\n", names[asked->call]);
    if (parts != NULL)
        printf("  originator %u, period %u, day %u, hour %u, minute %u\n", (unsigned)parts->originator,
               (unsigned)parts->period, (unsigned)parts->day, (unsigned)parts->hour, (unsigned)parts->minute);
    for (size_t i = 0; i < asked->count; i++) {
        struct slice slice = asked->used[i].slice;

        printf("  %lu bytes ", (unsigned long)slice.length);
        for (size_t k = 0; slice.bytes != NULL && k < slice.length % WIDE; k++)
            printf("%02x", (unsigned)slice.bytes[k]);
        putchar('\n');
    }
    fflush(stdout);
}

static uint64_t make_call(const struct asked *asked, uint8_t *const *lent)
{
    const struct used *used = asked->used;
    const struct parts *parts = asked->parts;

    switch (asked->call) {
    case GIVE_HEADER:
        return stuiverhaag_header(lent[0], used[0].slice.length, lent[1], used[1].slice.length,
                                  lent[2], used[2].slice.length);
    case GIVE_TEXT:
        return stuiverhaag_text(lent[0], used[0].slice.length, lent[1], used[1].slice.length,
                                lent[2], used[2].slice.length, lent[3], used[3].slice.length);
    case CANADIAN:
        return stuiverhaag_canadian(lent[0], used[0].slice.length, lent[1], used[1].slice.length,
                                    lent[2], used[2].slice.length);
    case READ_HEADER:
        return stuiverhaag_read_header(lent[0], used[0].slice.length);
    case WRITE_HEADER:
        return stuiverhaag_write_header(parts->originator, lent[0], used[0].slice.length,
                                        lent[1], used[1].slice.length,
                                        parts->period, parts->day, parts->hour, parts->minute,
                                        lent[2], used[2].slice.length, lent[3], used[3].slice.length);
    case OFFER:
        return stuiverhaag_offer(lent[0], used[0].slice.length, lent[1], used[1].slice.length);
    default:
        return stuiverhaag_hand_out(lent[0], used[0].slice.length);
    }
}

/* Counts the output that a call was refused for, where no other was short and its length is at a border. */
static void count_short(const struct asked *asked)
{
    const struct used *lacks = NULL;

    for (size_t i = 0; i < asked->count; i++) {
        if (asked->used[i].use <= BOARD || decided_by(&asked->used[i]) == STUIVERHAAG_DONE)
            continue;
        if (lacks != NULL)
            return;
        lacks = &asked->used[i];
    }
    short_by_one[asked->call][lacks->use] += lacks->slice.length + 1 == outputs[lacks->use].enough;
    short_of_all[asked->call][lacks->use] += lacks->slice.length == 0;
}

static void count(const struct asked *asked, uint64_t answer)
{
    bool has_wide = false;

    counts[asked->call][stuiverhaag_number(answer)]++;
    if (stuiverhaag_number(answer) == STUIVERHAAG_ELEMENT_BAD)
        fields[asked->call][stuiverhaag_field(answer)]++;
    if (stuiverhaag_number(answer) == STUIVERHAAG_OUTPUT_SHORT)
        count_short(asked);
    nothing_given[asked->call] += answer == 0;
    if (stuiverhaag_number(answer) == STUIVERHAAG_BOARD_RULES)
        decided_by_records += is_board_length(asked->used[0].slice.length);
    for (size_t i = 0; i < asked->count; i++)
        has_wide = has_wide || asked->used[i].slice.length >= WIDE;
    wide_calls += has_wide;
}

/* Makes a call once and checks it, also by the lowest number that a slice alone decides. */
static void ask_once(const struct asked *asked, enum side side, unsigned lowest, struct answered *answered)
{
    uint8_t *lent[MOST_LENT];

    for (size_t i = 0; i < asked->count; i++) {
        const struct used *used = &asked->used[i];

        lent[i] = lend(i, used->slice.bytes, used->slice.length, side, used->use < BOARD);
    }
    place.calls++;
    answered->call = asked->call;
    answered->answer = make_call(asked, lent);
    check_number(asked->call, answered->answer);
    check_decided(lowest, stuiverhaag_number(answered->answer));
    count(asked, answered->answer);
    for (size_t i = 0; i < asked->count; i++) {
        size_t length = written(&asked->used[i], answered->answer);

        compare(i, length);
        answered->wrote[i].length = 0;
        put_bytes(&answered->wrote[i], lent[i], length);
    }
    if (stuiverhaag_number(answered->answer) == STUIVERHAAG_DONE)
        check_done(asked, answered);
}

/* Makes a call at both sides. */
static uint64_t ask(const struct asked *asked)
{
    static struct answered again;
    unsigned lowest = lowest_decided(asked);

    place.call = names[asked->call];
    if (printing)
        print_asked(asked);
    ask_once(asked, AT_END, lowest, &last);
    ask_once(asked, AT_START, lowest, &again);
    must(last.answer == again.answer, "The same call has another answer when it is made again.");
    for (size_t i = 0; i < asked->count; i++)
        must(last.wrote[i].length == again.wrote[i].length &&
             memcmp(last.wrote[i].byte, again.wrote[i].byte, again.wrote[i].length) == 0,
             "The same call writes other bytes when it is made again.");
    return last.answer;
}

/* ---- the calls */

static struct used output(enum use use, size_t length)
{
    return (struct used){use, {NULL, length}};
}

uint64_t give_header(struct slice message, struct slice station, struct lengths lengths)
{
    struct asked asked = {GIVE_HEADER, NULL, {{MESSAGE, message}, {STATION, station},
                          output(HEADER_OUTPUT, lengths.header)}, 3};

    return ask(&asked);
}

uint64_t give_text(struct slice message, struct slice station, struct lengths lengths)
{
    struct asked asked = {GIVE_TEXT, NULL, {{MESSAGE, message}, {STATION, station},
                          output(TEXT_OUTPUT, lengths.text), output(URI_OUTPUT, lengths.uri)}, 4};

    return ask(&asked);
}

uint64_t canadian(struct slice message, struct lengths lengths)
{
    struct asked asked = {CANADIAN, NULL, {{MESSAGE, message}, output(TEXT_OUTPUT, lengths.text),
                          output(URI_OUTPUT, lengths.uri)}, 3};

    return ask(&asked);
}

uint64_t read_header(struct slice header)
{
    struct asked asked = {READ_HEADER, NULL, {{HEADER, header}}, 1};

    return ask(&asked);
}

uint64_t write_header(const struct parts *parts, size_t out_length)
{
    struct asked asked = {WRITE_HEADER, parts, {{PART, parts->event}, {PART, parts->locations},
                          {STATION, parts->station}, output(HEADER_OUTPUT, out_length)}, 4};

    return ask(&asked);
}

/* Makes a call that changes a board, and takes over what it left. */
static uint64_t ask_board(const struct asked *asked, struct bytes *board)
{
    uint64_t answer = ask(asked);

    if (stuiverhaag_number(answer) == STUIVERHAAG_DONE)
        copy(board, &last.wrote[0]);
    return answer;
}

uint64_t offer(struct bytes *board, struct slice message)
{
    struct asked asked = {OFFER, NULL, {{BOARD, slice_of(board)}, {MESSAGE, message}}, 2};

    return ask_board(&asked, board);
}

uint64_t hand_out(struct bytes *board)
{
    struct asked asked = {HAND_OUT, NULL, {{BOARD, slice_of(board)}}, 1};

    return ask_board(&asked, board);
}

/* ---- what was answered */

void print_grouped(unsigned long number)
{
    if (number < 1000) {
        printf("%lu", number);
        return;
    }
    print_grouped(number / 1000);
    printf(",%03lu", number % 1000);
}

bool print_seen(unsigned long count, const char *what)
{
    print_grouped(count);
    printf(" %s\n", what);
    return count > 0;
}

static void print_count(const char *before, unsigned number, unsigned long count)
{
    printf("%s%u: ", before, number);
    print_grouped(count);
}

bool print_numbers(const unsigned long *counts, uint32_t numbers)
{
    bool seen = true;

    for (unsigned i = 0; i < NUMBERS; i++) {
        if ((numbers >> i & 1) == 0)
            continue;
        print_count(", ", i, counts[i]);
        seen = seen && counts[i] > 0;
    }
    putchar('\n');
    return seen;
}

bool print_fields(const unsigned long *counts)
{
    bool seen = true;

    printf(" after 7 field");
    for (unsigned i = 1; i < FIELDS; i++) {
        print_count(i == 1 ? " " : ", ", i, counts[i]);
        seen = seen && counts[i] > 0;
    }
    putchar('\n');
    return seen;
}

/* Whether each number of a call was answered. */
static bool print_call(enum call call)
{
    unsigned long all = 0;

    for (unsigned i = 0; i < NUMBERS; i++)
        all += counts[call][i];
    printf("%s: ", names[call]);
    print_grouped(all);
    printf(" calls");
    return print_numbers(counts[call], numbers[call]);
}

/* Whether after 7 each field was answered. */
static bool print_call_fields(enum call call)
{
    printf("%s:", names[call]);
    return print_fields(fields[call]);
}

/* Whether each kind of text was answered. Beside a header's sentence there is no room for 7,200 bytes. */
static bool print_texts(enum call call)
{
    size_t kinds = call == GIVE_TEXT ? OF_MOST_BYTES : TEXT_KINDS;
    bool seen = true;

    printf("%s: texts", names[call]);
    for (size_t i = 0; i < kinds; i++) {
        printf("%s %s: ", i == 0 ? "" : ",", text_kinds[i]);
        print_grouped(texts[call][i]);
        seen = seen && texts[call][i] > 0;
    }
    putchar('\n');
    return seen;
}

/* Whether an output of a call was refused that lacks one byte, and one that has none. */
static bool print_short(enum call call, enum use use)
{
    printf("%s: refused for its %s output alone, where it lacked one byte: ", names[call], outputs[use].name);
    print_grouped(short_by_one[call][use]);
    printf(", where it had none: ");
    print_grouped(short_of_all[call][use]);
    putchar('\n');
    return short_by_one[call][use] > 0 && short_of_all[call][use] > 0;
}

static bool print_all_short(void)
{
    bool seen = print_short(GIVE_HEADER, HEADER_OUTPUT);

    seen = print_short(GIVE_TEXT, TEXT_OUTPUT) && seen;
    seen = print_short(GIVE_TEXT, URI_OUTPUT) && seen;
    seen = print_short(CANADIAN, TEXT_OUTPUT) && seen;
    seen = print_short(CANADIAN, URI_OUTPUT) && seen;
    return print_short(WRITE_HEADER, HEADER_OUTPUT) && seen;
}

/* Whether a Cancel that activates nothing was answered 0. */
static bool print_quiet(enum call call)
{
    printf("%s: after 0 ", names[call]);
    return print_seen(nothing_given[call], "were Cancels that activate nothing");
}

bool print_counts(void)
{
    bool seen = true;

    for (enum call call = GIVE_HEADER; call < CALLS; call++)
        seen = print_call(call) && seen;
    seen = print_call_fields(GIVE_HEADER) && seen;
    seen = print_call_fields(GIVE_TEXT) && seen;
    seen = print_call_fields(CANADIAN) && seen;
    seen = print_call_fields(OFFER) && seen;
    seen = print_texts(GIVE_TEXT) && seen;
    seen = print_texts(CANADIAN) && seen;
    seen = print_quiet(GIVE_HEADER) && seen;
    seen = print_quiet(GIVE_TEXT) && seen;
    seen = print_all_short() && seen;
    print_grouped(decided_by_characters);
    printf(" of all calls were answered 5 for a message that is not UTF-8 or has characters that XML 1.0 has not\n");
    print_grouped(decided_by_records);
    printf(" of all calls were answered 1 for the records of a board, whose length is one that a board has\n");
    print_grouped(wide_calls);
    printf(" of all calls had a slice of more than 4,294,967,295 bytes%s\n",
           lends_wide() ? "" : ", since this machine does not lend them");
    return seen && decided_by_characters > 0 && decided_by_records > 0;
}
