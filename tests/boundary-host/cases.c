#include "cases.h"

#include "activations.h"
#include "alerts.h"
#include "boards.h"
#include "both.h"
#include "calls.h"
#include "handed.h"
#include "lent.h"
#include "messages.h"
#include "replay.h"
#include "spellings.h"
#include "stuiverhaag.h"
#include "times.h"
#include "years.h"

#include <stdio.h>
#include <string.h>

#define STATION STUIVERHAAG_STATION_LENGTH
#define MOST_RELATED 10

/* How often what one call gave was held beside what another gave. */
static struct {
    unsigned long written_again, read_again, modes, notices, taken_again, orders, due, due_years, zones;
} compared;

/* ---- headers */

static void put_station(struct bytes *out)
{
    static const char *const odd[] = {
        "BENCH-01", "BENCH+01", "BENCH/0", "BENCH/012", "", "BENCH/0\x7f", "BENCH/0\x1f", "\xff",
    };
    static const char marks[] = "/ ~!,.0";

    out->length = 0;
    if (once_in(20)) {
        put(out, PICK(odd));
        return;
    }
    for (size_t left = STATION; left > 0; left--)
        put_byte(out, (unsigned)(once_in(4) ? marks[below(sizeof marks - 1)] : 'A' + (int)below(26)));
}

/* What was read of a header gives the same bytes when it is written. */
static void check_written_again(struct slice header, uint64_t answer)
{
    uint8_t locations[6 * 31];
    size_t count = stuiverhaag_locations(answer);
    struct parts parts = {
        .originator = stuiverhaag_originator(answer),
        .period = stuiverhaag_period(answer),
        .day = stuiverhaag_day(answer),
        .hour = stuiverhaag_hour(answer),
        .minute = stuiverhaag_minute(answer),
        .event = {header.bytes + 9, 3},
        .locations = {locations, 6 * count},
        .station = {header.bytes + header.length - STATION - 1, STATION},
    };

    for (size_t i = 0; i < count; i++)
        memcpy(locations + 6 * i, header.bytes + 13 + 7 * i, 6);
    if (stuiverhaag_number(write_header(&parts, STUIVERHAAG_HEADER_LENGTH)) != STUIVERHAAG_DONE)
        broken("The parts of a header that was read are refused.");
    if (written_header().length != header.length || memcmp(written_header().bytes, header.bytes, header.length) != 0)
        broken("The parts of a header that was read give another header.");
    compared.written_again++;
}

/* Reads a header; whether it is one. */
static bool check_header(struct slice header)
{
    uint64_t answer = read_header(header);

    if (stuiverhaag_number(answer) != STUIVERHAAG_DONE)
        return false;
    check_written_again(header, answer);
    return true;
}

static void put_header(struct bytes *out)
{
    static struct bytes station;
    static const char *const originators[] = {"PEP", "EAS", "WXR", "CIV", "CIV", "EAN"};
    static const size_t counts[] = {1, 1, 2, 3, 30, 31, 31, 32, 0};
    static const char *const periods[] = {"0015", "0030", "0045", "0100", "9930", "2330", "0000", "0060", "9945"};
    static const uint64_t days[] = {1, 95, 365, 366, 1, 95, 0, 367};

    put(out, "ZCZC-");
    put(out, PICK(originators));
    put(out, once_in(12) ? "-C1M" : "-CEM");
    for (size_t left = PICK(counts); left > 0; left--) {
        put_byte(out, '-');
        put_number(out, below(1000000), 6);
    }
    put_byte(out, '+');
    put(out, PICK(periods));
    put_byte(out, '-');
    put_number(out, PICK(days), 3);
    put_number(out, below(once_in(8) ? 30 : 24), 2);
    put_number(out, below(once_in(8) ? 70 : 60), 2);
    put_byte(out, '-');
    put_station(&station);
    put_bytes(out, station.byte, station.length);
    put_byte(out, '-');
}

static void case_read(void)
{
    static struct bytes header;
    static const size_t lengths[] = {0, 1, 41, 42, 251, 252, 253, 4096, 65535, 100000};

    header.length = 0;
    if (once_in(12))
        put_chance(&header, once_in(4) ? PICK(lengths) : below(300));
    else
        put_header(&header);
    while (once_in(3))
        damage(&header);
    check_header(slice_of(&header));
}

/* A number as it is most often, else another, or one of which only the low bits are the number. */
static uint32_t or_other(uint32_t number)
{
    static const uint32_t others[] = {0, 1, 5, 15, 24, 60, 75, 255, 367, 6000, 0x7fffffff, 0x80000000, UINT32_MAX};
    static const uint32_t above[] = {0x80, 0x100, 0x200, 0x10000, 0x1000000, 0x80000000};

    if (!once_in(16))
        return number;
    return once_in(2) ? PICK(others) : number + PICK(above);
}

static uint32_t draw_number(uint32_t low, uint32_t high)
{
    return or_other(low + (uint32_t)below(high - low + 1));
}

static void put_event(struct bytes *out)
{
    static const char *const odd[] = {"", "C", "CE", "CEMX", "cem", "C1M", "@AB", "AB[", "\xff\xff\xff"};

    out->length = 0;
    if (once_in(16))
        put(out, PICK(odd));
    else
        for (size_t left = 3; left > 0; left--)
            put_byte(out, (unsigned)('A' + below(26)));
    if (once_in(50))
        damage(out);
}

static void put_locations(struct bytes *out)
{
    static const size_t counts[] = {1, 1, 2, 3, 30, 31};
    static const size_t odd[] = {0, 32, 33, 256, 10000};

    out->length = 0;
    for (size_t left = once_in(12) ? PICK(odd) : PICK(counts); left > 0; left--)
        put_number(out, below(1000000), 6);
    if (once_in(12))
        damage(out);
}

/* A written header is read as what was written. */
static void check_read_again(const struct parts *parts)
{
    struct slice written = written_header();
    uint8_t header[STUIVERHAAG_HEADER_LENGTH];
    uint64_t answer;

    memcpy(header, written.bytes, written.length);
    answer = read_header((struct slice){header, written.length});
    if (stuiverhaag_number(answer) != STUIVERHAAG_DONE)
        broken("A header that was written is refused.");
    if (stuiverhaag_originator(answer) != parts->originator || stuiverhaag_period(answer) != parts->period ||
        stuiverhaag_day(answer) != parts->day || stuiverhaag_hour(answer) != parts->hour ||
        stuiverhaag_minute(answer) != parts->minute || stuiverhaag_locations(answer) * 6 != parts->locations.length)
        broken("A header that was written is read as another one.");
    for (size_t i = 0; i < parts->locations.length; i++)
        if (header[13 + i + i / 6] != parts->locations.bytes[i])
            broken("A location is read that was not written.");
    if (memcmp(header + 9, parts->event.bytes, 3) != 0 ||
        memcmp(header + written.length - STATION - 1, parts->station.bytes, STATION) != 0)
        broken("An event or a station is read that was not written.");
    compared.read_again++;
}

/* An output's length: most often enough, once in a while short, by one byte, by some or by all. */
static size_t draw_length(size_t enough)
{
    static const size_t longer[] = {1, 7, 100, 4096, 65536};
    const size_t short_ones[] = {enough - 1, below(enough), 0};

    if (once_in(50))
        return PICK(short_ones);
    return once_in(4) ? enough + PICK(longer) : enough;
}

static void case_write(void)
{
    static struct bytes event, locations, station;
    static const uint32_t periods[] = {15, 30, 45, 60, 90, 5940, 5970, 1410};
    struct parts parts;

    parts.originator = draw_number(STUIVERHAAG_ORG_PEP, STUIVERHAAG_ORG_CIV);
    parts.period = once_in(8) ? draw_number(0, 6000) : or_other(PICK(periods));
    parts.day = draw_number(1, 366);
    parts.hour = draw_number(0, 23);
    parts.minute = draw_number(0, 59);
    put_event(&event);
    put_locations(&locations);
    put_station(&station);
    parts.event = slice_of(&event);
    parts.locations = slice_of(&locations);
    parts.station = slice_of(&station);
    if (stuiverhaag_number(write_header(&parts, draw_length(STUIVERHAAG_HEADER_LENGTH))) == STUIVERHAAG_DONE)
        check_read_again(&parts);
}

/* ---- conversions */

/* Gives the header of a message, which is read, and written again. */
static uint64_t check_given_header(struct slice message, struct slice station, struct lengths lengths,
                                   struct bytes *header)
{
    uint64_t answer = give_header(message, station, lengths);

    header->length = 0;
    put_bytes(header, written_header().bytes, written_header().length);
    if (header->length == 0)
        return answer;
    if (memcmp(header->byte + header->length - STATION - 1, station.bytes, STATION) != 0)
        broken("The header has another station.");
    if (!check_header(slice_of(header)))
        broken("The header of a message is refused.");
    return answer;
}

static bool are_enough(struct lengths lengths)
{
    return lengths.header >= just_enough.header && lengths.text >= just_enough.text && lengths.uri >= just_enough.uri;
}

/* Converts a message by both calls. */
static void check_convert(struct slice message, struct slice station, struct lengths lengths)
{
    static struct bytes header;
    uint64_t of_header = check_given_header(message, station, lengths, &header);
    uint64_t of_text = give_text(message, station, lengths);

    if (are_enough(lengths))
        check_both(of_header, slice_of(&header), of_text, written_text());
}

/* As many bytes as a text has characters, or one more or less, are short too. */
static size_t draw_text_length(void)
{
    static const size_t short_ones[] = {
        STUIVERHAAG_TEXT_CHARACTERS - 1, STUIVERHAAG_TEXT_CHARACTERS, STUIVERHAAG_TEXT_CHARACTERS + 1,
    };

    return once_in(80) ? PICK(short_ones) : draw_length(STUIVERHAAG_TEXT_LENGTH);
}

static struct lengths draw_lengths(void)
{
    struct lengths lengths;

    lengths.header = draw_length(STUIVERHAAG_HEADER_LENGTH);
    lengths.text = draw_text_length();
    lengths.uri = draw_length(STUIVERHAAG_URI_LENGTH);
    return lengths;
}

static void case_convert(void)
{
    static struct bytes message, station;
    struct lengths lengths = draw_lengths();

    any_message(&message);
    put_station(&station);
    check_convert(slice_of(&message), slice_of(&station), lengths);
}

/* ---- the Canadian mode */

/* Whether this is a refusal of 4 to 9, the numbers that both modes ask of a message. */
static bool refuses_in_both(uint64_t answer)
{
    unsigned number = stuiverhaag_number(answer);

    return number >= STUIVERHAAG_MESSAGE_LENGTH_BAD && number <= STUIVERHAAG_ACK_OR_ERROR;
}

/* Both modes refuse a message alike, and where both give a text, they choose the same audio. */
static void check_modes(struct slice message)
{
    uint8_t uri[STUIVERHAAG_URI_LENGTH];
    uint64_t answer = canadian(message, just_enough);
    size_t length = written_uri().length;
    uint64_t american;

    memcpy(uri, written_uri().bytes, length);
    american = give_text(message, bench_station, just_enough);
    if ((refuses_in_both(answer) || refuses_in_both(american)) && answer != american)
        broken("One mode refuses a message otherwise than the other.");
    if (stuiverhaag_text_length(answer) == 0 || stuiverhaag_text_length(american) == 0)
        return;
    if (stuiverhaag_audio(answer) != stuiverhaag_audio(american) || written_uri().length != length ||
        memcmp(written_uri().bytes, uri, length) != 0)
        broken("One mode chooses another audio than the other.");
    compared.modes += length > 0;
}

static void case_canadian(void)
{
    static struct bytes message;

    any_message(&message);
    canadian(slice_of(&message), draw_lengths());
    if (once_in(4))
        check_modes(slice_of(&message));
}

/* ---- boards */

/* An offer answers of a message what the header's call does, and the board then holds a notice with that header. */
static void check_agreement(const struct bytes *board, struct slice message, uint64_t offered)
{
    uint64_t of_header = give_header(message, bench_station, just_enough);
    unsigned number = stuiverhaag_number(offered);

    if (number == STUIVERHAAG_BOARD_RULES)
        return;
    if (stuiverhaag_number(of_header) != (number == STUIVERHAAG_BOARD_FULL ? STUIVERHAAG_DONE : number) ||
        stuiverhaag_field(of_header) != stuiverhaag_field(offered))
        broken("An offer and the header's call answer a message with different numbers.");
    if (number != STUIVERHAAG_DONE || stuiverhaag_header_length(of_header) == 0)
        return;
    if (!holds_notice(board, written_header().bytes, stuiverhaag_header_length(of_header) - STATION - 1))
        broken("The board holds no notice with the header of the message.");
    compared.notices++;
}

/* Offers a message; an offer of it again then adds nothing. The number. */
static unsigned check_offer(struct bytes *board, struct slice message)
{
    static struct bytes before, after;
    uint64_t answer;

    copy(&before, board);
    answer = offer(board, message);
    if (stuiverhaag_number(answer) == STUIVERHAAG_DONE)
        check_grown(&before, board, stuiverhaag_added(answer));
    if (stuiverhaag_added(answer) > 17)
        broken("More was added than a notice and sixteen withdrawals.");
    if (once_in(4))
        check_agreement(board, message, answer);
    if (stuiverhaag_number(answer) != STUIVERHAAG_DONE)
        return stuiverhaag_number(answer);
    copy(&after, board);
    if (offer(board, message) != 0 || memcmp(board->byte, after.byte, after.length) != 0)
        broken("A message that was taken is not taken again with nothing added.");
    compared.taken_again += stuiverhaag_added(answer) > 0;
    return STUIVERHAAG_DONE;
}

static bool is_ascii(const struct bytes *bytes)
{
    for (size_t i = 0; i < bytes->length; i++)
        if (bytes->byte[i] > 127)
            return false;
    return true;
}

/* A message that ends at each of its places, some inside a character, converted in both modes and offered. */
static void case_cut(void)
{
    static struct bytes message, board;

    do
        sound_message(&message);
    while (message.length > 2000 || is_ascii(&message));
    for (size_t length = 0; length <= message.length; length++) {
        struct slice cut = {message.byte, length};

        check_convert(cut, bench_station, just_enough);
        canadian(cut, just_enough);
        empty_board(&board, 3);
        check_offer(&board, cut);
    }
}

/* The same day and time of the day in a year that may be another; the alert then ends before 2100 too. */
static int64_t draw_sent_again(const struct alert *alert)
{
    int64_t sent = alert->own.sent, day = day_of(sent);

    do
        sent = instant(draw_year(day), day, sent % DAY);
    while (sent + alert->lasts >= END_OF_TIME);
    return sent;
}

/*
 * A message and others that concern it: of the same header, of the same identity, a quiet Cancel, an Update, one that
 * withdraws itself, a Cancel that is not quiet; one that does not concern it and names as many as it may; and two that
 * are the same but for the year of sent.
 */
static void draw_related(struct alert *related)
{
    struct alert *first = &related[0];

    draw_alert(first);
    for (size_t i = 1; i < MOST_RELATED; i++)
        related[i] = *first;
    strcpy(related[1].own.identifier, "again");
    related[1].own.zone = 0;
    related[2].event = "TST";
    draw_alert(&related[3]);
    refer_to(&related[3], "Cancel", &first->own, 1);
    related[3].has_info = false;
    strcpy(related[4].own.identifier, "later");
    refer_to(&related[4], "Update", (struct identity[]){first->own, related[1].own, first->own}, 3);
    refer_to(&related[5], "Update", &first->own, 1);
    draw_alert(&related[6]);
    refer_to(&related[6], "Cancel", (struct identity[]){related[1].own, related[4].own}, 2);
    draw_alert(&related[7]);
    refer_to_unknown(&related[7], once_in(2) ? 16 : 2);
    related[8].own.sent = draw_sent_again(first);
    related[9].own.sent = draw_sent_again(first);
}

static size_t draw_records(void)
{
    static const size_t counts[] = {1, 1, 2, 3, 4, 6, 8, 12, 16, 20, 30};

    return once_in(60) ? STUIVERHAAG_RECORDS_MOST : PICK(counts);
}

/* Offers and hand-outs on one board that began empty. */
static void case_chain(void)
{
    static struct bytes board, message;
    static struct handed handed;
    struct alert related[MOST_RELATED];

    empty_board(&board, draw_records());
    begin_handed(&handed, &board);
    draw_related(related);
    for (size_t left = 4 + below(24); left > 0; left--) {
        if (once_in(12))
            draw_related(related);
        if (once_in(3)) {
            check_hand_out(&board, &handed);
            continue;
        }
        if (once_in(6))
            any_message(&message);
        else
            write_alert(&message, &related[below(MOST_RELATED)]);
        check_offer(&board, slice_of(&message));
        handed.since = 0;
    }
    check_all_handed(&board, &handed);
}

/* Messages that were taken, and the alerts that they were written from. */
struct taken {
    struct bytes message[MOST_RELATED];
    const struct alert *alert[MOST_RELATED];
    size_t count;
};

static bool names(const struct alert *alert, const struct identity *identity)
{
    for (size_t i = 0; i < alert->groups; i++)
        if (strcmp(alert->group[i].sender, identity->sender) == 0 && alert->group[i].sent == identity->sent &&
            strcmp(alert->group[i].identifier, identity->identifier) == 0)
            return true;
    return false;
}

static bool is_named(const struct taken *taken, const struct identity *identity)
{
    for (size_t i = 0; i < taken->count; i++)
        if (names(taken->alert[i], identity))
            return true;
    return false;
}

/* Makes a notice that has of a taken message its header and its sent alone. Whether it has a header. */
static bool make_carried(uint8_t *notice, const struct taken *taken, size_t which)
{
    uint64_t answer = give_header(slice_of(&taken->message[which]), bench_station, just_enough);

    if (stuiverhaag_header_length(answer) == 0)
        return false;
    memset(notice, 0, RECORD);
    notice[0] = NOTICE;
    place_sent(notice, taken->alert[which]->own.sent);
    memcpy(notice + HEADER_AT, written_header().bytes, written_header().length - STATION - 1);
    return true;
}

/* Adds what a notice carries, by header and then by year, unless it is there; how many there are then. */
static size_t add_carried(uint8_t (*due)[RECORD], size_t count, const uint8_t *notice)
{
    size_t at = 0;

    while (at < count && compare_headers(due[at], notice) < 0)
        at++;
    if (at < count && compare_headers(due[at], notice) == 0)
        return count;
    memmove(due[at + 1], due[at], (count - at) * RECORD);
    memcpy(due[at], notice, RECORD);
    return count + 1;
}

/* Due are the headers, each with its year, of the messages taken that none of these names; they are handed out so. */
static void check_due_of(const struct taken *taken, struct bytes *board)
{
    static struct handed handed;
    uint8_t due[MOST_RELATED][RECORD], notice[RECORD];
    size_t count = 0;

    for (size_t i = 0; i < taken->count; i++)
        if (!is_named(taken, &taken->alert[i]->own) && make_carried(notice, taken, i)) {
            count = add_carried(due, count, notice);
            compared.zones += year_of(sent_in(notice) + taken->alert[i]->own.zone * 60) != year_in(notice);
        }
    begin_handed(&handed, board);
    check_all_handed(board, &handed);
    must(handed.count == count, "Not as many headers were handed out as the messages taken make due.");
    for (size_t i = 0; i < count; i++) {
        must(compare_headers(handed.record[i], due[i]) == 0, "A header was handed out that no message makes due so.");
        compared.due++;
        compared.due_years += i > 0 && memcmp(due[i - 1] + HEADER_AT, due[i] + HEADER_AT, HEADER_ROOM) == 0;
    }
}

/* The same messages on two empty boards, each in its own order, leave the same records, and make due what they say. */
static void case_orders(void)
{
    static struct bytes board, other;
    static struct taken taken;
    struct alert related[MOST_RELATED];
    size_t turn = below(MOST_RELATED);

    draw_related(related);
    empty_board(&board, MOST_RELATED * 17);
    empty_board(&other, MOST_RELATED * 17);
    taken.count = 0;
    for (size_t i = 0; i < MOST_RELATED; i++) {
        const struct alert *alert = &related[(turn + 3 * i) % MOST_RELATED];

        if (once_in(3))
            continue;
        write_alert(&taken.message[taken.count], alert);
        taken.alert[taken.count] = alert;
        if (check_offer(&board, slice_of(&taken.message[taken.count])) == STUIVERHAAG_DONE)
            taken.count++;
    }
    for (size_t i = taken.count; i > 0; i--)
        if (check_offer(&other, slice_of(&taken.message[i - 1])) != STUIVERHAAG_DONE)
            broken("A message that one board took is refused by another.");
    if (memcmp(board.byte, other.byte, board.length) != 0)
        broken("The same messages in another order leave another board.");
    compared.orders += taken.count > 1;
    check_due_of(&taken, &board);
}

/* A made board, often damaged, that a message is offered to or headers are handed out from. */
static void case_board(void)
{
    static struct bytes board, message;
    static struct handed handed;
    static const size_t worlds[] = {1, 2, 3, 10, 100000};
    size_t records = draw_records();
    size_t filled = once_in(3) ? records : below(records + 1);

    made_board(&board, records, filled, PICK(worlds));
    if (once_in(2))
        damage_board(&board);
    begin_handed(&handed, &board);
    if (once_in(2)) {
        any_message(&message);
        check_offer(&board, slice_of(&message));
    }
    check_all_handed(&board, &handed);
}

/* ---- lengths that 32 bits cannot say */

static struct slice widened(struct slice slice)
{
    slice.length += WIDE;
    return slice;
}

/* A length is taken whole: what is wide is too long, and no output is short for its low bits. */
static void wide_message(void)
{
    static struct bytes message, board;
    struct lengths wide_enough = {WIDE, WIDE + 1, WIDE + 1023};
    struct alert alert;

    draw_alert(&alert);
    write_alert(&message, &alert);
    check_convert(slice_of(&message), bench_station, wide_enough);
    check_convert(widened(slice_of(&message)), bench_station, just_enough);
    check_convert(slice_of(&message), widened(bench_station), just_enough);
    canadian(slice_of(&message), wide_enough);
    canadian(widened(slice_of(&message)), just_enough);
    empty_board(&board, 2);
    check_offer(&board, widened(slice_of(&message)));
    board.length += WIDE;
    offer(&board, slice_of(&message));
    hand_out(&board);
}

static void wide_header(void)
{
    static const uint8_t event[] = "CEM", locations[] = "024031";
    static const uint8_t header[] = "ZCZC-PEP-CEM-024031+0030-0010000-BENCH/01-";
    struct parts parts = {STUIVERHAAG_ORG_PEP, 30, 1, 0, 0, {event, 3}, {locations, 6}, bench_station};
    struct slice *part[] = {&parts.event, &parts.locations, &parts.station};

    check_header((struct slice){header, WIDE + 42});
    if (stuiverhaag_number(write_header(&parts, WIDE)) != STUIVERHAAG_DONE)
        broken("An output of more than 4,294,967,295 bytes is refused.");
    check_read_again(&parts);
    for (size_t i = 0; i < COUNT(part); i++) {
        struct slice narrow = *part[i];

        *part[i] = widened(narrow);
        if (stuiverhaag_number(write_header(&parts, STUIVERHAAG_HEADER_LENGTH)) == STUIVERHAAG_DONE)
            broken("A part of more than 4,294,967,295 bytes is written.");
        *part[i] = narrow;
    }
}

/* ---- one case */

void run_case(unsigned long number)
{
    size_t kind;

    place.case_number = number;
    seed_chance(place.seed, number);
    wind_up();
    kind = below(10000);
    if (kind < 1)
        case_cut();
    else if (kind < 10 && lends_wide())
        wide_message();
    else if (kind < 18 && lends_wide())
        wide_header();
    else if (kind < 4400)
        case_convert();
    else if (kind < 4700)
        case_activation();
    else if (kind < 5300)
        case_character();
    else if (kind < 5500)
        case_cut_values();
    else if (kind < 7800)
        case_canadian();
    else if (kind < 8400)
        case_read();
    else if (kind < 9000)
        case_write();
    else if (kind < 9400)
        case_chain();
    else if (kind < 9450)
        case_orders();
    else if (kind < 9550)
        case_year();
    else
        case_board();
}

/* ---- what was compared */

bool print_compared(void)
{
    bool all = true;

    puts("calls held beside each other:");
    all = print_seen(compared.written_again, "headers read, and written again to the same bytes") && all;
    all = print_seen(compared.read_again, "headers written, and read again as the same parts") && all;
    all = print_seen(compared.modes, "uris of the Canadian mode, the same in the American one") && all;
    all = print_seen(compared.notices, "headers of messages, on a board after an offer") && all;
    all = print_seen(compared.taken_again, "offers that added, made again to add nothing") && all;
    all = print_seen(compared.orders, "pairs of boards, the same messages in two orders") && all;
    all = print_seen(compared.due, "headers handed out with the years that the messages taken gave them") && all;
    all = print_seen(compared.due_years, "of them behind the same header with an earlier year") && all;
    all = print_seen(compared.zones, "messages that made a header due, of another year in their zone") && all;
    return all;
}
