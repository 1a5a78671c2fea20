#include "activations.h"

#include "calls.h"
#include "replay.h"

#include <stdio.h>
#include <string.h>

static const char front[] =
    "<alert xmlns='urn:oasis:names:tc:emergency:cap:1.2'><identifier>i</identifier><sender>s</sender>"
    "<sent>2010-04-05T14:00:30-04:00</sent><status>Actual</status><scope>Public</scope>"
    "<references>s,i,2010-04-05T13:00:30-04:00</references><msgType>";

/* What stands in the info whatever else does: it says that the alert must be carried, and has an audio. */
static const char always[] =
    "<parameter><valueName>EAS-Must-Carry</valueName><value>True</value></parameter>"
    "<resource><mimeType>audio/x-ipaws-audio-mp3</mimeType><uri>u</uri></resource>";

static const char header[] = "ZCZC-CIV-CEM-024031+0045-0951800-BENCH/01-";
static const char text[] = "Civil authorities issued Civil Emergency Message for locations 024031, "
                           "valid from 18:00 UTC on day 095 for 00 hours 45 minutes.";

/* What a header asks, in the order of its numbers. */
enum part { EVENT, ORIGINATOR, LOCATION, EXPIRES, PARTS };

static const struct {
    const char *before, *good, *bad, *behind;
    unsigned number;
} parts[PARTS] = {
    {"<eventCode><valueName>SAME</valueName><value>", "CEM", "CE", "</value></eventCode>", STUIVERHAAG_EVENT_BAD},
    {"<parameter><valueName>EAS-ORG</valueName><value>", "CIV", "EAN", "</value></parameter>",
     STUIVERHAAG_ORIGINATOR_BAD},
    {"<area><geocode><valueName>SAME</valueName><value>", "024031", "24031", "</value></geocode></area>",
     STUIVERHAAG_LOCATION_BAD},
    {"<expires>", "2010-04-05T14:45:30-04:00", "2010-04-05T14:00:30-04:00", "</expires>", STUIVERHAAG_EXPIRES_BAD},
};

enum state { GOOD, BAD, LEFT_OUT };

static struct {
    bool is_cancel, has_info;
    enum state state[PARTS];
    struct bytes bytes;
    struct slice station;
    struct lengths lengths;
} message;

static unsigned long given, refused, quiet_without_info, quiet_without[PARTS], quiet_with_bad;
static unsigned long quiet_header_short, quiet_text_short, quiet_station_bad;

/* ---- a message, and what is lent with it */

/* Once in a while its station is bad, or an output short by a byte. */
static void draw_message(void)
{
    static const uint8_t bad_station[] = "BENCH-01";

    message.is_cancel = !once_in(3);
    message.has_info = !once_in(8);
    for (size_t i = 0; i < PARTS; i++)
        message.state[i] = once_in(3) ? (enum state)below(3) : GOOD;
    message.station = once_in(12) ? (struct slice){bad_station, STUIVERHAAG_STATION_LENGTH} : bench_station;
    message.lengths = just_enough;
    message.lengths.header -= once_in(12);
    message.lengths.text -= once_in(24);
    message.lengths.uri -= once_in(24);
}

static void put_part(size_t part)
{
    if (message.state[part] == LEFT_OUT)
        return;
    put(&message.bytes, parts[part].before);
    put(&message.bytes, message.state[part] == GOOD ? parts[part].good : parts[part].bad);
    put(&message.bytes, parts[part].behind);
}

static void write_message(void)
{
    message.bytes.length = 0;
    put(&message.bytes, front);
    put(&message.bytes, message.is_cancel ? "Cancel</msgType>" : "Alert</msgType>");
    if (message.has_info) {
        put(&message.bytes, "<info>");
        for (size_t i = 0; i < PARTS; i++)
            put_part(i);
        put(&message.bytes, always);
        put(&message.bytes, "</info>");
    }
    put(&message.bytes, "</alert>");
}

/* ---- what is known of it */

/* An originator that is left out is CIV. */
static bool lacks(size_t part)
{
    return part != ORIGINATOR && (!message.has_info || message.state[part] == LEFT_OUT);
}

static bool has_bad(size_t part)
{
    return message.has_info && message.state[part] == BAD;
}

static bool is_quiet(void)
{
    return message.is_cancel && (lacks(EVENT) || lacks(LOCATION) || lacks(EXPIRES));
}

static bool header_is_short(void)
{
    return message.lengths.header < just_enough.header;
}

static bool text_is_short(void)
{
    return message.lengths.text < just_enough.text || message.lengths.uri < just_enough.uri;
}

static bool station_is_bad(void)
{
    return message.station.bytes != bench_station.bytes;
}

/* The number that a call must answer, by whether an output of it is short. */
static unsigned known_number(bool is_short)
{
    if (is_short)
        return STUIVERHAAG_OUTPUT_SHORT;
    if (station_is_bad())
        return STUIVERHAAG_STATION_BAD;
    for (size_t i = 0; i < PARTS && !is_quiet(); i++)
        if (lacks(i) || has_bad(i))
            return parts[i].number;
    return STUIVERHAAG_DONE;
}

/* ---- what is answered to it */

static bool equals(struct slice bytes, const char *known)
{
    return bytes.length == strlen(known) && memcmp(bytes.bytes, known, bytes.length) == 0;
}

/* Whether something is given, as it must be; else the answer is a number and nothing else. */
static bool is_given(uint64_t answer, bool is_short)
{
    unsigned number = known_number(is_short);

    if (number == STUIVERHAAG_DONE && !is_quiet())
        return true;
    must(answer == number, "The answer is not the number of the message alone.");
    return false;
}

static void check_header(void)
{
    uint64_t answer = give_header(slice_of(&message.bytes), message.station, message.lengths);

    if (!is_given(answer, header_is_short()))
        return;
    must(equals(written_header(), header), "The header is not that of the message.");
    must(stuiverhaag_carry(answer) == 1, "The carry is not that of the message.");
}

static void check_text(void)
{
    uint64_t answer = give_text(slice_of(&message.bytes), message.station, message.lengths);

    if (!is_given(answer, text_is_short()))
        return;
    must(equals(written_text(), text), "The text is not that of the message.");
    must(stuiverhaag_audio(answer) == STUIVERHAAG_AUDIO_MP3 && equals(written_uri(), "u"),
         "The audio is not that of the message.");
}

/* ---- what was tried */

/* Counts a Cancel that is given nothing by what alone it lacks, and whether it has what is refused elsewhere. */
static void count_quiet(void)
{
    int lacking = lacks(EVENT) + lacks(LOCATION) + lacks(EXPIRES);
    bool any_bad = false;

    for (size_t i = 0; i < PARTS; i++) {
        quiet_without[i] += message.has_info && lacking == 1 && lacks(i);
        any_bad = any_bad || has_bad(i);
    }
    quiet_without_info += !message.has_info;
    quiet_with_bad += any_bad;
}

static void count_message(void)
{
    bool is_short = header_is_short() || text_is_short();

    if (is_quiet()) {
        quiet_header_short += header_is_short();
        quiet_text_short += text_is_short();
        quiet_station_bad += !is_short && station_is_bad();
    }
    if (is_short || station_is_bad())
        return;
    if (is_quiet())
        count_quiet();
    else if (known_number(false) == STUIVERHAAG_DONE)
        given++;
    else
        refused++;
}

bool print_activations(void)
{
    bool all = true;

    puts("messages of one form, which says that the alert must be carried:");
    all = print_seen(given, "were given a header, the carry, a text and an audio") && all;
    all = print_seen(refused, "were refused for a part of their header") && all;
    all = print_seen(quiet_without_info, "were Cancels without an info, and given nothing") && all;
    all = print_seen(quiet_without[EVENT], "without an event alone") && all;
    all = print_seen(quiet_without[LOCATION], "without a location alone") && all;
    all = print_seen(quiet_without[EXPIRES], "without an expires alone") && all;
    all = print_seen(quiet_with_bad, "of these Cancels had something that is refused elsewhere") && all;
    all = print_seen(quiet_header_short, "such Cancels were lent a short header") && all;
    all = print_seen(quiet_text_short, "a short text or uri") && all;
    all = print_seen(quiet_station_bad, "a bad station") && all;
    return all;
}

void case_activation(void)
{
    draw_message();
    write_message();
    check_header();
    check_text();
    count_message();
}
