#include "spellings.h"

#include "boards.h"
#include "calls.h"
#include "characters.h"
#include "replay.h"
#include "stuiverhaag.h"

#include <stdio.h>
#include <string.h>

#define MOST STUIVERHAAG_TEXT_CHARACTERS
#define LONGEST_NAME 200
#define MARK "***"

/* ---- the form of a message, with holes in braces, and what is answered where they hold nothing that is at fault */

static const char declaration[] = "{first}<?xml version='1.0'{declaration}?>";

static const char form[] =
    "{before}<!--{comment before}--><alert{root name} xmlns='urn:oasis:names:tc:emergency:cap:1.2{namespace}' "
    "a{attribute name}='{attribute}'{tag}>{beside}"
    "<identifier>i{identifier}</identifier><sender>s{sender}</sender><sent>2010-04-05T14:00:30-04:00{sent}</sent>"
    "<status>Actual{status}</status><msgType>Update{msgType}</msgType><scope>Public{scope}</scope>"
    "<references>s,i{references},2010-04-05T14:00:30-04:00</references>"
    "<{name start}note{name} a='{skipped attribute}'>{skipped}</note><!--{comment}-->"
    "<info><language>en-US{language}</language>{beside in info}"
    "<eventCode><valueName>SAME{event name}</valueName><value>CEM{event}</value></eventCode>"
    "<eventCode><valueName>X</valueName><value>{other event}</value></eventCode>"
    "<expires>2010-04-05T14:45:30-04:00{expires}</expires><senderName>{senderName}</senderName>"
    "<description>{description}</description><instruction>{instruction}</instruction>"
    "<parameter><valueName>EAS-ORG{originator name}</valueName><value>CIV{originator}</value></parameter>"
    "<parameter><valueName>EAS-ORG</valueName><value>CIV{second originator}</value></parameter>"
    "<parameter><valueName>EAS-Must-Carry</valueName><value>True{carry}</value></parameter>"
    "<parameter><valueName>EASText</valueName><value>{EASText}</value></parameter>"
    "<parameter><valueName>layer:AEA:2.0:broadcastText</valueName><value>{broadcastText}</value></parameter>"
    "<resource><mimeType>audio/x-ipaws-audio-mp3{mimeType}</mimeType><uri>m{uri}p</uri></resource>"
    "<resource><mimeType>audio/x-ipaws-audio-wav</mimeType><uri>w</uri></resource>"
    "<area><geocode><valueName>SAME{location name}</valueName><value>024031{location}</value></geocode>"
    "<geocode><valueName>SAME</valueName><value>024033</value></geocode></area></info></alert{end name}>{behind}";

static const char header[] = "ZCZC-CIV-CEM-024031-024033+0045-0951800-BENCH/01-";
static const char short_header[] = "ZCZC-CIV-CEM-024033+0045-0951800-BENCH/01-";

static const char sentence[] = "Civil authorities issued Civil Emergency Message for locations 024031, 024033, "
                               "valid from 18:00 UTC on day 095 for 00 hours 45 minutes.";
static const char short_sentence[] = "Civil authorities issued Civil Emergency Message for locations 024033, "
                                     "valid from 18:00 UTC on day 095 for 00 hours 45 minutes.";

/* What may stand in a hole: a value's characters; anything but `--`; anything but `?>`; nothing but ASCII. */
enum holds { VALUE, COMMENT, DECLARATION, NOTHING };

/* A hole, and the number with its field where it holds a legal character outside 32 to 126. */
static const struct hole {
    const char *name;
    enum holds holds;
    unsigned number, field;
} holes[] = {
    {"first", NOTHING, STUIVERHAAG_XML_BAD, 0},
    {"declaration", DECLARATION, STUIVERHAAG_DONE, 0},
    {"before", NOTHING, STUIVERHAAG_XML_BAD, 0},
    {"comment before", COMMENT, STUIVERHAAG_DONE, 0},
    {"root name", NOTHING, STUIVERHAAG_XML_BAD, 0},
    {"namespace", VALUE, STUIVERHAAG_ROOT_BAD, 0},
    {"attribute name", NOTHING, STUIVERHAAG_XML_BAD, 0},
    {"attribute", VALUE, STUIVERHAAG_DONE, 0},
    {"tag", NOTHING, STUIVERHAAG_XML_BAD, 0},
    {"beside", VALUE, STUIVERHAAG_DONE, 0},
    {"identifier", VALUE, STUIVERHAAG_ELEMENT_BAD, STUIVERHAAG_FIELD_IDENTIFIER},
    {"sender", VALUE, STUIVERHAAG_ELEMENT_BAD, STUIVERHAAG_FIELD_SENDER},
    {"sent", VALUE, STUIVERHAAG_ELEMENT_BAD, STUIVERHAAG_FIELD_SENT},
    {"status", VALUE, STUIVERHAAG_ELEMENT_BAD, STUIVERHAAG_FIELD_STATUS},
    {"msgType", VALUE, STUIVERHAAG_ELEMENT_BAD, STUIVERHAAG_FIELD_MSGTYPE},
    {"scope", VALUE, STUIVERHAAG_ELEMENT_BAD, STUIVERHAAG_FIELD_SCOPE},
    {"references", VALUE, STUIVERHAAG_REFERENCES_BAD, 0},
    {"name start", NOTHING, STUIVERHAAG_XML_BAD, 0},
    {"name", NOTHING, STUIVERHAAG_XML_BAD, 0},
    {"skipped attribute", VALUE, STUIVERHAAG_DONE, 0},
    {"skipped", VALUE, STUIVERHAAG_DONE, 0},
    {"comment", COMMENT, STUIVERHAAG_DONE, 0},
    {"language", VALUE, STUIVERHAAG_DONE, 0},
    {"beside in info", VALUE, STUIVERHAAG_DONE, 0},
    {"event name", VALUE, STUIVERHAAG_EVENT_BAD, 0},
    {"event", VALUE, STUIVERHAAG_EVENT_BAD, 0},
    {"other event", VALUE, STUIVERHAAG_DONE, 0},
    {"expires", VALUE, STUIVERHAAG_EXPIRES_BAD, 0},
    {"senderName", VALUE, STUIVERHAAG_DONE, 0},
    {"description", VALUE, STUIVERHAAG_DONE, 0},
    {"instruction", VALUE, STUIVERHAAG_DONE, 0},
    {"originator name", VALUE, STUIVERHAAG_DONE, 0},
    {"originator", VALUE, STUIVERHAAG_ORIGINATOR_BAD, 0},
    {"second originator", VALUE, STUIVERHAAG_DONE, 0},
    {"carry", VALUE, STUIVERHAAG_DONE, 0},
    {"EASText", VALUE, STUIVERHAAG_DONE, 0},
    {"broadcastText", VALUE, STUIVERHAAG_DONE, 0},
    {"mimeType", VALUE, STUIVERHAAG_DONE, 0},
    {"uri", VALUE, STUIVERHAAG_DONE, 0},
    {"location name", VALUE, STUIVERHAAG_DONE, 0},
    {"location", VALUE, STUIVERHAAG_LOCATION_BAD, 0},
    {"end name", NOTHING, STUIVERHAAG_XML_BAD, 0},
    {"behind", NOTHING, STUIVERHAAG_XML_BAD, 0},
};

/* How a character is put into a hole. */
enum way { BY_BYTES, BY_NUMBER, ILLEGAL_BY_BYTES, ILLEGAL_BY_NUMBER, MALFORMED, WAYS };

/* The values that a text is made of. */
enum value { SENDER_NAME, DESCRIPTION, INSTRUCTION, EAS_TEXT, BROADCAST_TEXT, VALUES };

static const char *const value_names[VALUES] = {
    "senderName", "description", "instruction", "EASText", "broadcastText",
};

/* One message: its values as they are written in it and as they are read, what else is put into a hole, and itself. */
static struct {
    struct bytes written[VALUES], read[VALUES];
    const char *hole;
    struct bytes in_hole;
    struct bytes bytes;
} message;

static unsigned long tried[COUNT(holes)][WAYS];
static unsigned long texts, cut_texts, cut_names, cut_parts;

static bool is_hole(const char *name)
{
    return message.hole != NULL && strcmp(message.hole, name) == 0;
}

/* ---- writing it */

static void put_hole(const char *name, size_t length)
{
    for (size_t i = 0; i < VALUES; i++)
        if (strlen(value_names[i]) == length && memcmp(value_names[i], name, length) == 0)
            put_bytes(&message.bytes, message.written[i].byte, message.written[i].length);
    if (message.hole != NULL && strlen(message.hole) == length && memcmp(message.hole, name, length) == 0)
        put_bytes(&message.bytes, message.in_hole.byte, message.in_hole.length);
}

/* Puts a form with what its holes hold. */
static void put_filled(const char *at)
{
    while (*at != '\0') {
        size_t length = 0;

        if (*at != '{') {
            put_byte(&message.bytes, (unsigned)*at++);
            continue;
        }
        while (at[1 + length] != '}')
            length++;
        put_hole(at + 1, length);
        at += length + 2;
    }
}

static void write_message(void)
{
    message.bytes.length = 0;
    if (is_hole("first") || is_hole("declaration") || once_in(2))
        put_filled(declaration);
    put_filled(form);
}

/* ---- what its text is */

static size_t characters_of(const struct bytes *value)
{
    size_t count = 0;
    uint32_t character;

    for (size_t at = 0; at < value->length; count++)
        at += character_at(value->byte + at, value->length - at, &character);
    return count;
}

/* The first so many characters of a value, or all that it has. */
static void put_first(struct bytes *out, const struct bytes *value, size_t most)
{
    size_t length = 0;
    uint32_t character;

    for (; most > 0 && length < value->length; most--)
        length += character_at(value->byte + length, value->length - length, &character);
    put_bytes(out, value->byte, length);
}

static void put_part(struct bytes *out, const struct bytes *part, size_t allotment)
{
    if (part->length == 0)
        return;
    put_byte(out, ' ');
    if (characters_of(part) <= allotment) {
        put_bytes(out, part->byte, part->length);
        return;
    }
    put_first(out, part, allotment - strlen(MARK));
    put(out, MARK);
    cut_parts++;
}

/* Description and instruction in what is left beside what the text has already. */
static void put_parts(struct bytes *out)
{
    size_t description = characters_of(&message.read[DESCRIPTION]);
    size_t instruction = characters_of(&message.read[INSTRUCTION]);
    size_t room = MOST - characters_of(out) - (description > 0) - (instruction > 0);
    size_t half = room / 2;

    if (description + instruction > room) {
        if (instruction <= half)
            description = room - instruction;
        else if (description <= half)
            instruction = room - description;
        else {
            description = half;
            instruction = room - half;
        }
    }
    put_part(out, &message.read[DESCRIPTION], description);
    put_part(out, &message.read[INSTRUCTION], instruction);
}

static void put_american_text(struct bytes *out)
{
    put(out, is_hole("location name") ? short_sentence : sentence);
    if (message.read[EAS_TEXT].length > 0) {
        put_byte(out, ' ');
        put_first(out, &message.read[EAS_TEXT], MOST - out->length);
        return;
    }
    if (message.read[SENDER_NAME].length > 0) {
        put(out, " Message from ");
        put_first(out, &message.read[SENDER_NAME], LONGEST_NAME);
        put_byte(out, '.');
        cut_names += characters_of(&message.read[SENDER_NAME]) > LONGEST_NAME;
    }
    put_parts(out);
}

/* Nothing where the message has none. */
static void put_canadian_text(struct bytes *out)
{
    static struct bytes whole;

    whole.length = 0;
    if (message.read[BROADCAST_TEXT].length > 0) {
        copy(&whole, &message.read[BROADCAST_TEXT]);
    } else if (message.read[DESCRIPTION].length > 0) {
        copy(&whole, &message.read[DESCRIPTION]);
        if (message.read[INSTRUCTION].length > 0)
            put_byte(&whole, ' ');
        put_bytes(&whole, message.read[INSTRUCTION].byte, message.read[INSTRUCTION].length);
    }
    put_first(out, &whole, MOST);
}

/* ---- what is answered to it */

static bool equals(struct slice bytes, const void *others, size_t length)
{
    return bytes.length == length && memcmp(bytes.bytes, others, length) == 0;
}

/* Whether it is answered 0, as it must be; else it must be this refusal. */
static bool check_number(uint64_t answer, unsigned number, unsigned field)
{
    must(stuiverhaag_number(answer) == number && stuiverhaag_field(answer) == field,
         "The number or the field is not that of the character's place.");
    return number == STUIVERHAAG_DONE;
}

static void check_text(const struct bytes *text)
{
    must(equals(written_text(), text->byte, text->length), "The text is not that of the message's values.");
    texts++;
    cut_texts += characters_of(text) == MOST && text->length > MOST;
}

/* The first resource is passed over where its mimeType or its uri has the character. */
static void check_audio(uint64_t answer)
{
    bool passed_over = is_hole("mimeType") || is_hole("uri");

    must(stuiverhaag_audio(answer) == (passed_over ? STUIVERHAAG_AUDIO_WAV : STUIVERHAAG_AUDIO_MP3),
         "The audio is not that of the first resource that is suitable.");
    must(passed_over ? equals(written_uri(), "w", 1) : equals(written_uri(), "mp", 2),
         "The uri is not that of the first resource that is suitable.");
}

static void check_header(unsigned number, unsigned field)
{
    uint64_t answer = give_header(slice_of(&message.bytes), bench_station, just_enough);
    const char *expected = is_hole("location name") ? short_header : header;

    if (!check_number(answer, number, field))
        return;
    must(equals(written_header(), expected, strlen(expected)), "The header is not that of the message.");
    must(stuiverhaag_carry(answer) == !is_hole("carry"), "The carry is not that of the message.");
}

static void check_american(unsigned number, unsigned field)
{
    static struct bytes text;
    uint64_t answer = give_text(slice_of(&message.bytes), bench_station, just_enough);

    if (!check_number(answer, number, field))
        return;
    text.length = 0;
    put_american_text(&text);
    check_text(&text);
    check_audio(answer);
}

/* The Canadian mode does not ask what a header asks. */
static void check_canadian(unsigned number, unsigned field)
{
    static struct bytes text;
    uint64_t answer = canadian(slice_of(&message.bytes), just_enough);

    text.length = 0;
    put_canadian_text(&text);
    if (number > STUIVERHAAG_ACK_OR_ERROR || number == STUIVERHAAG_DONE)
        number = text.length == 0 ? STUIVERHAAG_NO_TEXT : STUIVERHAAG_DONE;
    if (!check_number(answer, number, field))
        return;
    check_text(&text);
    check_audio(answer);
}

/* The message adds its notice, and the withdrawal of the one that it names. */
static void check_offer(unsigned number, unsigned field)
{
    static struct bytes board;
    uint64_t answer;

    empty_board(&board, 2);
    answer = offer(&board, slice_of(&message.bytes));
    if (check_number(answer, number, field))
        must(stuiverhaag_added(answer) == 2, "Not both records of the message were added.");
}

static void check_answers(unsigned number, unsigned field)
{
    write_message();
    if (message.bytes.length > STUIVERHAAG_MESSAGE_LONGEST) {
        number = STUIVERHAAG_MESSAGE_LENGTH_BAD;
        field = 0;
    }
    check_header(number, field);
    check_american(number, field);
    check_canadian(number, field);
    check_offer(number, field);
}

/* ---- one character */

/* Puts one into a hole, and into what is read what it is there. */
static void put_way(struct bytes *written, struct bytes *read, enum way way)
{
    /* Where it may be a byte order mark, it is one once in a while. */
    uint32_t character = (is_hole("first") || is_hole("before")) && once_in(2) ? 0xfeff : draw_foreign();

    put_utf8(read, character);
    switch (way) {
    case BY_BYTES:
        put_utf8(written, character);
        break;
    case BY_NUMBER:
        put_reference(written, character);
        break;
    case ILLEGAL_BY_BYTES:
        put_utf8(written, draw_illegal());
        break;
    case ILLEGAL_BY_NUMBER:
        put_odd_reference(written);
        break;
    default:
        put_malformed(written);
    }
}

/* Whether a character that is so written may not stand in a hole. References mean nothing but in values. */
static bool is_refused(const struct hole *hole, enum way way)
{
    switch (way) {
    case ILLEGAL_BY_BYTES:
        return hole->holds != DECLARATION;
    case ILLEGAL_BY_NUMBER:
        return hole->holds == VALUE || hole->holds == NOTHING;
    case MALFORMED:
        return true;
    default:
        return false;
    }
}

static void set_value(enum value value, const char *text)
{
    message.written[value].length = 0;
    message.read[value].length = 0;
    put(&message.written[value], text);
    put(&message.read[value], text);
}

void case_character(void)
{
    static struct bytes unread;
    size_t which = below(COUNT(holes));
    const struct hole *hole = &holes[which];
    enum way way = (enum way)below(WAYS);

    message.hole = hole->name;
    message.in_hole.length = 0;
    unread.length = 0;
    for (size_t i = 0; i < VALUES; i++) {
        set_value((enum value)i, i < EAS_TEXT ? "x" : "");
        if (!is_hole(value_names[i]))
            continue;
        put_way(&message.written[i], &message.read[i], way);
        message.hole = NULL;
    }
    if (message.hole != NULL)
        put_way(&message.in_hole, &unread, way);
    tried[which][way]++;
    if (is_refused(hole, way))
        check_answers(STUIVERHAAG_XML_BAD, 0);
    else
        check_answers(hole->number, hole->field);
}

/* ---- values that are cut */

/* One character so often, by its bytes and once in a while by its number, and letters before and behind it. */
static void draw_value(enum value value, size_t length)
{
    uint32_t character = draw_foreign();

    set_value(value, length > 1 && once_in(2) ? "e" : "");
    for (length -= message.read[value].length; length > 0; length--) {
        if (once_in(30))
            character = once_in(2) ? 'n' : draw_foreign();
        put_utf8(&message.read[value], character);
        if (once_in(60))
            put_reference(&message.written[value], character);
        else
            put_utf8(&message.written[value], character);
    }
}

void case_cut_values(void)
{
    static const size_t names[] = {0, 0, 1, 30, LONGEST_NAME - 1, LONGEST_NAME, LONGEST_NAME + 1, 3 * LONGEST_NAME};
    static const size_t parts[] = {0, 0, 1, 3, 4, 100, 700, 900, MOST - 1, MOST, MOST + 1, MOST + 200};
    static const size_t wholes[] = {0, 0, 0, 0, 1, 100, MOST - 1, MOST, MOST + 1, MOST + 200};
    /* What is left for two parts without a name, and the half of it. */
    int64_t left = MOST - (int64_t)strlen(sentence) - 2;

    message.hole = NULL;
    draw_value(SENDER_NAME, PICK(names));
    draw_value(DESCRIPTION, once_in(3) ? (size_t)between(left / 2 - 3, left / 2 + 3) : PICK(parts));
    draw_value(INSTRUCTION, once_in(3) ? (size_t)between(left / 2 - 3, left / 2 + 3) : PICK(parts));
    if (once_in(8))
        draw_value(DESCRIPTION, (size_t)between(left - 3, left + 4));
    draw_value(EAS_TEXT, once_in(2) ? 0 : PICK(wholes));
    draw_value(BROADCAST_TEXT, once_in(2) ? 0 : PICK(wholes));
    check_answers(STUIVERHAAG_DONE, 0);
}

/* ---- what was tried */

/* Whether each place was tried in each way. */
static bool print_tried(void)
{
    unsigned long least = tried[0][0];

    for (size_t i = 0; i < COUNT(holes); i++)
        for (size_t k = 0; k < WAYS; k++)
            if (tried[i][k] < least)
                least = tried[i][k];
    printf("a character in each of %lu places of a message, in each of %lu ways: at least ",
           (unsigned long)COUNT(holes), (unsigned long)WAYS);
    print_grouped(least);
    printf(" times\n");
    return least > 0;
}

bool print_spellings(void)
{
    bool all = print_tried();

    all = print_seen(texts, "texts, the same as by the message's values") && all;
    all = print_seen(cut_texts, "of them cut at 1,800 characters, which are more bytes") && all;
    all = print_seen(cut_names, "senderNames cut at 200 characters") && all;
    all = print_seen(cut_parts, "descriptions and instructions cut with a mark") && all;
    return all;
}
