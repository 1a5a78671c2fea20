#include "alerts.h"

#include "characters.h"
#include "markup.h"
#include "times.h"

#include <string.h>

#define LONGEST_URI 1025

/* ---- an alert as it is drawn */

/* Now and then its year is another one in UTC than in its zone. */
static void draw_identity(struct identity *identity)
{
    static const size_t lengths[] = {1, 1, 2, 3, 8, 20, 63, 64};
    static const int zones[] = {0, 0, -240, -300, -480, 60, 330, 720, -210, 899, -899};

    draw_word(identity->sender, PICK(lengths));
    draw_word(identity->identifier, PICK(lengths));
    identity->sent = once_in(20) ? between(0, 1) * (END_OF_TIME - 1) : between(0, END_OF_TIME - 1);
    if (once_in(8))
        identity->sent = instant(between(2001, 2099), 1, 0) + between(-DAY / 2, DAY / 2);
    identity->zone = PICK(zones);
}

void refer_to(struct alert *alert, const char *type, const struct identity *others, size_t count)
{
    alert->type = type;
    alert->groups = count;
    memcpy(alert->group, others, count * sizeof others[0]);
}

void refer_to_unknown(struct alert *alert, size_t count)
{
    alert->type = once_in(2) ? "Update" : "Cancel";
    alert->groups = count;
    for (size_t i = 0; i < count; i++)
        draw_identity(&alert->group[i]);
}

static int64_t draw_period(void)
{
    static const int64_t borders[] = {1, 899, 900, 901, 2699, 2700, 2701, 3600, 3601, 358200, 358201, 1000000};

    return once_in(3) ? PICK(borders) : between(1, 400000);
}

void draw_alert(struct alert *alert)
{
    static const char *const originators[] = {NULL, "PEP", "EAS", "WXR", "CIV"};
    static const char *const events[] = {"EAN", "RMT", "RWT", "CEM", "FFW", "TOR", "ZZZ", "AAA", "SVR"};
    static const size_t counts[] = {1, 1, 1, 2, 3, 8, 30, 31, 32, 40};

    memset(alert, 0, sizeof *alert);
    draw_identity(&alert->own);
    alert->lasts = draw_period();
    if (alert->own.sent + alert->lasts >= END_OF_TIME)
        alert->own.sent = END_OF_TIME - 1 - alert->lasts;
    alert->status = "Actual";
    alert->type = "Alert";
    alert->scope = "Public";
    alert->has_info = true;
    alert->originator = PICK(originators);
    alert->event = PICK(events);
    alert->codes = PICK(counts);
    for (size_t i = 0; i < alert->codes; i++)
        alert->code[i] = i > 0 && once_in(4) ? alert->code[i - 1] : (uint32_t)below(1000000);
}

/* ---- what is wrong with it */

static const char *const odd_times[] = {
    "2011-02-29T00:00:00+00:00", "2010-04-31T00:00:00+00:00", "2010-13-05T14:00:30-04:00",
    "2010-04-05T24:00:00-04:00", "2010-04-05T14:00:60-04:00", "2010-04-05T14:00:30-15:00",
    "2010-04-05T14:00:30Z", "2010-04-05t14:00:30-04:00", "2010-04-05T14:00:30-04:00x",
    "1999-12-31T23:59:59+00:00", "2000-01-01T00:30:00+01:00", "2100-01-01T00:00:00+00:00",
    "0000-01-01T00:00:00+00:00", "9999-12-31T23:59:59-14:59", "2010-04-05T14:00:3", "",
    "2010-04-05\xc2\xa0T14:00:30-04:00", "2010-04-05T14:00:30-04:00\xe2\x80\x89", "201\xd9\xa0-04-05T14:00:30-04:00",
    "2010-04-05T14:00:30-04:00\x7f",
};

static void spoil_identity(struct alert *alert)
{
    char *word = once_in(2) ? alert->own.sender : alert->own.identifier;
    static const char *const words[] = {
        "", " ", "a b", "a,b", "<", "&a", "\xc3\xb1", "a\x7f", "\xef\xbb\xbfx", "a\xc2\xa0", "\xf0\x90\x80\x80",
    };

    if (once_in(3))
        draw_word(word, LONGEST_WORD);
    else
        strcpy(word, PICK(words));
}

static void spoil_words(struct alert *alert)
{
    static const char *const statuses[] = {
        "actual", "", "Actual x", "Exercise", "System", "Test", "Draft", "Actual\xc3\xa9", NULL,
    };
    static const char *const types[] = {"alert", "", "Alert Alert", "Ack", "Error", "Al\xc3\xa9rt", NULL};
    static const char *const scopes[] = {"public", "", "Publi", "Restricted", "Private", "Public\xc2\xa0", NULL};

    switch (below(3)) {
    case 0:
        alert->status = PICK(statuses);
        break;
    case 1:
        alert->type = PICK(types);
        break;
    default:
        alert->scope = PICK(scopes);
    }
}

static void spoil_references(struct alert *alert)
{
    static const char *const texts[] = {
        "", "x", "a,b", "a, b,2010-04-05T13:00:30-04:00", ",b,2010-04-05T13:00:30-04:00",
        "a,b,2010-04-05T13:00:30-04:00,", "a,b,2011-02-29T00:00:00+00:00", "a<,b,2010-04-05T13:00:30-04:00",
        "a,b,2010-04-05T13:00:30-04:00;a,c,2010-04-05T13:00:30-04:00", "\xc3\xa1,b,2010-04-05T13:00:30-04:00",
        "a,b,2010-04-05T13:00:30-04:00\xe3\x80\x80s,c,2010-04-05T13:00:30-04:00",
    };

    refer_to_unknown(alert, once_in(3) ? 17 : 0);
    if (alert->groups == 0 && !once_in(4))
        alert->odd_references = PICK(texts);
}

static void spoil_info(struct alert *alert)
{
    static const char *const events[] = {"", "CE", "CEMX", "cem", "C1M", "@AB", "AB[", "C\xc3\x89", "CEM\x7f", NULL};
    static const char *const originators[] = {"", "EAN", "civ", "CI", "CIVX", "CIV\xc3\xa9", "C\xc3\x8d"};
    static const char *const codes[] = {
        "", "1", "02403", "0240311", "02403a", "02403/", "02403:", "0240\xd9\xa3", "024031\xf3\xa0\x84\x80",
    };

    switch (below(5)) {
    case 0:
        alert->event = PICK(events);
        break;
    case 1:
        alert->originator = PICK(originators);
        break;
    case 2:
        alert->odd_code = PICK(codes);
        break;
    case 3:
        alert->codes = 0;
        break;
    default:
        alert->has_info = false;
    }
}

static void spoil(struct alert *alert)
{
    switch (below(8)) {
    case 0:
        spoil_identity(alert);
        break;
    case 1:
        alert->odd_sent = PICK(odd_times);
        break;
    case 2:
        spoil_words(alert);
        break;
    case 3:
        spoil_references(alert);
        break;
    case 4:
        alert->odd_expires = PICK(odd_times);
        break;
    case 5:
        alert->lasts = between(-2, 0);
        break;
    default:
        spoil_info(alert);
    }
}

/* ---- an alert as it is written */

static void put_group(struct bytes *out, const struct identity *group)
{
    put(out, group->sender);
    put_byte(out, ',');
    put(out, group->identifier);
    put_byte(out, ',');
    put_time(out, group->sent, group->zone);
}

static void put_references(struct bytes *out, const struct alert *alert)
{
    static struct bytes value;

    value.length = 0;
    for (size_t i = 0; i < alert->groups; i++) {
        if (i > 0)
            put_byte(&value, ' ');
        put_group(&value, &alert->group[i]);
    }
    if (alert->odd_references != NULL)
        put_leaf(out, "references", alert->odd_references);
    else if (alert->groups > 0)
        put_leaf_of(out, "references", value.byte, value.length);
}

static void put_time_leaf(struct bytes *out, const char *name, int64_t time, int zone, const char *instead)
{
    static struct bytes value;

    value.length = 0;
    if (instead != NULL)
        put(&value, instead);
    else
        put_time(&value, time, zone);
    put_leaf_of(out, name, value.byte, value.length);
}

static void put_codes(struct bytes *out, const struct alert *alert)
{
    static const char *const others[] = {"UGC", "same", "SAME\xc3\xa9"};
    static struct bytes value;

    put_start(out, "area");
    put_leaf(out, "areaDesc", "Here");
    for (size_t i = 0; i < alert->codes; i++) {
        value.length = 0;
        put_number(&value, alert->code[i], 6);
        put_byte(&value, 0);
        put_pair(out, "geocode", "SAME", (const char *)value.byte);
        if (once_in(16))
            put_pair(out, "geocode", PICK(others), "MDZ013\xc3\xb1");
        if (once_in(16)) {
            put_end(out, "area");
            put_between(out);
            put_start(out, "area");
        }
    }
    if (alert->odd_code != NULL)
        put_pair(out, "geocode", "SAME", alert->odd_code);
    put_end(out, "area");
}

/* Words of so many characters, white space that collapses among them; or one word, which keeps its length. */
static const char *some_words(size_t length)
{
    static struct bytes text;

    text.length = 0;
    draw_text(&text, length, once_in(4));
    put_byte(&text, 0);
    return (const char *)text.byte;
}

/* A leaf of words of some length. */
static void put_words(struct bytes *out, const char *name, size_t most)
{
    static const size_t lengths[] = {0, 1, 3, 30, 200, 201, 700, 1400, 1799, 1800, 3000};
    size_t length = PICK(lengths);

    put_leaf(out, name, some_words(length < most ? length : most));
}

/* The parameter that is the Canadian mode's text, its name in any letter case; or one of a longer or a shorter name. */
static void put_broadcast_text(struct bytes *out)
{
    static const size_t lengths[] = {0, 0, 1, 30, 60, 1800, 1801, 3000};
    char name[] = "layer:AEA:2.0:broadcastTextX";
    size_t length = sizeof name - 2;

    for (size_t i = 0; i < length; i++)
        if (name[i] >= 'A' && once_in(4))
            name[i] ^= 'A' ^ 'a';
    if (once_in(12))
        length = once_in(2) ? length - 1 : length + 1;
    name[length] = '\0';
    put_pair(out, "parameter", name, some_words(PICK(lengths)));
}

static void put_parameters(struct bytes *out, const struct alert *alert)
{
    if (alert->originator != NULL)
        put_pair(out, "parameter", "EAS-ORG", alert->originator);
    for (size_t left = below(4); left > 0; left--)
        put_pair(out, "parameter", alert->originator != NULL && once_in(4) ? "EAS-ORG" : "VTEC", "/O.NEW.TO.\xc3\x91/");
    if (once_in(4))
        put_pair(out, "parameter", "EASText", some_words(once_in(4) ? 2000 : below(60)));
    while (once_in(4))
        put_broadcast_text(out);
    if (once_in(3))
        put_pair(out, "parameter", "EAS-Must-Carry", once_in(2) ? "True" : "true");
}

/* A uri, once in a while with a character that none may have, at its start, in its middle or at its end. */
static void put_uri(struct bytes *out)
{
    static const size_t lengths[] = {0, 1, 30, 30, 30, 1023, 1024, LONGEST_URI};
    static struct bytes value;
    char uri[LONGEST_URI + 1];
    size_t length = PICK(lengths);
    size_t at = length * below(3) / 2;

    draw_word(uri, length);
    value.length = 0;
    put_bytes(&value, uri, at);
    if (once_in(4))
        put_utf8(&value, draw_foreign());
    put(&value, uri + at);
    put_leaf_of(out, "uri", value.byte, value.length);
}

static void put_resource(struct bytes *out)
{
    static const char *const types[] = {
        "audio/x-ipaws-audio-mp3", "audio/x-ipaws-audio-wav", "audio/x-ipaws-streaming-audio-mp3", "image/png", "",
        "audio/x-ipaws-audio-mp3\xc2\xa0",
    };

    put_between(out);
    put_start(out, "resource");
    put_leaf(out, "resourceDesc", "EAS Broadcast Content");
    put_leaf(out, "mimeType", PICK(types));
    put_uri(out);
    put_end(out, "resource");
}

static void put_info(struct bytes *out, const struct alert *alert, const char *language)
{
    size_t most = once_in(4) ? 3000 : 60;

    put_between(out);
    put_start(out, "info");
    put_leaf(out, "language", language);
    if (alert->event != NULL)
        put_pair(out, "eventCode", "SAME", alert->event);
    if (once_in(8))
        put_pair(out, "eventCode", "OTHER", "\xc3\x91");
    put_time_leaf(out, "expires", alert->own.sent + alert->lasts, once_in(2) ? 0 : alert->own.zone, alert->odd_expires);
    if (!once_in(6))
        put_words(out, "senderName", once_in(8) ? 3000 : 40);
    if (!once_in(6))
        put_words(out, "description", most);
    if (!once_in(6))
        put_words(out, "instruction", most);
    put_parameters(out, alert);
    while (once_in(3))
        put_resource(out);
    put_codes(out, alert);
    put_end(out, "info");
}

/* Every info says the same header, whichever of them is selected; those before it may be of another language. */
static void put_infos(struct bytes *out, const struct alert *alert)
{
    static const char *const languages[] = {NULL, NULL, "", "en-US", "EN-us", "es", "fr-CA", "en-u\xc5\xbf"};

    if (!alert->has_info)
        return;
    while (once_in(5))
        put_info(out, alert, "es");
    put_info(out, alert, PICK(languages));
    while (once_in(8))
        put_info(out, alert, PICK(languages));
}

static void put_alert(struct bytes *out, const struct alert *alert)
{
    put_declaration(out);
    put_root(out);
    put_leaf(out, "identifier", alert->own.identifier);
    put_leaf(out, "sender", alert->own.sender);
    put_time_leaf(out, "sent", alert->own.sent, alert->own.zone, alert->odd_sent);
    put_leaf(out, "status", alert->status);
    put_leaf(out, "msgType", alert->type);
    put_leaf(out, "scope", alert->scope);
    put_references(out, alert);
    put_infos(out, alert);
    put_between(out);
    put_end(out, "alert");
    put_gap(out);
}

/* Adds white space and comments up to a length about that of the longest message. */
static void fill_up(struct bytes *out)
{
    static const size_t lengths[] = {32700, 32767, 32768, 32768, 32769, 32769, 40000};
    size_t length = PICK(lengths);

    while (out->length < length) {
        if (out->length + 16 < length && once_in(4))
            put(out, "<!-- filled -->");
        else
            put_byte(out, (unsigned)(once_in(2) ? ' ' : '\n'));
    }
}

void write_alert(struct bytes *out, const struct alert *alert)
{
    out->length = 0;
    draw_style();
    put_alert(out, alert);
}

/* An Update or a Cancel once in a while, and some of these quiet. */
static void draw_any_alert(struct alert *alert)
{
    draw_alert(alert);
    if (once_in(3))
        refer_to_unknown(alert, 1 + below(once_in(4) ? 16 : 3));
    if (strcmp(alert->type, "Cancel") == 0 && once_in(2))
        alert->has_info = false;
}

void sound_message(struct bytes *out)
{
    struct alert alert;

    draw_any_alert(&alert);
    write_alert(out, &alert);
    if (once_in(50))
        fill_up(out);
}

void wrong_message(struct bytes *out)
{
    struct alert alert;

    out->length = 0;
    draw_any_alert(&alert);
    draw_style();
    if (once_in(3))
        draw_fault();
    else
        spoil(&alert);
    if (once_in(6))
        spoil(&alert);
    put_alert(out, &alert);
}
