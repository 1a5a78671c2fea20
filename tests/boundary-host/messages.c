#include "messages.h"

#include "alerts.h"
#include "characters.h"
#include "markup.h"

#include <string.h>

static const char *const element_names[] = {
    "alert", "identifier", "sender", "sent", "status", "msgType", "scope", "references", "info", "language",
    "eventCode", "expires", "senderName", "description", "instruction", "parameter", "resource", "mimeType", "uri",
    "area", "geocode", "valueName", "value", "note", "p:info", "p:alert", "_", "a.b-c",
};

static const char *const tokens[] = {
    "<", "</", ">", "/>", "&", "&#", "&#x", ";", "&lt;", "&gt;", "&amp;", "&quot;", "&apos;", "&#65;", "&#x41;", "]]>",
    "]]", "<!--", "-->", "--", "<!", "<?xml ", "?>", "<![CDATA[", "<!DOCTYPE ", "'", "\"", "=", " ", "\n", "\t", "\r",
    ":", "p:", "xmlns", "xmlns:p", NAMESPACE, " xmlns=\"" NAMESPACE "\"", "SAME", "CEM", "024031", "Actual", "Alert",
    "Cancel", "Public", "EAS-ORG", "EASText", "EAS-Must-Carry", "layer:AEA:2.0:broadcastText", "True", "CIV", "en-US",
    "2010-04-05T14:00:30-04:00", "a,b,2010-04-05T14:00:30-04:00", "audio/x-ipaws-audio-mp3", "0", "9", "a", "Z", "-",
    "\x7f", "\x80", "\xff", "\x01", "\xc3\xa9", "\xe2\x82\xac", "\xf0\x9f\x98\x80", "\xc3", "\xe2\x82", "\xf0\x9f\x98",
    "\xef\xbb\xbf", "\xef\xbf\xbe", "\xed\xa0\x80", "\xc0\x80", "&#233;", "&#1114111;", "&#xD800;", "&#x10FFFF;",
    "&#00000065;",
};

/* Tokens of markup in any order, behind a sound start once in a while. */
static void token_message(struct bytes *out)
{
    if (once_in(2))
        put(out, "<alert xmlns='" NAMESPACE "'>");
    for (size_t left = once_in(20) ? below(4000) : below(60); left > 0; left--)
        put(out, once_in(3) ? PICK(element_names) : PICK(tokens));
    if (once_in(2))
        put(out, "</alert>");
}

/* A well-formed element with others in it, whatever their names. */
static void put_tree(struct bytes *out, size_t depth)
{
    const char *name = PICK(element_names);

    put_byte(out, '<');
    put(out, name);
    if (once_in(12))
        put(out, " a='&#9;' b=\"\"");
    if (once_in(6)) {
        put(out, "/>");
        return;
    }
    put_byte(out, '>');
    for (size_t left = below(4); left > 0 && out->length < 4000; left--) {
        if (depth > 0 && !once_in(4))
            put_tree(out, depth - 1);
        else if (once_in(8))
            put(out, PICK(tokens));
        else
            put(out, once_in(2) ? "SAME" : "2010-04-05T14:00:30-04:00");
    }
    put(out, "</");
    put(out, name);
    put_byte(out, '>');
}

/* Elements in any place, often behind the six that every alert has. */
static void tree_message(struct bytes *out)
{
    bool in_info = once_in(3);

    put(out, "<alert xmlns='" NAMESPACE "'>");
    if (!once_in(4))
        put(out, "<identifier>i</identifier><sender>s</sender><sent>2010-04-05T14:00:30-04:00</sent>"
                 "<status>Actual</status><msgType>Alert</msgType><scope>Public</scope>");
    put(out, in_info ? "<info>" : "");
    for (size_t left = below(12); left > 0; left--)
        put_tree(out, below(13));
    put(out, in_info ? "</info></alert>" : "</alert>");
}

static void chance_message(struct bytes *out)
{
    static const size_t lengths[] = {0, 0, 1, 2, 7, 100, 4095, 4096, 4097, 32767, 32768, 32769, 65535, 65536, 70000};

    put_chance(out, once_in(20) ? PICK(lengths) : below(300));
}

/* One byte, or one that means something, over and over. */
static void even_message(struct bytes *out)
{
    static const char *const repeated[] = {
        "<a>", "<a ", "<", "&", "<!--", " ", "<a></a>", "]", "<a b=''/>", "a", "\"", "\xc3\xa9", "\xf4\x8f\xbf\xbf",
        "\xc3", "\x80", "&#x10FFFF;", "&#0",
    };
    static const size_t lengths[] = {1, 10, 100, 1000, 32700, 32768, 32769};
    const char *token = PICK(repeated);
    size_t length = PICK(lengths);

    if (once_in(2))
        put(out, "<alert xmlns='" NAMESPACE "'>");
    while (out->length < length)
        put(out, token);
}

/* ---- damage */

/* Puts bytes in at a place. */
static void put_in(struct bytes *bytes, size_t at, const uint8_t *in, size_t length)
{
    static struct bytes rest;

    rest.length = 0;
    put_bytes(&rest, bytes->byte + at, bytes->length - at);
    bytes->length = at;
    put_bytes(bytes, in, length);
    put_bytes(bytes, rest.byte, rest.length);
}

static void take_out(struct bytes *bytes, size_t at, size_t length)
{
    memmove(bytes->byte + at, bytes->byte + at + length, bytes->length - at - length);
    bytes->length -= length;
}

static uint8_t other_byte(uint8_t byte)
{
    static const char changes[] = "<>&;/=\"'- \n!?]:a0Z+,";

    switch (below(3)) {
    case 0:
        return (uint8_t)below(256);
    case 1:
        return (uint8_t)PICK(changes);
    default:
        return (uint8_t)(byte ^ 1u << below(8));
    }
}

/* A character that may stand in a message, one that may not, or what is none. */
static void put_any_character(struct bytes *out)
{
    switch (below(3)) {
    case 0:
        put_utf8(out, draw_foreign());
        break;
    case 1:
        put_utf8(out, draw_illegal());
        break;
    default:
        put_malformed(out);
    }
}

/* Puts in a token, a character, or what stands there once more. */
static void put_some_in(struct bytes *bytes, size_t at)
{
    static struct bytes in;
    size_t left = bytes->length - at;

    in.length = 0;
    switch (below(3)) {
    case 0:
        put(&in, PICK(tokens));
        break;
    case 1:
        put_any_character(&in);
        break;
    default:
        put_bytes(&in, bytes->byte + at, 1 + below(left < 200 ? left : 200));
    }
    put_in(bytes, at, in.byte, in.length);
}

void damage(struct bytes *bytes)
{
    size_t at = bytes->length == 0 ? 0 : below(bytes->length);
    size_t left = bytes->length - at;

    if (left == 0)
        return;
    switch (below(10)) {
    case 0:
    case 1:
    case 2:
        bytes->byte[at] = other_byte(bytes->byte[at]);
        break;
    case 3:
    case 4:
    case 5:
        put_some_in(bytes, at);
        break;
    case 6:
        take_out(bytes, at, 1);
        break;
    case 7:
        take_out(bytes, at, 1 + below(left < 60 ? left : 60));
        break;
    case 8:
        bytes->length = at;
        put_cut(bytes);
        break;
    default:
        bytes->length = at;
    }
}

/* The front of one message and the back of another. */
static void splice(struct bytes *out)
{
    static struct bytes other;

    sound_message(out);
    sound_message(&other);
    if (out->length > 0 && other.length > 0) {
        size_t at = below(other.length);

        out->length = below(out->length);
        put_bytes(out, other.byte + at, other.length - at);
    }
}

static void damaged_message(struct bytes *out)
{
    sound_message(out);
    for (size_t left = once_in(4) ? 1 + below(6) : 1; left > 0; left--)
        damage(out);
}

void any_message(struct bytes *out)
{
    size_t kind = below(100);

    out->length = 0;
    if (kind < 36)
        sound_message(out);
    else if (kind < 58)
        wrong_message(out);
    else if (kind < 74)
        damaged_message(out);
    else if (kind < 79)
        splice(out);
    else if (kind < 85)
        token_message(out);
    else if (kind < 92)
        tree_message(out);
    else if (kind < 98)
        chance_message(out);
    else
        even_message(out);
}
