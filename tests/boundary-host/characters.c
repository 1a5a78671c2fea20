#include "characters.h"

#include <string.h>

#define FIRST_TAIL 0x80
#define LAST_TAIL 0xbf
#define MOST_DIGITS 7

/* ---- reading */

/* The forms of RFC 3629, section 4: the range of the first byte, that of the second, and how many bytes there are. */
static const struct form {
    uint8_t first, last, second_first, second_last;
    size_t length;
} forms[] = {
    {0x00, 0x7f, 0, 0, 1},
    {0xc2, 0xdf, FIRST_TAIL, LAST_TAIL, 2},
    {0xe0, 0xe0, 0xa0, LAST_TAIL, 3},
    {0xe1, 0xec, FIRST_TAIL, LAST_TAIL, 3},
    {0xed, 0xed, FIRST_TAIL, 0x9f, 3},
    {0xee, 0xef, FIRST_TAIL, LAST_TAIL, 3},
    {0xf0, 0xf0, 0x90, LAST_TAIL, 4},
    {0xf1, 0xf3, FIRST_TAIL, LAST_TAIL, 4},
    {0xf4, 0xf4, FIRST_TAIL, 0x8f, 4},
};

static bool is_within(uint8_t byte, uint8_t first, uint8_t last)
{
    return byte >= first && byte <= last;
}

static bool has_form(const struct form *form, const uint8_t *bytes, size_t length)
{
    if (length < form->length || !is_within(bytes[0], form->first, form->last))
        return false;
    if (form->length > 1 && !is_within(bytes[1], form->second_first, form->second_last))
        return false;
    for (size_t i = 2; i < form->length; i++)
        if (!is_within(bytes[i], FIRST_TAIL, LAST_TAIL))
            return false;
    return true;
}

/* What the first byte of a character says of it, by how many bytes it has. */
static const uint8_t marks[] = {0, 0x00, 0xc0, 0xe0, 0xf0};

size_t character_at(const uint8_t *bytes, size_t length, uint32_t *character)
{
    for (size_t i = 0; i < COUNT(forms); i++) {
        if (!has_form(&forms[i], bytes, length))
            continue;
        *character = (uint32_t)(bytes[0] - marks[forms[i].length]);
        for (size_t k = 1; k < forms[i].length; k++)
            *character = *character << 6 | (uint32_t)(bytes[k] - FIRST_TAIL);
        return forms[i].length;
    }
    return 0;
}

bool is_legal(uint32_t character)
{
    return character == 9 || character == 10 || character == 13 || (character >= 0x20 && character <= 0xd7ff) ||
           (character >= 0xe000 && character <= 0xfffd) || (character >= 0x10000 && character <= 0x10ffff);
}

static bool is_white(uint8_t byte)
{
    return byte == 9 || byte == 10 || byte == 13 || byte == 32;
}

/* Where the declaration ends that begins at the first byte; 0 where none does, `length` where it has no end. */
static size_t declaration_end(const uint8_t *bytes, size_t length)
{
    if (length < 6 || memcmp(bytes, "<?xml", 5) != 0 || !is_white(bytes[5]))
        return 0;
    for (size_t i = 7; i < length; i++)
        if (bytes[i - 1] == '?' && bytes[i] == '>')
            return i + 1;
    return length;
}

bool are_of_message(const uint8_t *bytes, size_t length)
{
    size_t declared = declaration_end(bytes, length);
    size_t at = 0;

    while (at < length) {
        uint32_t character;
        size_t taken;

        /* Most characters are of one byte and legal, and soon told. */
        if (is_within(bytes[at], 0x20, 0x7f)) {
            at++;
            continue;
        }
        taken = character_at(bytes + at, length - at, &character);
        if (taken == 0 || (at >= declared && !is_legal(character)))
            return false;
        at += taken;
    }
    return true;
}

/* ---- writing */

/* A number spread over so many bytes as UTF-8 spreads it, whether they are as few as may be and it is one or not. */
static void put_spread(struct bytes *out, uint32_t number, size_t length)
{
    put_byte(out, marks[length] | (unsigned)(number >> 6 * (length - 1)));
    for (size_t left = length - 1; left > 0; left--)
        put_byte(out, FIRST_TAIL | (unsigned)(number >> 6 * (left - 1) & 0x3f));
}

/* The first number that needs more than so many bytes, by how many these are. */
static const uint32_t ends[] = {0, 0x80, 0x800, 0x10000, 0x110000};

static size_t length_of(uint32_t character)
{
    size_t length = 1;

    while (character >= ends[length])
        length++;
    return length;
}

void put_utf8(struct bytes *out, uint32_t character)
{
    put_spread(out, character, length_of(character));
}

uint32_t draw_character(size_t length)
{
    /* Those at the borders of a length, and those at the borders of what is not legal. */
    static const uint32_t of_two[] = {0x80, 0x7ff, 0xa0, 0x85, 0xc1, 0xd1, 0xe9, 0xf1, 0xf3};
    static const uint32_t of_three[] = {0x800, 0xd7ff, 0xe000, 0xfffd, 0xfeff, 0x2028, 0x20ac, 0x3000, 0xfff};
    static const uint32_t of_four[] = {0x10000, 0x10ffff, 0x1fffe, 0x1ffff, 0x3ffff, 0x40000, 0xfffff, 0x100000};
    uint32_t character;

    if (length == 1)
        return 0x7f;
    if (once_in(2))
        return length == 2 ? PICK(of_two) : length == 3 ? PICK(of_three) : PICK(of_four);
    do
        character = (uint32_t)between(ends[length - 1], ends[length] - 1);
    while (!is_legal(character));
    return character;
}

uint32_t draw_foreign(void)
{
    return draw_character(1 + below(LONGEST_CHARACTER));
}

uint32_t draw_illegal(void)
{
    static const uint32_t illegal[] = {0, 0, 1, 8, 0xb, 0xc, 0xe, 0x1f, 0xfffe, 0xfffe, 0xffff, 0xffff};

    return PICK(illegal);
}

/* ---- what is no character */

void put_cut(struct bytes *out)
{
    static struct bytes whole;
    size_t length = 2 + below(LONGEST_CHARACTER - 1);

    whole.length = 0;
    put_utf8(&whole, draw_character(length));
    put_bytes(out, whole.byte, 1 + below(length - 1));
}

/* A number that has no form: a surrogate, one above the last character, or one in more bytes than it needs. */
static void put_formless(struct bytes *out)
{
    static const uint32_t surrogates[] = {0xd800, 0xdbff, 0xdc00, 0xdfff};
    static const uint32_t above[] = {0x110000, 0x13ffff, 0x140000, 0x1fffff};
    static const uint32_t short_ones[] = {0, 0x2f, 0x3c, 0x7f};
    size_t length;

    switch (below(4)) {
    case 0:
        put_spread(out, once_in(2) ? PICK(surrogates) : (uint32_t)between(0xd800, 0xdfff), 3);
        break;
    case 1:
        put_spread(out, PICK(above), 4);
        break;
    case 2:
        put_spread(out, PICK(short_ones), 2 + below(LONGEST_CHARACTER - 1));
        break;
    default:
        length = 2 + below(LONGEST_CHARACTER - 1);
        put_spread(out, once_in(2) ? ends[length - 1] - 1 : (uint32_t)below(ends[length - 1]), length);
    }
}

void put_malformed(struct bytes *out)
{
    static const uint8_t never[] = {0xc0, 0xc1, 0xf5, 0xf6, 0xf7, 0xf8, 0xfb, 0xfc, 0xfd, 0xfe, 0xff};
    static const uint8_t tails[] = {FIRST_TAIL, 0x8f, 0x90, 0x9f, 0xa0, LAST_TAIL};

    switch (below(5)) {
    case 0:
        put_byte(out, PICK(never));
        break;
    case 1:
        put_byte(out, PICK(tails));
        break;
    case 2:
        put_utf8(out, draw_foreign());
        put_byte(out, PICK(tails));
        break;
    case 3:
        put_cut(out);
        break;
    default:
        put_formless(out);
    }
}

/* ---- references */

static void put_hexadecimal(struct bytes *out, uint64_t number, size_t digits)
{
    const char *written = once_in(2) ? "0123456789abcdef" : "0123456789ABCDEF";

    if (digits > 1 || number > 15)
        put_hexadecimal(out, number / 16, digits > 1 ? digits - 1 : 1);
    put_byte(out, (unsigned)written[number % 16]);
}

/* A number in one of the two bases, in so many digits at least. */
static void put_numbered(struct bytes *out, uint64_t number, size_t digits)
{
    put(out, "&#");
    if (once_in(2)) {
        put_number(out, number, digits);
    } else {
        put_byte(out, 'x');
        put_hexadecimal(out, number, digits);
    }
    put_byte(out, ';');
}

void put_reference(struct bytes *out, uint32_t character)
{
    put_numbered(out, character, once_in(2) ? 1 : 1 + below(MOST_DIGITS));
}

void put_odd_reference(struct bytes *out)
{
    static const uint64_t others[] = {
        0xd800, 0xdbff, 0xdc00, 0xdfff, 0x110000, 0x110001, 9999999, 0xfffffff,
    };
    /* What is a letter where only 21, 24 or 32 bits of the number are kept. */
    static const uint64_t above[] = {0x200041, 0x1000041, 0x100000041};

    switch (below(4)) {
    case 0:
        put_numbered(out, draw_illegal(), once_in(2) ? 1 : 1 + below(MOST_DIGITS));
        break;
    case 1:
        put_numbered(out, PICK(others), 1);
        break;
    case 2:
        put_numbered(out, PICK(above), 1);
        break;
    default:
        put_numbered(out, once_in(2) ? 0x41 : draw_foreign(), MOST_DIGITS + 1 + below(once_in(4) ? 60 : 4));
    }
}
