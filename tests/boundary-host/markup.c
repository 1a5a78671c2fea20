#include "markup.h"

#include "characters.h"
#include "replay.h"

#include <string.h>

#define NONE ((size_t)-1)

/* How freely a message is written: each is a chance of one in so many, 0 for never. */
struct style {
    const char *prefix;
    size_t gaps, comments, references, skipped;
};

/* Which of the leaves, counted as they are written, is at fault, and whether the root or the declaration is. */
struct faults {
    size_t next, missing, twice, holding, odd;
    bool root, declaration;
};

static struct style style;
static struct faults faults;

static bool happens(size_t times)
{
    return times > 0 && once_in(times);
}

/* ---- words */

void draw_word(char *word, size_t length)
{
    static const char letters[] = "abcXYZ019!~@.-_'>\"/;]#";

    for (size_t i = 0; i < length; i++)
        word[i] = letters[below(sizeof letters - 1)];
    word[length] = '\0';
}

void draw_text(struct bytes *out, size_t length, bool one_word)
{
    static const char odd[] = "<&>\"']-~!*.,";
    static const size_t rare[] = {0, 0, 0, 20, 3, 1};
    /* One in so many is foreign, 0 for none, and of so many bytes, 0 for any. */
    size_t foreign = PICK(rare);
    size_t width = once_in(2) ? 0 : 1 + below(LONGEST_CHARACTER);

    for (; length > 0; length--) {
        size_t kind = below(40);

        if (happens(foreign))
            put_utf8(out, width == 0 ? draw_foreign() : draw_character(width));
        else if (kind < 6 && !one_word)
            put_byte(out, ' ');
        else
            put_byte(out, (unsigned)(kind == 6 ? odd[below(sizeof odd - 1)] : (char)('a' + below(26))));
    }
}

/* ---- markup */

static const char *const gaps[] = {" ", "\n", "\t", "\r\n", "  ", "\n\n "};

static const char *const comments[] = {
    "<!---->", "<!-- - -->", "<!--->-->", "<!--<a>&b]]>-->", "<!--\n-->", "<!--x--><!----><!--y-->",
};

static const char *const skipped[] = {
    "<note/>",
    "<q:info><eventCode/></q:info>",
    "<z a = '1'\tb=\"&lt;>\" />",
    "<web>http://x/&amp;y</web >",
    "<z><info><expires/></info>t</z>",
    "<contact\n>c<!-- -->d</contact\t>",
    "<z q:a=\"\" r:a=''/>",
    "<a><b><c><d><e><f><g><h/></g></f></e></d></c></b></a>",
};

/* What the subset allows nowhere, or nowhere in text; the characters at fault are drawn elsewhere. */
static const char *const odd[] = {
    "<a>", "</a>", "<a></b>", "<a b=1/>", "<a b='1'c='2'/>", "<a b='1' b='2'/>", "<a b='<'/>", "<a b='x\"/>",
    "<a b/>", "< a/>", "<a/ >", "&", "&;", "&foo;", "&lt", "&#;", "&#x;", "&#X41;", "&#0;", "&#31;", "&#1114112;",
    "&#x1F;", "&#00000065;", "&#xFFFE;", "&#x4g;", "]]>", "<!-->", "<!--a--->", "<!-- -- -->", "<![CDATA[x]]>",
    "<!DOCTYPE a>", "<?pi x?>", "\x01", "\xff", "<1a/>", "<a:/>", "<:a/>", "<a:b:c/>", "<\xc3\xa9/>", "<a\x7f/>",
    "<a:\xc3\xb1/>", "<a\xe2\x82\xac='1'/>", "<a \xc3\xa9='1'/>", "<a\xc2\xa0/>", "<a></a\xc2\xa0>", "&\xc3\xa9;",
    "<a b=\xc3\xa9'1'/>", "<a b='1'\xc3\xa9/>", "&#\xd9\xa1;", "<\xef\xbb\xbf/>",
    "<a><b><c><d><e><f><g><h><i><j/></i></h></g></f></e></d></c></b></a>",
    "<a><b><c><d><e><f><g><h><i><j><k><l/></k></j></i></h></g></f></e></d></c></b></a>",
};

void put_gap(struct bytes *out)
{
    if (happens(style.gaps))
        put(out, PICK(gaps));
}

/* A foreign character by its bytes or by its number, which in a comment means nothing. */
static void put_foreign(struct bytes *out)
{
    if (once_in(2))
        put_utf8(out, draw_foreign());
    else
        put_reference(out, draw_foreign());
}

static void put_comment(struct bytes *out)
{
    if (once_in(2)) {
        put(out, PICK(comments));
        return;
    }
    put(out, "<!--");
    for (size_t left = below(4); left > 0; left--)
        put_foreign(out);
    put(out, "-->");
}

static void put_skipped(struct bytes *out)
{
    if (once_in(2)) {
        put(out, PICK(skipped));
        return;
    }
    put(out, "<z a='");
    put_foreign(out);
    put(out, "'>");
    put_foreign(out);
    put(out, "</z>");
}

void put_between(struct bytes *out)
{
    put_gap(out);
    if (happens(style.comments))
        put_comment(out);
    if (happens(style.skipped))
        put_skipped(out);
    if (happens(style.skipped))
        put_foreign(out);
    put_gap(out);
}

static void put_name(struct bytes *out, const char *name)
{
    if (style.prefix != NULL) {
        put(out, style.prefix);
        put_byte(out, ':');
    }
    put(out, name);
}

void put_start(struct bytes *out, const char *name)
{
    put_byte(out, '<');
    put_name(out, name);
    if (happens(style.skipped)) {
        put(out, " a=\"&#x41;>'");
        put_foreign(out);
        put_byte(out, '"');
    }
    put_gap(out);
    put_byte(out, '>');
}

void put_end(struct bytes *out, const char *name)
{
    put(out, "</");
    put_name(out, name);
    put_gap(out);
    put_byte(out, '>');
}

static bool ends_in_brackets(const struct bytes *out)
{
    return out->length >= 2 && memcmp(out->byte + out->length - 2, "]]", 2) == 0;
}

static void put_character(struct bytes *out, uint32_t character)
{
    if (happens(style.references))
        put_reference(out, character);
    else if (character == '<')
        put(out, "&lt;");
    else if (character == '&')
        put(out, "&amp;");
    else if (character == '>' && ends_in_brackets(out))
        put(out, "&gt;");
    else
        put_utf8(out, character);
    if (character == ' ')
        put_gap(out);
    if (happens(style.comments * 16))
        put_comment(out);
}

static void put_characters(struct bytes *out, const uint8_t *text, size_t length)
{
    size_t taken;

    put_gap(out);
    for (size_t at = 0; at < length; at += taken) {
        uint32_t character = 0;

        taken = character_at(text + at, length - at, &character);
        if (taken == 0)
            broken("A text of the generator's own is not UTF-8.");
        put_character(out, character);
    }
    put_gap(out);
}

/* What the subset does not allow: most often in text, and in what else a leaf may hold. */
static void put_odd(struct bytes *out)
{
    static const char *const around[][2] = {
        {"", ""}, {"", ""}, {"", ""}, {"<!--", "-->"}, {"<a b='", "'/>"}, {"<a>", "</a>"}, {"<a", "/>"},
        {"<a ", "='1'/>"},
    };
    size_t which = below(COUNT(around));

    put(out, around[which][0]);
    switch (below(4)) {
    case 0:
        put_malformed(out);
        break;
    case 1:
        put_utf8(out, draw_illegal());
        break;
    case 2:
        put_odd_reference(out);
        break;
    default:
        put(out, PICK(odd));
    }
    put(out, around[which][1]);
}

static void put_once(struct bytes *out, const char *name, const uint8_t *text, size_t length, size_t number)
{
    put_between(out);
    put_start(out, name);
    put_characters(out, text, length);
    if (number == faults.holding)
        put_skipped(out);
    if (number == faults.odd)
        put_odd(out);
    put_end(out, name);
}

void put_leaf_of(struct bytes *out, const char *name, const uint8_t *text, size_t length)
{
    size_t number = faults.next++;

    if (number == faults.missing)
        return;
    put_once(out, name, text, length, number);
    if (number == faults.twice)
        put_once(out, name, text, length, number);
}

void put_leaf(struct bytes *out, const char *name, const char *text)
{
    if (text != NULL)
        put_leaf_of(out, name, (const uint8_t *)text, strlen(text));
}

void put_pair(struct bytes *out, const char *name, const char *value_name, const char *value)
{
    bool turned = once_in(8);

    put_between(out);
    put_start(out, name);
    if (turned)
        put_leaf(out, "value", value);
    put_leaf(out, "valueName", value_name);
    if (!turned)
        put_leaf(out, "value", value);
    put_between(out);
    put_end(out, name);
}

/* In a declaration any character may stand. */
void put_declaration(struct bytes *out)
{
    if (!faults.declaration && !once_in(4))
        return;
    put(out, "<?xml version=\"1.0\" encoding=\"UTF-8\"");
    if (once_in(3))
        put_utf8(out, once_in(2) ? draw_illegal() : draw_foreign());
    if (faults.declaration)
        put_malformed(out);
    put(out, "?>");
}

void put_root(struct bytes *out)
{
    static const char *const others[] = {
        "urn:oasis:names:tc:emergency:cap:1.1", NAMESPACE " ", "", "&#117;rn:oasis", NAMESPACE "\xc3\xa9",
        NAMESPACE "&#xFEFF;",
    };

    put_byte(out, '<');
    put_name(out, "alert");
    put(out, once_in(8) ? "\n x='1' xmlns" : " xmlns");
    if (style.prefix != NULL) {
        put_byte(out, ':');
        put(out, faults.root && once_in(2) ? "z" : style.prefix);
    }
    put(out, once_in(8) ? " = \"" : "=\"");
    put(out, faults.root ? PICK(others) : NAMESPACE);
    put(out, "\">");
}

/* ---- how a message is written */

void draw_style(void)
{
    static const char *const prefixes[] = {NULL, NULL, NULL, "p", "cap", "a.b-c_d", "alert", "xml"};
    static const size_t odds[] = {0, 0, 1, 3, 8};
    static const size_t rare[] = {0, 0, 0, 2, 8, 20};

    style.prefix = PICK(prefixes);
    style.gaps = PICK(odds);
    style.comments = PICK(rare);
    style.references = PICK(rare);
    style.skipped = PICK(rare);
    faults = (struct faults){0, NONE, NONE, NONE, NONE, false, false};
}

void draw_fault(void)
{
    size_t number = once_in(2) ? below(7) : below(60);

    switch (below(6)) {
    case 0:
        faults.missing = number;
        break;
    case 1:
        faults.twice = number;
        break;
    case 2:
        faults.holding = number;
        break;
    case 3:
        faults.odd = number;
        break;
    case 4:
        faults.declaration = true;
        break;
    default:
        faults.root = true;
    }
}
