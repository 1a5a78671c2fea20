#include "both.h"

#include "replay.h"

#include <stdio.h>
#include <string.h>

/* 0 and 3 to 14, a bit for each: a short output is a matter of one call. */
#define ALIKE (1u << 0 | 0x7ff8u)

/* A code in a header, and the words for it in a sentence. */
struct words {
    const char *code, *words;
};

static const struct words originators[] = {
    {"PEP", "Primary Entry Point System"},
    {"EAS", "Broadcast station or cable system"},
    {"WXR", "National Weather Service"},
    {"CIV", "Civil authorities"},
};

static const struct words events[] = {
    {"EAN", "Emergency Action Notification"},
    {"RMT", "Required Monthly Test"},
    {"RWT", "Required Weekly Test"},
    {"CEM", "Civil Emergency Message"},
    {"FFW", "Flash Flood Warning"},
    {"TOR", "Tornado Warning"},
};

static unsigned long numbers[NUMBERS];
static unsigned long fields[FIELDS];
static unsigned long quiet;

/* ---- the sentence of a header */

/* The words for a code of three bytes, or the code behind other words. */
static void put_words(struct bytes *out, const struct words *table, size_t count, const uint8_t *code,
                      const char *other)
{
    for (size_t i = 0; i < count; i++)
        if (memcmp(table[i].code, code, 3) == 0) {
            put(out, table[i].words);
            return;
        }
    put(out, other);
    put_bytes(out, code, 3);
}

static void put_sentence(struct bytes *out, struct slice header)
{
    /* TTTT-JJJHHMM- and the station with its dash are the last 22 bytes. */
    const uint8_t *end = header.bytes + header.length - 22;

    put_words(out, originators, COUNT(originators), header.bytes + 5, "");
    put(out, " issued ");
    put_words(out, events, COUNT(events), header.bytes + 9, "event ");
    put(out, " for locations ");
    for (const uint8_t *code = header.bytes + 13; code < end; code += 7) {
        put(out, code == header.bytes + 13 ? "" : ", ");
        put_bytes(out, code, 6);
    }
    put(out, ", valid from ");
    put_bytes(out, end + 8, 2);
    put_byte(out, ':');
    put_bytes(out, end + 10, 2);
    put(out, " UTC on day ");
    put_bytes(out, end + 5, 3);
    put(out, " for ");
    put_bytes(out, end, 2);
    put(out, " hours ");
    put_bytes(out, end + 2, 2);
    put(out, " minutes.");
}

/* ---- both calls */

void check_both(uint64_t of_header, struct slice header, uint64_t of_text, struct slice text)
{
    static struct bytes sentence;
    unsigned number = stuiverhaag_number(of_header);
    unsigned field = stuiverhaag_field(of_header);

    must(stuiverhaag_number(of_text) == number && stuiverhaag_field(of_text) == field,
         "The header's call answered another number or field.");
    must((header.length == 0) == (text.length == 0), "There is a header without a text, or a text without a header.");
    numbers[number]++;
    fields[field]++;
    if (header.length == 0) {
        quiet += number == STUIVERHAAG_DONE;
        return;
    }
    sentence.length = 0;
    put_sentence(&sentence, header);
    must(text.length >= sentence.length && memcmp(text.bytes, sentence.byte, sentence.length) == 0,
         "The text does not begin with the sentence of the header.");
}

bool print_both(void)
{
    bool seen;

    printf("both calls of a conversion alike");
    seen = print_numbers(numbers, ALIKE);
    printf("both calls of a conversion alike:");
    seen = print_fields(fields) && seen;
    printf("both calls of a conversion alike: after 0 ");
    seen = print_seen(numbers[STUIVERHAAG_DONE] - quiet, "gave a header and the text with its sentence") && seen;
    printf("both calls of a conversion alike: after 0 ");
    return print_seen(quiet, "gave nothing, of Cancels that activate nothing") && seen;
}
