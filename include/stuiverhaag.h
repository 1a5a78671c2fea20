/*
 * The calls of Stuiverhaag for a host in C or C++. Link with libstuiverhaag.a, which
 * tools/install makes and puts where a build finds it.
 *
 * A call takes numbers and lent slices, each a pointer and its length in bytes. It keeps no
 * pointer and no state, and uses no heap. The caller sees to three things:
 *
 *   - a pointer is not NULL, also where the length is 0;
 *   - the slices lent to one call do not overlap;
 *   - what the pointer points to has as many bytes as the length says.
 *
 * Everything else is judged by the call: any bytes, any lengths, any numbers may be lent.
 *
 * A call returns one uint64_t, and the functions at the end of this file take its parts. The
 * first of them is a number of enum stuiverhaag_numbers. Any but 0 is a refusal: no lent byte has
 * changed, and every part but the number is 0, and after 7 the field. After 0 an output begins
 * with what was written, as long as the answer says, and its bytes behind that are as they were.
 *
 * A message is UTF-8 (RFC 3629), and so is the text that is made of it; every length that is lent
 * or answered counts bytes, in these too. What stations, headers, boards and uris say is ASCII.
 */
#ifndef STUIVERHAAG_H
#define STUIVERHAAG_H

#include <stddef.h>
#include <stdint.h>

#ifdef __cplusplus
extern "C" {
#endif

/* Where several apply, the lowest is returned, but 16 before 15. */
enum stuiverhaag_numbers {
    STUIVERHAAG_DONE = 0,
    /* the board breaks its rules, as one with an aired record without a year does */
    STUIVERHAAG_BOARD_RULES = 1,
    /*
     * a lent output has fewer bytes than STUIVERHAAG_HEADER_LENGTH, _TEXT_LENGTH or _URI_LENGTH,
     * whether the answer would fit or not
     */
    STUIVERHAAG_OUTPUT_SHORT = 2,
    /* the station is not STUIVERHAAG_STATION_LENGTH bytes of 32 to 126 without `-` and `+` */
    STUIVERHAAG_STATION_BAD = 3,
    /* the message has no byte, or more than STUIVERHAAG_MESSAGE_LONGEST */
    STUIVERHAAG_MESSAGE_LENGTH_BAD = 4,
    /*
     * the message is not of the subset of XML. So too: malformed UTF-8 anywhere, the declaration
     * not excepted; behind the declaration a character that XML 1.0 does not have, also by
     * reference; one outside ASCII in a name, or beside the root, as a byte order mark would be
     */
    STUIVERHAAG_XML_BAD = 5,
    /* its root is not a CAP 1.2 alert */
    STUIVERHAAG_ROOT_BAD = 6,
    /* an element that is read is at fault; the field says which */
    STUIVERHAAG_ELEMENT_BAD = 7,
    /* the status is not Actual, or the scope is not Public */
    STUIVERHAAG_NOT_ACTUAL_PUBLIC = 8,
    /* the msgType is Ack or Error */
    STUIVERHAAG_ACK_OR_ERROR = 9,
    /* references are missing, malformed or more than 16 */
    STUIVERHAAG_REFERENCES_BAD = 10,
    /* the SAME event is absent, there twice, or malformed */
    STUIVERHAAG_EVENT_BAD = 11,
    /* the originator is none of the four */
    STUIVERHAAG_ORIGINATOR_BAD = 12,
    /* the SAME location is absent or malformed */
    STUIVERHAAG_LOCATION_BAD = 13,
    /* expires is absent, malformed or not after sent */
    STUIVERHAAG_EXPIRES_BAD = 14,
    /* the board has fewer empty records than must be added */
    STUIVERHAAG_BOARD_FULL = 15,
    STUIVERHAAG_NOTHING_DUE = 16,
    /* unreadable bytes, or parts that no header has */
    STUIVERHAAG_NO_HEADER = 17,
    /* neither a broadcastText nor a description that is not empty */
    STUIVERHAAG_NO_TEXT = 18
};

/* The first of these that is at fault; the last of them is every other element that is read. */
enum stuiverhaag_fields {
    STUIVERHAAG_FIELD_IDENTIFIER = 1,
    STUIVERHAAG_FIELD_SENDER = 2,
    STUIVERHAAG_FIELD_SENT = 3,
    STUIVERHAAG_FIELD_STATUS = 4,
    STUIVERHAAG_FIELD_MSGTYPE = 5,
    STUIVERHAAG_FIELD_SCOPE = 6,
    STUIVERHAAG_FIELD_OTHER = 7
};

enum stuiverhaag_audios {
    STUIVERHAAG_AUDIO_NONE = 0,
    STUIVERHAAG_AUDIO_MP3 = 1,
    STUIVERHAAG_AUDIO_WAV = 2,
    STUIVERHAAG_AUDIO_STREAMING_MP3 = 3
};

enum stuiverhaag_originators {
    STUIVERHAAG_ORG_PEP = 1,
    STUIVERHAAG_ORG_EAS = 2,
    STUIVERHAAG_ORG_WXR = 3,
    STUIVERHAAG_ORG_CIV = 4
};

/* How many bytes a message has at most, whatever its characters, and how many a station has. */
#define STUIVERHAAG_MESSAGE_LONGEST 32768
#define STUIVERHAAG_STATION_LENGTH 8

/* How many bytes a lent output has to have, whatever is written into it. */
#define STUIVERHAAG_HEADER_LENGTH 252
#define STUIVERHAAG_TEXT_LENGTH 7200
#define STUIVERHAAG_URI_LENGTH 1024

/* How many characters a text has at most. Each is 1 to 4 bytes of it. */
#define STUIVERHAAG_TEXT_CHARACTERS 1800

/*
 * A board is 1 to STUIVERHAAG_RECORDS_MOST records of STUIVERHAAG_RECORD_LENGTH bytes. Filled
 * records come first, strictly ascending by their bytes; the rest are all zero. A record has these
 * bytes, counted from 0:
 *
 *     0            its kind: 1 notice, 2 withdrawal, 3 aired
 *     1 to 4       sent, seconds since 2000 began in UTC, highest byte first, below 3,155,760,000
 *     5 to 68      the sender, zero-filled
 *     69 to 132    the identifier, zero-filled
 *     133 to 375   the header through the dash after JJJHHMM, without the station, zero-filled
 *     376 and 377  the year, high byte first, 2000 to 2099
 *     378 to 383   zero
 *
 * A notice has all but the year, and its JJJHHMM is that of its sent. A withdrawal has sent, sender
 * and identifier. An aired record has a header and a year, one that has the header's day: for day
 * 366 a leap year. What a kind does not have is zero. Sender and identifier keep the rules that
 * they have in a message, and a header those of stuiverhaag_read_header.
 *
 * Two headers are the same only if the UTC year of sent agrees too. A notice carries its header
 * with the year of its sent, an aired record with the year that it has. A withdrawal withdraws each
 * notice with its sent, sender and identifier. A header is due if a notice that is not withdrawn
 * carries it and no aired record does. Due headers are ordered by their bytes, then by year.
 *
 * A board with an aired record without a year, as old boards have, is answered 1. It is rebuilt
 * from the message log: the messages are offered to an empty board. An offer airs nothing, so that
 * what the old board handed out may be due again on the new one.
 */

/* How long a record of a board is, and how many records a board has at most. */
#define STUIVERHAAG_RECORD_LENGTH 384
#define STUIVERHAAG_RECORDS_MOST 170

/* Where a record has its header, without the station and zero-filled, and how long it is there. */
#define STUIVERHAAG_RECORD_HEADER_AT 133
#define STUIVERHAAG_RECORD_HEADER_LENGTH 243

/*
 * A CAP message is converted by two calls. stuiverhaag_header gives the header, and whether the
 * alert must be carried; stuiverhaag_text gives the alert text and the audio. Who wants the header
 * alone makes only the first, and lends no text.
 *
 * Number 2 asks in each call only what that call writes. Where all outputs are long enough, both
 * answer the same number and field to a message and a station.
 *
 * A Cancel that activates nothing is asked 2 to 10 as well, and then answered 0 by both: nothing is
 * written, and every part of the answer is 0.
 *
 * A character is a code point. Text, attribute values and comments of the message may have every
 * character of XML 1.0, in text and values also by a reference of 1 to 7 digits. White space is 9,
 * 10, 13 and 32 alone. A character outside the range of an identifier, sender, time, code or other
 * value that is judged gets the number that the value gets for any other fault.
 */

/*
 * Gives the header of a CAP message. Lent to be read: the message, and the station. Lent to be
 * written: the header.
 *
 * Numbers 0 and 2 to 14. After 0 the answer has header_length and carry. Both are 0 for a Cancel
 * that activates nothing, whatever its EAS-Must-Carry says; any other message has a header.
 */
uint64_t stuiverhaag_header(const uint8_t *message, size_t message_length,
                            const uint8_t *station, size_t station_length,
                            uint8_t *header, size_t header_length);

/*
 * Gives the text and the audio of a CAP message. Lent to be read: the message, and the station,
 * which is judged though nothing is made of it. Lent to be written: the alert text, and the uri of
 * the audio.
 *
 * The text has at most STUIVERHAAG_TEXT_CHARACTERS characters, each whole: no cut falls inside one.
 * The uri has 1 to STUIVERHAAG_URI_LENGTH bytes of 32 to 126; a resource whose uri has any other
 * character is passed over, and the choice goes on to the next.
 *
 * Numbers 0 and 2 to 14. After 0 the answer has text_length, audio and uri_length. All are 0 for a
 * Cancel that activates nothing; any other message has a text.
 */
uint64_t stuiverhaag_text(const uint8_t *message, size_t message_length,
                          const uint8_t *station, size_t station_length,
                          uint8_t *text, size_t text_length,
                          uint8_t *uri, size_t uri_length);

/*
 * Gives the text and the audio of a CAP message in the Canadian mode. Lent to be read: the
 * message. Lent to be written: the alert text, and the uri of the audio.
 *
 * The text is the first value that is not empty of a parameter layer:AEA:2.0:broadcastText, this
 * name in any letter case. Where there is none, it is the description, and after a space the
 * instruction unless that is empty. What has more than STUIVERHAAG_TEXT_CHARACTERS is cut there,
 * between two characters and without a mark. Characters are taken, and the audio is chosen, as by
 * stuiverhaag_text.
 *
 * Numbers 0, 2, 4 to 9 and 18. After 0 the answer has text_length, which is never 0, audio and
 * uri_length. A Cancel is answered as an Alert is.
 */
uint64_t stuiverhaag_canadian(const uint8_t *message, size_t message_length,
                              uint8_t *text, size_t text_length,
                              uint8_t *uri, size_t uri_length);

/*
 * Reads a header, ZCZC-ORG-EEE-PSSCCC+TTTT-JJJHHMM-LLLLLLLL-, which is lent to be read.
 *
 * Numbers 0 and 17. After 0 the answer has originator, locations, period, day, hour and minute.
 * The other parts stand in the header itself: the event's 3 bytes at index 9, the 6 digits of
 * location k, counted from 0, at index 13 + 7 * k, and the station's 8 bytes before the last
 * byte.
 */
uint64_t stuiverhaag_read_header(const uint8_t *header, size_t header_length);

/*
 * Writes a header. The originator is one of enum stuiverhaag_originators; the period is in
 * minutes; the day is that of the year. Lent to be read: the event, the locations as 6 digits
 * each, one behind the other, and the station. Lent to be written: out.
 *
 * Numbers 0, 2, 3 and 17. After 0 the answer has header_length.
 */
uint64_t stuiverhaag_write_header(uint32_t originator,
                                  const uint8_t *event, size_t event_length,
                                  const uint8_t *locations, size_t locations_length,
                                  uint32_t period, uint32_t day, uint32_t hour, uint32_t minute,
                                  const uint8_t *station, size_t station_length,
                                  uint8_t *out, size_t out_length);

/*
 * Offers a message to a board: adds its notice, unless it is a Cancel that activates nothing, and
 * a withdrawal for each reference of an Update or Cancel, all or none; what the board holds
 * already is not added again. Lent to be read: the message. Lent to be read and written: the
 * board, 1 to STUIVERHAAG_RECORDS_MOST records of STUIVERHAAG_RECORD_LENGTH bytes, at first all
 * zero.
 *
 * Numbers 0, 1 and 4 to 15. After 0 the answer has added.
 */
uint64_t stuiverhaag_offer(uint8_t *board, size_t board_length,
                           const uint8_t *message, size_t message_length);

/*
 * Hands out the first due header of a board, by its bytes and then by its year, and adds its aired
 * record, with that year. The board is lent to be read and written. The header stands at
 * STUIVERHAAG_RECORD_HEADER_AT of the record that the index counts, a notice, before the call and
 * after it. On a board that began empty no header with its year is handed out twice; the same bytes
 * may come again with another year.
 *
 * Numbers 0, 1, 16 and 15, asked in this order. After 0 the answer has index.
 */
uint64_t stuiverhaag_hand_out(uint8_t *board, size_t board_length);

/* ---- the parts of an answer */

/* The `count` bits of an answer from bit `first` on. */
static inline unsigned stuiverhaag_bits(uint64_t answer, unsigned first, unsigned count)
{
    return (unsigned)((answer >> first) & ((UINT64_C(1) << count) - 1));
}

/* Of every call: the number. */
static inline unsigned stuiverhaag_number(uint64_t answer)
{
    return stuiverhaag_bits(answer, 0, 8);
}

/*
 * Of stuiverhaag_header, stuiverhaag_text, stuiverhaag_canadian and stuiverhaag_offer: after 7 one
 * of enum stuiverhaag_fields, else 0.
 */
static inline unsigned stuiverhaag_field(uint64_t answer)
{
    return stuiverhaag_bits(answer, 8, 8);
}

/* Of stuiverhaag_header and stuiverhaag_write_header: how many bytes the header has. */
static inline size_t stuiverhaag_header_length(uint64_t answer)
{
    return stuiverhaag_bits(answer, 16, 8);
}

/* Of stuiverhaag_text and stuiverhaag_canadian: one of enum stuiverhaag_audios. */
static inline unsigned stuiverhaag_audio(uint64_t answer)
{
    return stuiverhaag_bits(answer, 24, 4);
}

/* Of stuiverhaag_header: 1 where the alert must be carried, else 0. */
static inline unsigned stuiverhaag_carry(uint64_t answer)
{
    return stuiverhaag_bits(answer, 28, 4);
}

/* Of stuiverhaag_text and stuiverhaag_canadian: how many bytes the uri has. */
static inline size_t stuiverhaag_uri_length(uint64_t answer)
{
    return stuiverhaag_bits(answer, 32, 16);
}

/* Of stuiverhaag_text and stuiverhaag_canadian: how many bytes the text has, not characters. */
static inline size_t stuiverhaag_text_length(uint64_t answer)
{
    return stuiverhaag_bits(answer, 48, 16);
}

/* Of stuiverhaag_offer: how many records were added. */
static inline unsigned stuiverhaag_added(uint64_t answer)
{
    return stuiverhaag_bits(answer, 16, 16);
}

/*
 * Of stuiverhaag_hand_out: the index of the smallest notice that made the header due, counted
 * from 0. The aired record is added behind all notices, so that it holds after the call too.
 */
static inline unsigned stuiverhaag_index(uint64_t answer)
{
    return stuiverhaag_bits(answer, 16, 16);
}

/* Of stuiverhaag_read_header: one of enum stuiverhaag_originators. */
static inline unsigned stuiverhaag_originator(uint64_t answer)
{
    return stuiverhaag_bits(answer, 8, 8);
}

/* Of stuiverhaag_read_header: how many locations there are, 1 to 31. */
static inline size_t stuiverhaag_locations(uint64_t answer)
{
    return stuiverhaag_bits(answer, 16, 8);
}

/* Of stuiverhaag_read_header: the hour, 0 to 23. */
static inline unsigned stuiverhaag_hour(uint64_t answer)
{
    return stuiverhaag_bits(answer, 24, 8);
}

/* Of stuiverhaag_read_header: the period in minutes. */
static inline unsigned stuiverhaag_period(uint64_t answer)
{
    return stuiverhaag_bits(answer, 32, 16);
}

/* Of stuiverhaag_read_header: the minute, 0 to 59. */
static inline unsigned stuiverhaag_minute(uint64_t answer)
{
    return stuiverhaag_bits(answer, 48, 7);
}

/* Of stuiverhaag_read_header: the day of the year, 1 to 366. */
static inline unsigned stuiverhaag_day(uint64_t answer)
{
    return stuiverhaag_bits(answer, 55, 9);
}

#ifdef __cplusplus
}
#endif

#endif
