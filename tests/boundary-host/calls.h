/*
 * The calls of the library, each made twice on slices against guard pages: once with every slice at the end of
 * its pages and once at their start, outputs filled differently. Both must give the same answer and the same bytes,
 * and whatever can be said of an answer by itself is checked.
 */
#ifndef CALLS_H
#define CALLS_H

#include "chance.h"
#include "stuiverhaag.h"

#define NUMBERS (STUIVERHAAG_NO_TEXT + 1)
#define FIELDS (STUIVERHAAG_FIELD_OTHER + 1)

enum call { GIVE_HEADER, GIVE_TEXT, CANADIAN, READ_HEADER, WRITE_HEADER, OFFER, HAND_OUT, CALLS };

struct slice {
    const uint8_t *bytes;
    size_t length;
};

/* What stuiverhaag_write_header takes. */
struct parts {
    uint32_t originator, period, day, hour, minute;
    struct slice event, locations, station;
};

/* How long the outputs of a conversion are lent. Each call takes those that it writes. */
struct lengths {
    size_t header, text, uri;
};

/* What a call is lent that is not to be refused for it. */
extern const struct slice bench_station;
extern const struct lengths just_enough;

struct slice slice_of(const struct bytes *bytes);

uint64_t give_header(struct slice message, struct slice station, struct lengths lengths);
uint64_t give_text(struct slice message, struct slice station, struct lengths lengths);
uint64_t canadian(struct slice message, struct lengths lengths);
uint64_t read_header(struct slice header);
uint64_t write_header(const struct parts *parts, size_t out_length);

/* These two leave in the board what the call left there. */
uint64_t offer(struct bytes *board, struct slice message);
uint64_t hand_out(struct bytes *board);

/* What the last call wrote as the header, where it gives or writes one. */
struct slice written_header(void);

/* What the last call wrote as the text and as the uri, where it gives these, in either mode. */
struct slice written_text(void);
struct slice written_uri(void);

/* Prints every call before it is made. */
void print_calls(void);

/* Prints a number with commas; and how often something was seen, and whether it was. */
void print_grouped(unsigned long number);
bool print_seen(unsigned long count, const char *what);

/* Prints how often each of the numbers that have a bit was answered, and each field. Whether each was. */
bool print_numbers(const unsigned long *counts, uint32_t numbers);
bool print_fields(const unsigned long *counts);

/*
 * Prints how often each number and each kind of text was answered, and each output was short. Whether each that a call
 * may answer was, and each output.
 */
bool print_counts(void);

#endif
