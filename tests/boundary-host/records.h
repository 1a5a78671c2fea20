/* One record of a board: where its fields stand, the rules that it keeps, and its header with the year of that. */
#ifndef RECORDS_H
#define RECORDS_H

#include "stuiverhaag.h"

#include <stdbool.h>

#define RECORD STUIVERHAAG_RECORD_LENGTH
#define SENT_AT 1
#define SENDER_AT 5
#define IDENTIFIER_AT 69
#define HEADER_AT STUIVERHAAG_RECORD_HEADER_AT
#define HEADER_ROOM STUIVERHAAG_RECORD_HEADER_LENGTH
#define YEAR_AT 376
#define BEHIND_YEAR_AT 378

enum { NOTICE = 1, WITHDRAWAL = 2, AIRED = 3 };

/* The years that a sent, and so an aired record, may have. */
#define FIRST_YEAR 2000
#define LAST_YEAR 2099

/* Whether a record keeps the rules of its kind. */
bool is_record(const uint8_t *record);

/* The year of a record's header: of a notice that of its sent in UTC, of an aired record the one that it carries. */
int64_t year_in(const uint8_t *record);

/* Which of two headers comes first, by their bytes and then by their years: below 0, 0 or above 0, as memcmp has it. */
int compare_headers(const uint8_t *record, const uint8_t *other);

/* Whether a withdrawal names a notice: its sent, sender and identifier. */
bool withdraws(const uint8_t *record, const uint8_t *notice);

/* The instant that a record has for sent. */
int64_t sent_in(const uint8_t *record);

/* Writes sent, or a year. */
void place_sent(uint8_t *record, int64_t sent);
void place_year(uint8_t *record, int64_t year);

/* Makes the aired record of a notice's header with a year. */
void make_aired(uint8_t *record, const uint8_t *notice, int64_t year);

#endif
