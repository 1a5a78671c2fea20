/* Characters in UTF-8 (RFC 3629) and by reference: those that XML 1.0 has, those that it has not, and what is none. */
#ifndef CHARACTERS_H
#define CHARACTERS_H

#include "chance.h"

#define LONGEST_CHARACTER 4

/* How many bytes the character at the start of these has, 1 to 4, and which it is; 0 where there is none. */
size_t character_at(const uint8_t *bytes, size_t length, uint32_t *character);

/* Whether XML 1.0 has it. */
bool is_legal(uint32_t character);

/*
 * Whether a message may have these characters: UTF-8 from the first byte to the last, and legal but for the
 * declaration. Where it may not, that alone makes it none of the subset.
 */
bool are_of_message(const uint8_t *bytes, size_t length);

/* A character in UTF-8, as many bytes as it needs. */
void put_utf8(struct bytes *out, uint32_t character);

/* A legal character of so many bytes, of one byte DEL alone; often the first or the last of them. */
uint32_t draw_character(size_t length);

/* One outside 32 to 126, of any length. */
uint32_t draw_foreign(void);

/* A well-formed one that is not legal. */
uint32_t draw_illegal(void);

/* Bytes that are no character, whatever stands behind them, unless that is a tail byte. */
void put_malformed(struct bytes *out);

/* The first bytes of a character that has more. */
void put_cut(struct bytes *out);

/* A reference of 1 to 7 digits to a legal character. */
void put_reference(struct bytes *out, uint32_t character);

/* One to no legal character, or of more digits. */
void put_odd_reference(struct bytes *out);

#endif
