/*
 * Slices that are lent against guard pages. Each lies on as few pages as it needs, either at their start or
 * at their end, and the pages on both sides of them may not be touched. The slack on the pages is filled with a
 * pattern, and a slice that is lent to be read lies on pages that may not be written.
 *
 * A slice of a length that 32 bits cannot say, WIDE bytes and more, lies at the start of a stretch of its own,
 * all of which may be touched; only its first bytes are filled and compared.
 */
#ifndef LENT_H
#define LENT_H

#include <stdbool.h>
#include <stddef.h>
#include <stdint.h>

#define MOST_LENT 4
#define WIDE ((size_t)1 << 32)

enum side { AT_START, AT_END };

void reserve_pages(void);

/* Whether this machine gives stretches for wide slices. */
bool lends_wide(void);

/*
 * Lends slice `which` of a call. Where `bytes` is NULL it holds a pattern of chance. Of a wide one `bytes` has as many
 * as its length is above WIDE.
 */
uint8_t *lend(size_t which, const uint8_t *bytes, size_t length, enum side side, bool to_be_read);

/* Compares all but the first `written` bytes of a slice, and its slack, with what they were. */
void compare(size_t which, size_t written);

#endif
