#define _DEFAULT_SOURCE

#include "lent.h"

#include "chance.h"
#include "replay.h"

#include <string.h>
#include <sys/mman.h>

#define PAGE 4096
#define PAGES (ROOM / PAGE)

struct lent {
    uint8_t *bytes;
    size_t length;
    /* The first page, and how many may be touched from it on. A guard page stands before it, and one behind all. */
    uint8_t *pages;
    size_t open;
    bool may_be_written;
    /* What was on them before the call. */
    uint8_t before[ROOM];
};

static struct lent lents[MOST_LENT];

/* Where wide slices lie. */
static struct lent wide[MOST_LENT];
static bool has_wide;

/* Which of the two the last call was lent. */
static struct lent *current[MOST_LENT];

/* Where patterns are taken from. */
static uint8_t pattern[2 * ROOM];

static void protect(uint8_t *pages, size_t count, int may)
{
    if (count > 0 && mprotect(pages, count * PAGE, may) != 0)
        broken("Pages could not be protected.");
}

/* The pages with a guard page on each side. */
static void reserve(struct lent *lent)
{
    void *all = mmap(NULL, (PAGES + 2) * PAGE, PROT_NONE, MAP_PRIVATE | MAP_ANONYMOUS, -1, 0);

    if (all == MAP_FAILED)
        broken("There are no pages.");
    lent->pages = (uint8_t *)all + PAGE;
}

/* A stretch that takes memory only where it is touched; whether there is one. */
static bool reserve_wide(struct lent *lent)
{
    void *all = mmap(NULL, WIDE + ROOM, PROT_READ | PROT_WRITE,
                     MAP_PRIVATE | MAP_ANONYMOUS | MAP_NORESERVE, -1, 0);

    if (all == MAP_FAILED)
        return false;
    lent->pages = all;
    lent->open = PAGES;
    lent->may_be_written = true;
    return true;
}

void reserve_pages(void)
{
    has_wide = true;
    for (size_t i = 0; i < MOST_LENT; i++) {
        reserve(&lents[i]);
        has_wide = has_wide && reserve_wide(&wide[i]);
    }
    for (size_t i = 0; i < sizeof pattern; i++)
        pattern[i] = (uint8_t)below(256);
}

bool lends_wide(void)
{
    return has_wide;
}

/* Lets so many pages be read and written, and no others be touched. */
static void open_pages(struct lent *lent, size_t count)
{
    if (count == lent->open && lent->may_be_written)
        return;
    if (count < lent->open)
        protect(lent->pages + count * PAGE, lent->open - count, PROT_NONE);
    protect(lent->pages, count, PROT_READ | PROT_WRITE);
    lent->open = count;
    lent->may_be_written = true;
}

/* Fills the pages, and notes what they hold. */
static void fill(struct lent *lent, const uint8_t *bytes, size_t length)
{
    memcpy(lent->pages, pattern + below(ROOM), lent->open * PAGE);
    if (bytes != NULL)
        memcpy(lent->bytes, bytes, length);
    memcpy(lent->before, lent->pages, lent->open * PAGE);
}

static uint8_t *lend_wide(size_t which, const uint8_t *bytes, size_t length)
{
    struct lent *lent = &wide[which];

    current[which] = lent;
    lent->bytes = lent->pages;
    lent->length = lent->open * PAGE;
    fill(lent, bytes, length);
    return lent->bytes;
}

uint8_t *lend(size_t which, const uint8_t *bytes, size_t length, enum side side, bool to_be_read)
{
    struct lent *lent = &lents[which];
    size_t count = length == 0 ? 1 : (length + PAGE - 1) / PAGE;

    if (length >= WIDE)
        return lend_wide(which, bytes, length - WIDE);
    if (length > ROOM)
        broken("A slice is longer than its pages.");
    current[which] = lent;
    open_pages(lent, count);
    lent->bytes = lent->pages + (side == AT_START ? 0 : count * PAGE - length);
    lent->length = length;
    fill(lent, bytes, length);
    if (to_be_read) {
        protect(lent->pages, count, PROT_READ);
        lent->may_be_written = false;
    }
    return lent->bytes;
}

void compare(size_t which, size_t written)
{
    const struct lent *lent = current[which];
    size_t start = (size_t)(lent->bytes - lent->pages);
    size_t stays = start + written;
    size_t end = start + lent->length;

    if (written > lent->length)
        broken("The answer is longer than the output.");
    if (memcmp(lent->pages, lent->before, start) != 0)
        broken("A byte before a lent slice has changed.");
    if (memcmp(lent->pages + stays, lent->before + stays, end - stays) != 0)
        broken("A lent byte that was to stay has changed.");
    if (memcmp(lent->pages + end, lent->before + end, lent->open * PAGE - end) != 0)
        broken("A byte behind a lent slice has changed.");
}
