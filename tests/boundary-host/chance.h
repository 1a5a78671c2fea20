/* Seeded chance, and bytes that are put one behind the other. The same seed and case give the same choices. */
#ifndef CHANCE_H
#define CHANCE_H

#include <stdbool.h>
#include <stddef.h>
#include <stdint.h>

/* More bytes than any slice that is lent. */
#define ROOM 131072

void seed_chance(unsigned long seed, unsigned long number);

uint64_t chance(void);
size_t below(size_t end);
bool once_in(size_t times);

/* A number from low to high, both included. */
int64_t between(int64_t low, int64_t high);

#define COUNT(items) (sizeof(items) / sizeof(items)[0])
#define PICK(items) ((items)[below(COUNT(items))])

/* What does not fit is left out. Too large for a stack: each is static. */
struct bytes {
    size_t length;
    uint8_t byte[ROOM];
};

void put_byte(struct bytes *out, unsigned byte);
void put_bytes(struct bytes *out, const void *bytes, size_t length);
void put(struct bytes *out, const char *text);

/* A number in decimal, in so many digits at least. */
void put_number(struct bytes *out, uint64_t number, size_t digits);

/* Bytes of any value. */
void put_chance(struct bytes *out, size_t length);

void copy(struct bytes *out, const struct bytes *from);

#endif
