#include "chance.h"

#include <string.h>

static uint64_t state;

void seed_chance(unsigned long seed, unsigned long number)
{
    state = seed * UINT64_C(0xd1342543de82ef95);
    state = chance() + number;
    state = chance();
}

/* The generator splitmix64. */
uint64_t chance(void)
{
    uint64_t mixed;

    state += UINT64_C(0x9e3779b97f4a7c15);
    mixed = state;
    mixed = (mixed ^ mixed >> 30) * UINT64_C(0xbf58476d1ce4e5b9);
    mixed = (mixed ^ mixed >> 27) * UINT64_C(0x94d049bb133111eb);
    return mixed ^ mixed >> 31;
}

size_t below(size_t end)
{
    return chance() % end;
}

bool once_in(size_t times)
{
    return below(times) == 0;
}

int64_t between(int64_t low, int64_t high)
{
    return low + (int64_t)(chance() % (uint64_t)(high - low + 1));
}

void put_byte(struct bytes *out, unsigned byte)
{
    if (out->length < ROOM)
        out->byte[out->length++] = (uint8_t)byte;
}

void put_bytes(struct bytes *out, const void *bytes, size_t length)
{
    size_t left = ROOM - out->length;

    if (length > left)
        length = left;
    memcpy(out->byte + out->length, bytes, length);
    out->length += length;
}

void put(struct bytes *out, const char *text)
{
    put_bytes(out, text, strlen(text));
}

void put_number(struct bytes *out, uint64_t number, size_t digits)
{
    if (digits > 1 || number > 9)
        put_number(out, number / 10, digits > 1 ? digits - 1 : 1);
    put_byte(out, (unsigned)('0' + number % 10));
}

void put_chance(struct bytes *out, size_t length)
{
    for (size_t i = 0; i < length; i++)
        put_byte(out, (unsigned)below(256));
}

void copy(struct bytes *out, const struct bytes *from)
{
    out->length = 0;
    put_bytes(out, from->byte, from->length);
}
