/* Takes vectors from standard input: see vectors.h. */
#include <stdlib.h>

#include "vectors.h"

/* The bytes of the case at hand, as far as they were read; numbers are little-endian. The largest kept case has
 * 212,212; one of 65,535 pixels would have 634,561. */
static uint8_t held[1 << 20];
static size_t taken;

int with_greys;

const uint8_t *take(size_t bytes)
{
    if (bytes > sizeof held - taken || fread(held + taken, 1, bytes, stdin) != bytes) {
        fprintf(stderr, "the vectors end inside a case\n");
        exit(1);
    }
    taken += bytes;
    return held + taken - bytes;
}

int next_case(void)
{
    int byte = getc(stdin);
    taken = 0;
    return byte != EOF && ungetc(byte, stdin) == byte;
}

uint32_t take_number(int bytes)
{
    const uint8_t *from = take((size_t)bytes);
    uint32_t number = 0;
    while (bytes-- > 0)
        number = number << 8 | from[bytes];
    return number;
}

void take_numbers(uint16_t *to, int many)
{
    while (many-- > 0)
        *to++ = (uint16_t)take_number(2);
}

lepsarvu_settings take_settings(void)
{
    lepsarvu_settings s = {0, 0, 0, 0, 0, 255, {0}};
    s.columns = (uint16_t)take_number(2);
    s.rows = (uint16_t)take_number(2);
    s.depth = (uint16_t)take_number(2);
    s.kernel = (uint16_t)take_number(2);
    if (with_greys) {
        s.black = (uint16_t)take_number(2);
        s.white = (uint16_t)take_number(2);
    }
    take_numbers(s.bins, LEPSARVU_SLOTS);
    return s;
}

static lepsarvu_reading take_reading(void)
{
    lepsarvu_reading it;
    it.kind = take_number(1);
    it.number = take_number(4);
    return it;
}

lepsarvu_note take_note(void)
{
    lepsarvu_note it;
    it.before_drier = take_reading();
    it.at_press = take_reading();
    return it;
}
