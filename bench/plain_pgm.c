/* PGM files in plain C: see plain.h. */
#include <string.h>

#include "plain.h"

enum { MOST_DIGITS = 5, MOST_GREY = 255, SINGLE_BYTES = 9 };

static int size_ok(unsigned columns, unsigned rows)
{
    return columns - 2 <= MOST_SIDE - 2 && rows - 2 <= MOST_SIDE - 2;
}

/* What the single form has beside the pixels: nine bytes, and the digits of both sides. */
static size_t header_bytes(unsigned columns, unsigned rows)
{
    return (size_t)(SINGLE_BYTES + 2 + (columns > 9) + (columns > 99) + (rows > 9) + (rows > 99));
}

static uint16_t pgm_size(uint16_t columns, uint16_t rows, size_t *size)
{
    if (!size_ok(columns, rows))
        return 1;
    *size = header_bytes(columns, rows) + (size_t)columns * rows;
    return 0;
}

static uint8_t *put_side(uint8_t *to, unsigned side)
{
    if (side > 99)
        *to++ = (uint8_t)('0' + side / 100);
    if (side > 9)
        *to++ = (uint8_t)('0' + side / 10 % 10);
    *to++ = (uint8_t)('0' + side % 10);
    return to;
}

static uint16_t write_pgm(uint16_t columns, uint16_t rows, const uint8_t *restrict picture, size_t picture_length,
                          uint8_t *restrict file, size_t file_length, size_t *size)
{
    if (!size_ok(columns, rows))
        return 1;
    if (picture_length != (size_t)columns * rows)
        return 5;
    if (file_length < header_bytes(columns, rows) + picture_length)
        return 8;
    memcpy(file, "P5\n", 3);
    uint8_t *to = put_side(file + 3, columns);
    *to++ = ' ';
    to = put_side(to, rows);
    memcpy(to, "\n255\n", 5);
    memcpy(to + 5, picture, picture_length);
    *size = (size_t)(to + 5 - file) + picture_length;
    return 0;
}

static int is_white(uint8_t byte)
{
    return byte == ' ' || byte == '\n' || byte == '\t' || byte == '\r';
}

/* The first byte after white space and comments, or NULL where a comment has no newline. */
static const uint8_t *after_gap(const uint8_t *at, const uint8_t *end)
{
    for (; at != end; at++)
        if (*at == '#') {
            at = memchr(at, '\n', (size_t)(end - at));
            if (!at)
                return NULL;
        } else if (!is_white(*at)) {
            break;
        }
    return at;
}

/* A gap and a number of one to five digits; answers the byte after it, or NULL. */
static const uint8_t *after_number(const uint8_t *at, const uint8_t *end, unsigned *number)
{
    const uint8_t *first = after_gap(at, end);
    if (!first || first == at)
        return NULL;
    unsigned sum = 0;
    for (at = first; at != end && (uint8_t)(*at - '0') <= 9; at++) {
        if (at - first == MOST_DIGITS)
            return NULL;
        sum = 10 * sum + (unsigned)(*at - '0');
    }
    *number = sum;
    return at == first ? NULL : at;
}

/* The first refusal of a file; `pixels` is left at its first pixel. */
static uint16_t file_refusal(const uint8_t *file, size_t length, unsigned side[2], const uint8_t **pixels)
{
    const uint8_t *end = file + length, *at = file + 2;
    unsigned grey;
    if (length < 2 || file[0] != 'P' || file[1] != '5')
        return 16;
    if (!(at = after_number(at, end, &side[0])) || !(at = after_number(at, end, &side[1])) ||
        !(at = after_number(at, end, &grey)) || at == end || !is_white(*at))
        return 16;
    if (!size_ok(side[0], side[1]))
        return 1;
    if (grey != MOST_GREY)
        return 17;
    *pixels = at + 1;
    return (size_t)(end - at - 1) == (size_t)side[0] * side[1] ? 0 : 18;
}

static uint16_t read_pgm(const uint8_t *restrict file, size_t file_length, uint8_t *restrict picture,
                         size_t picture_length, uint16_t *columns, uint16_t *rows)
{
    const uint8_t *pixels;
    unsigned side[2];
    uint16_t refusal = file_refusal(file, file_length, side, &pixels);
    if (refusal)
        return refusal;
    if (picture_length != (size_t)side[0] * side[1])
        return 5;
    memcpy(picture, pixels, picture_length);
    *columns = (uint16_t)side[0];
    *rows = (uint16_t)side[1];
    return 0;
}

static uint16_t check_pgm(const uint8_t *file, size_t file_length, uint16_t *columns, uint16_t *rows)
{
    const uint8_t *pixels;
    unsigned side[2];
    uint16_t refusal = file_refusal(file, file_length, side, &pixels);
    if (refusal)
        return refusal;
    *columns = (uint16_t)side[0];
    *rows = (uint16_t)side[1];
    return 0;
}

const struct pgm_calls fast_pgm = {pgm_size, write_pgm, read_pgm, check_pgm};
