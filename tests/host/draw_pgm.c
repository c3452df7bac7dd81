/* PGM files, whole, broken and damaged: see draw.h. */
#include <stdio.h>

#include "draw.h"

enum { MOST_COMMENT = 12, MOST_PIECES = 4, LEAST_DAMAGED = 8 };

/* A file that is being put together. */
struct text {
    uint8_t *bytes;
    size_t length;
};

static void put(struct text *to, uint32_t byte)
{
    to->bytes[to->length++] = (uint8_t)byte;
}

static void put_white(struct seeded *draw, struct text *to)
{
    put(to, (uint8_t)" \t\n\r"[below(draw, 4)]);
}

/* Anything but a newline, then a newline, which is seldom missing. */
static void put_comment(struct seeded *draw, struct text *to)
{
    static const char USUAL[] = "P5 #255\t\r";
    put(to, '#');
    for (uint32_t left = below(draw, MOST_COMMENT + 1); left > 0; left--) {
        uint32_t byte = once_in(draw, 2) ? below(draw, 256) : (uint8_t)USUAL[below(draw, sizeof USUAL - 1)];
        put(to, byte == '\n' ? 0 : byte);
    }
    if (!once_in(draw, 50))
        put(to, '\n');
}

/* White space and comments, seldom none. */
static void put_gap(struct seeded *draw, struct text *to)
{
    uint32_t pieces = once_in(draw, 2) ? 1 : 1 + below(draw, MOST_PIECES);
    if (once_in(draw, 50))
        pieces = 0;
    for (; pieces > 0; pieces--)
        if (once_in(draw, 4))
            put_comment(draw, to);
        else
            put_white(draw, to);
}

/* With some leading zeros; seldom with more than five digits, or with none. */
static void put_number(struct seeded *draw, struct text *to, uint32_t number)
{
    char digits[16];
    uint32_t least = once_in(draw, 4) ? 1 + below(draw, 5) : 1;
    if (once_in(draw, 50))
        least = 6 + below(draw, 2);
    snprintf(digits, sizeof digits, "%0*u", (int)least, (unsigned)number);
    if (once_in(draw, 80))
        digits[0] = '\0';
    for (const char *digit = digits; *digit != '\0'; digit++)
        put(to, (uint8_t)*digit);
}

static void put_start(struct seeded *draw, struct text *to)
{
    static const char OTHERS[][3] = {"P2", "P4", "P6", "p5", "5P", "PP", "55", " P"};
    const char *start = once_in(draw, 40) ? OTHERS[below(draw, sizeof OTHERS / sizeof *OTHERS)] : "P5";
    put(to, (uint8_t)start[0]);
    put(to, (uint8_t)start[1]);
}

/* The one byte before the pixels, seldom none, or another. */
static void put_end(struct seeded *draw, struct text *to)
{
    static const uint8_t OTHERS[] = {'#', 11, 12, 0, '0', '5', 133, 160, 255};
    if (once_in(draw, 40))
        put(to, OTHERS[below(draw, sizeof OTHERS)]);
    else if (!once_in(draw, 80))
        put_white(draw, to);
}

static uint32_t draw_side(struct seeded *draw, uint32_t most_side)
{
    static const uint32_t EDGES[] = {0,   1,   2,     3,     128,   129,   130,   131,  257,
                                     258, 385, 32770, 65535, 65536, 65538, 65665, 99999};
    if (once_in(draw, 16))
        return EDGES[below(draw, sizeof EDGES / sizeof *EDGES)];
    return 2 + below(draw, most_side - 1);
}

static uint32_t draw_greatest(struct seeded *draw)
{
    static const uint32_t EDGES[] = {0, 1, 127, 128, 254, 255, 256, 511, 32767, 65279, 65535, 65536, 65791, 99999};
    return once_in(draw, 12) ? EDGES[below(draw, sizeof EDGES / sizeof *EDGES)] : 255;
}

/* Pixels of which many would be read as a header, if anybody did. */
static void put_pixels(struct seeded *draw, struct text *to, size_t many)
{
    static const char USUAL[] = "# \n\t\r0259P";
    uint32_t kind = below(draw, 3);
    for (; many > 0; many--)
        put(to, kind == 0 ? (uint8_t)USUAL[below(draw, sizeof USUAL - 1)] : below(draw, 256));
}

size_t draw_pgm(struct seeded *draw, uint32_t most_side, uint8_t file[MOST_DRAWN_PGM], size_t *pixels)
{
    struct text to = {file, 0};
    const uint32_t number[3] = {draw_side(draw, most_side), draw_side(draw, most_side), draw_greatest(draw)};
    uint64_t product = (uint64_t)number[0] * number[1];
    *pixels = product <= MOST_DRAWN_PIXELS ? (size_t)product : 9;
    put_start(draw, &to);
    for (int which = 0; which < 3; which++) {
        put_gap(draw, &to);
        put_number(draw, &to, number[which]);
    }
    put_end(draw, &to);
    put_pixels(draw, &to, draw_length(draw, *pixels));
    return to.length >= LEAST_DAMAGED && once_in(draw, 4) ? draw_damage(draw, file, to.length) : to.length;
}
