/* Settings, lengths, pictures, level buffers and readings: see draw.h. */
#include "draw.h"

enum { WHITEST = 255 };

static uint16_t draw_bin(struct seeded *draw)
{
    static const uint16_t EDGES[] = {1, 2, 3, 254, 255};
    switch (below(draw, 4)) {
    case 0:
        return EDGES[below(draw, 5)];
    case 1:
        return (uint16_t)(1 + below(draw, 16));
    default:
        return (uint16_t)(1 + below(draw, 255));
    }
}

void draw_greys(struct seeded *draw, lepsarvu_settings *s)
{
    static const uint16_t EDGES[][2] = {{0, 1}, {254, 255}, {0, 254}, {1, 255}, {127, 128}};
    uint16_t black = (uint16_t)below(draw, WHITEST), white = (uint16_t)(black + 1 + below(draw, WHITEST - black));
    const uint16_t greys[8][2] = {
        {0, WHITEST}, {0, WHITEST}, {0, WHITEST}, {16, 235}, {16, 235}, {16, 235}, {black, white}, {black, white}};
    const uint16_t *pair = once_in(draw, 12) ? EDGES[below(draw, 5)] : greys[below(draw, 8)];
    s->black = pair[0];
    s->white = pair[1];
}

lepsarvu_settings draw_lawful(struct seeded *draw, uint32_t most_side)
{
    lepsarvu_settings s = {0, 0, 0, 0, 0, 0, {0}};
    uint32_t deepest = 0;
    while (deepest < 6 && (2u << deepest) + 1 <= most_side)
        deepest++;
    s.depth = (uint16_t)below(draw, deepest + 1);
    uint32_t steps = (most_side - 1) >> s.depth;
    s.columns = (uint16_t)(1 + ((1 + below(draw, steps)) << s.depth));
    s.rows = (uint16_t)(1 + ((1 + below(draw, steps)) << s.depth));
    s.kernel = (uint16_t)(3 + below(draw, 4));
    for (int slot = 0; slot <= s.depth; slot++)
        s.bins[slot] = draw_bin(draw);
    draw_greys(draw, &s);
    return s;
}

lepsarvu_settings draw_for_size(struct seeded *draw, uint16_t columns, uint16_t rows, uint32_t most_bin)
{
    lepsarvu_settings s = {columns, rows, 0, 0, 0, 0, {0}};
    plain_pyramid.deepest_depth(columns, rows, &s.depth);
    s.depth = (uint16_t)below(draw, s.depth + 1u);
    s.kernel = (uint16_t)(3 + below(draw, 4));
    for (int slot = 0; slot <= s.depth; slot++)
        s.bins[slot] = (uint16_t)(1 + (draw_bin(draw) - 1) % most_bin);
    draw_greys(draw, &s);
    return s;
}

/* Black and white that are equal or stand the wrong way round, a white above 255, and some that are lawful. */
static void spoil_greys(struct seeded *draw, lepsarvu_settings *s)
{
    static const uint16_t PAIRS[][2] = {{0, 0},   {255, 255},     {16, 16},   {235, 16},  {255, 0},   {0, 256},
                                        {1, 0},   {254, 256},     {255, 256}, {256, 257}, {16, 511},  {0, 65535},
                                        {256, 255}, {65534, 65535}, {65535, 255}, {65535, 0}, {0, 255}, {254, 255}};
    uint32_t which = below(draw, 20);
    s->black = which < 18 ? PAIRS[which][0] : s->white;
    s->white = which < 18 ? PAIRS[which][1] : s->white;
}

void spoil(struct seeded *draw, lepsarvu_settings *s)
{
    static const uint16_t SIDES[] = {0, 1, 2, 3, 4, 6, 10, 128, 129, 130, 131, 257, 65535};
    static const uint16_t DEPTHS[] = {0, 1, 2, 3, 6, 7, 8, 16, 32, 64, 65535};
    static const uint16_t KERNELS[] = {0, 1, 2, 7, 8, 65535};
    static const uint16_t BINS[] = {0, 1, 255, 256, 257, 511, 65535};
    switch (below(draw, 6)) {
    case 0:
        s->columns = SIDES[below(draw, 13)];
        break;
    case 1:
        s->rows = SIDES[below(draw, 13)];
        break;
    case 2:
        s->depth = DEPTHS[below(draw, 11)];
        break;
    case 3:
        s->kernel = KERNELS[below(draw, 6)];
        break;
    case 4:
        spoil_greys(draw, s);
        break;
    default:
        s->bins[below(draw, LEPSARVU_SLOTS)] = BINS[below(draw, 7)];
    }
}

lepsarvu_settings draw_settings(struct seeded *draw, uint32_t most_side)
{
    lepsarvu_settings s = draw_lawful(draw, most_side);
    if (once_in(draw, 5))
        for (uint32_t times = 1 + below(draw, 3); times > 0; times--)
            spoil(draw, &s);
    return s;
}

int is_lawful(const lepsarvu_settings *s)
{
    return plain_settings_refusal(s) == 0;
}

size_t pixels_of(const lepsarvu_settings *s)
{
    size_t pixels = (size_t)s->columns * s->rows;
    return pixels <= LEPSARVU_MOST_PIXELS ? pixels : 7;
}

size_t nodes_of(const lepsarvu_settings *s)
{
    return plain_size_refusal(s) != 0 ? pixels_of(s) : (size_t)plain_total(s);
}

size_t draw_length(struct seeded *draw, size_t right)
{
    switch (below(draw, 24)) {
    case 0:
        return right > 0 ? right - 1 : 0;
    case 1:
        return right + 1;
    case 2:
        return 0;
    case 3:
        return below(draw, (uint32_t)right + 1);
    default:
        return right;
    }
}

uint16_t draw_inside(struct seeded *draw, uint16_t many)
{
    const uint32_t edge[4] = {0, 1, many - 2u, many - 1u};
    uint32_t place = once_in(draw, 3) ? edge[below(draw, 4)] : below(draw, many);
    return (uint16_t)(place < many ? place : 0);
}

uint16_t draw_along(struct seeded *draw, uint16_t many)
{
    const uint32_t outside[5] = {many, many + 1u, 256 + below(draw, many), 65535, many + below(draw, 65536)};
    uint32_t place = once_in(draw, 16) ? outside[below(draw, 5)] : draw_inside(draw, many);
    return (uint16_t)(place < 65536 ? place : 65535);
}

void draw_picture(struct seeded *draw, const lepsarvu_settings *s, uint8_t *picture, size_t length)
{
    uint32_t kind = below(draw, 8), base = below(draw, 256), step = below(draw, 64);
    uint32_t lowest = plain_greys_ok(s) ? s->black : 0, highest = plain_greys_ok(s) ? s->white : WHITEST;
    size_t width = s->columns > 0 ? s->columns : 1, one = below(draw, (uint32_t)length + 1);
    for (size_t at = 0; at < length; at++) {
        size_t row = at / width, column = at % width;
        uint32_t value[8] = {below(draw, 256),
                             once_in(draw, 2) ? 255 : 0,
                             (row + column) % 2 ? 255 : 0,
                             base,
                             at == one ? 255 - base : base,
                             (uint32_t)(row * step + column * (base % 32)),
                             base + below(draw, 4),
                             column % 2 == (base & 1) ? 255 : base / 8};
        picture[at] = (uint8_t)(lowest + (value[kind] & 255) * (highest - lowest) / WHITEST);
    }
}

void draw_pixels(struct seeded *draw, const lepsarvu_settings *s, uint8_t *picture, size_t length)
{
    draw_picture(draw, s, picture, length);
    if (length == 0 || !once_in(draw, 5))
        return;
    const size_t place[3] = {0, length - 1, below(draw, (uint32_t)length)};
    int32_t by = once_in(draw, 4) ? 1 + (int32_t)below(draw, 255) : 1;
    int32_t outside = once_in(draw, 2) ? s->black - by : s->white + by;
    if (outside >= 0 && outside <= WHITEST)
        picture[place[below(draw, 3)]] = (uint8_t)outside;
}

/* One index: the most that the bin allows is `most`. */
static int32_t draw_index(struct seeded *draw, uint32_t kind, int32_t most)
{
    switch (kind) {
    case 0: /* any lawful */
        return (int32_t)below(draw, (uint32_t)(2 * most + 1)) - most;
    case 1: /* extreme */
        return once_in(draw, 2) ? most : -most;
    case 2: /* few and small */
        return once_in(draw, 4) ? (int32_t)below(draw, 5) - 2 : 0;
    case 3: /* mostly lawful, sometimes one outside */
        return once_in(draw, 40) ? most + 1 : once_in(draw, 40) ? -most - 1 : most;
    default: /* any at all */
        return (int32_t)below(draw, 65536) - 32768;
    }
}

void draw_levels(struct seeded *draw, const lepsarvu_settings *s, int16_t *levels, size_t length)
{
    int lawful = is_lawful(s);
    uint32_t kind = lawful ? below(draw, 16) % 5 : 4;
    if (kind == 4 && lawful && once_in(draw, 2))
        kind = 0;
    int64_t level = lawful ? s->depth : 0;
    int64_t left = lawful ? plain_nodes(s, level) : 0;
    for (size_t at = 0; at < length; at++, left--) {
        if (lawful && left == 0 && level > 0) {
            level--;
            left = plain_nodes(s, level);
        }
        levels[at] = (int16_t)draw_index(draw, kind, lawful ? MOST_VALUE / s->bins[level] : 0);
    }
    if (kind < 3 && lawful && length > 0 && once_in(draw, 6))
        levels[below(draw, (uint32_t)length)] = (int16_t)draw_index(draw, 4, 0);
}

/* A lawful number of a kind above 2: one of a byte, one whose lowest byte is a lawful kind, or any. */
static lepsarvu_reading draw_other_kind(struct seeded *draw)
{
    lepsarvu_reading it = draw_lawful_reading(draw);
    switch (below(draw, 3)) {
    case 0:
        it.kind = 3 + below(draw, 253);
        break;
    case 1:
        it.kind |= 1u << (8 + below(draw, 24));
        break;
    default:
        it.kind = (uint32_t)next_number(draw) | 4;
    }
    return it;
}

lepsarvu_reading draw_reading(struct seeded *draw)
{
    static const uint32_t PERCENTAGES[] = {0,          1,          0x40D00000, 0x42C80000, 0x42C80001, 0x80000000,
                                           0x7F800000, 0x7FC00000, 0xFFFFFFFF, 0x42C7FFFF, 0x00800000, 0xC0D00000};
    static const uint32_t CODES[] = {0, 1, 255, 256, 65536, 0xFFFFFFFF};
    switch (below(draw, 12)) {
    case 0:
    case 1:
        return (lepsarvu_reading){0, 0};
    case 2:
        return (lepsarvu_reading){0, once_in(draw, 8) ? 1u << below(draw, 32) : 0};
    case 3:
        return (lepsarvu_reading){1, once_in(draw, 4) ? (uint32_t)next_number(draw) : below(draw, 0x42C80001)};
    case 4:
    case 5:
        return (lepsarvu_reading){1, PERCENTAGES[once_in(draw, 3) ? below(draw, 12) : below(draw, 4)]};
    case 6:
        return (lepsarvu_reading){2, CODES[once_in(draw, 3) ? below(draw, 6) : 1 + below(draw, 2)]};
    case 7:
        return once_in(draw, 3) ? draw_other_kind(draw) : (lepsarvu_reading){2, 1 + below(draw, 255)};
    default:
        return (lepsarvu_reading){2, 1 + below(draw, 255)};
    }
}

lepsarvu_note draw_note(struct seeded *draw)
{
    lepsarvu_note it;
    it.before_drier = draw_reading(draw);
    it.at_press = draw_reading(draw);
    return it;
}
