/* Whole and damaged files: see draw.h. */
#include <string.h>

#include "draw.h"

enum { SHORT_SHAPE = 4, LONG_SHAPE = 6, FIRST_BYTES = 48 };

lepsarvu_reading draw_lawful_reading(struct seeded *draw)
{
    switch (below(draw, 3)) {
    case 0:
        return (lepsarvu_reading){0, 0};
    case 1:
        return (lepsarvu_reading){1, below(draw, 0x42C80001)};
    default:
        return (lepsarvu_reading){2, 1 + below(draw, 255)};
    }
}

lepsarvu_note draw_lawful_note(struct seeded *draw)
{
    lepsarvu_note it;
    it.before_drier = draw_lawful_reading(draw);
    it.at_press = draw_lawful_reading(draw);
    return it;
}

static size_t draw_whole(struct seeded *draw, uint32_t most_side, uint8_t *file)
{
    static int16_t levels[LEPSARVU_MOST_NODES];
    lepsarvu_settings s = draw_lawful(draw, most_side);
    lepsarvu_note note;
    size_t nodes = nodes_of(&s), size = 0;
    do {
        note = draw_lawful_note(draw);
        draw_levels(draw, &s, levels, nodes);
    } while (plain_file.write_file(&s, &note, levels, nodes, file, LEPSARVU_MOST_FILE_BYTES, &size) != 0);
    return size;
}

/* A place of the file, of its first sections as often as of all. */
static size_t draw_place(struct seeded *draw, size_t length)
{
    uint32_t limit = length > FIRST_BYTES && once_in(draw, 2) ? FIRST_BYTES : (uint32_t)length;
    return below(draw, limit);
}

static void change_byte(struct seeded *draw, uint8_t *byte)
{
    static const uint8_t VALUES[] = {0, 1, 2, 127, 128, 255};
    switch (below(draw, 4)) {
    case 0:
        *byte = (uint8_t)(*byte + 1);
        break;
    case 1:
        *byte = (uint8_t)(*byte - 1);
        break;
    case 2:
        *byte = VALUES[below(draw, 6)];
        break;
    default:
        *byte = (uint8_t)below(draw, 256);
    }
}

/* Takes bytes out, or puts one in, at a place. */
static size_t shift_bytes(struct seeded *draw, uint8_t *file, size_t length)
{
    size_t place = draw_place(draw, length);
    if (once_in(draw, 2)) {
        memmove(file + place, file + place + 1, length - place - 1);
        return length - 1;
    }
    memmove(file + place + 1, file + place, length - place);
    file[place] = (uint8_t)below(draw, 256);
    return length + 1;
}

static size_t append_bytes(struct seeded *draw, uint8_t *file, size_t length)
{
    for (uint32_t more = 1 + below(draw, 4); more > 0; more--)
        file[length++] = (uint8_t)(once_in(draw, 2) ? below(draw, 256) : 0);
    return length;
}

size_t draw_damage(struct seeded *draw, uint8_t *file, size_t length)
{
    switch (below(draw, 8)) {
    case 0: /* cut */
        return once_in(draw, 4) ? length - 1 - below(draw, 3) : draw_place(draw, length);
    case 1:
    case 2:
    case 3: /* bytes changed, then perhaps cut or longer */
        for (uint32_t times = 1 + below(draw, 3); times > 0; times--)
            change_byte(draw, &file[draw_place(draw, length)]);
        if (once_in(draw, 8))
            return draw_place(draw, length);
        return once_in(draw, 8) ? append_bytes(draw, file, length) : length;
    case 4:
        return shift_bytes(draw, file, length);
    case 5:
        return append_bytes(draw, file, length);
    default:
        return length;
    }
}

size_t draw_file(struct seeded *draw, uint32_t most_side, uint8_t file[MOST_DRAWN_FILE])
{
    return draw_damage(draw, file, draw_whole(draw, most_side, file));
}

/* A shape section with these settings' items; answers its length. */
static size_t put_shape(uint8_t *to, const lepsarvu_settings *s, uint16_t count)
{
    const uint16_t number[1 + LONG_SHAPE] = {count, s->columns, s->rows, s->depth, s->kernel, s->black, s->white};
    for (int at = 0; at <= count; at++) {
        to[2 * at] = (uint8_t)(number[at] & 255);
        to[2 * at + 1] = (uint8_t)(number[at] >> 8);
    }
    return 2 + 2 * (size_t)count;
}

size_t draw_file_of_shape(struct seeded *draw, uint32_t most_side, const lepsarvu_settings *s,
                          uint8_t file[MOST_DRAWN_FILE])
{
    static uint8_t other[MOST_DRAWN_FILE];
    int is_short = s->black == 0 && s->white == 255 && !once_in(draw, 4);
    size_t length = draw_file(draw, most_side, other), shape = put_shape(file, s, is_short ? SHORT_SHAPE : LONG_SHAPE);
    size_t others = length > 0 && other[0] == LONG_SHAPE ? 2 + 2 * LONG_SHAPE : 2 + 2 * SHORT_SHAPE;
    if (length <= others || once_in(draw, 4))
        return shape;
    memcpy(file + shape, other + others, length - others);
    return shape + length - others;
}

size_t shape_nodes(const uint8_t *file, size_t length)
{
    uint16_t item[SHORT_SHAPE] = {0, 0, 0, 0};
    for (int at = 0; length >= 2 + 2 * SHORT_SHAPE && at < SHORT_SHAPE; at++)
        item[at] = (uint16_t)(file[2 + 2 * at] | file[3 + 2 * at] << 8);
    return nodes_of(&(lepsarvu_settings){item[0], item[1], item[2], item[3], 0, 0, {0}});
}
