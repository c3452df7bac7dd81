/* The bale file in plain C: see plain.h. */
#include "plain.h"

enum { FAULTS = 255, SHAPE_ITEMS = 4, LONG_SHAPE_ITEMS = 6 };
static const uint32_t HUNDRED_PERCENT = 0x42C80000; /* floats with a clear sign bit are ordered as their bits are */

/* The shape section says black and white where they are not 0 and 255. */
static unsigned shape_items(const lepsarvu_settings *s)
{
    return s->black == 0 && s->white == 255 ? SHAPE_ITEMS : LONG_SHAPE_ITEMS;
}

static size_t size_of(const lepsarvu_settings *s)
{
    return 16 + 2 * (size_t)shape_items(s) + 4 * ((size_t)s->depth + 1) + 2 * fast_nodes(s);
}

static int reading_ok(lepsarvu_reading it)
{
    switch (it.kind) {
    case LEPSARVU_NOT_FITTED:
        return it.number == 0;
    case LEPSARVU_PERCENTAGE:
        return it.number <= HUNDRED_PERCENT;
    case LEPSARVU_FAULT:
        return it.number >= 1 && it.number <= FAULTS;
    default:
        return 0;
    }
}

static int note_ok(const lepsarvu_note *it)
{
    return reading_ok(it->before_drier) && reading_ok(it->at_press);
}

static uint16_t file_size(const lepsarvu_settings *s, size_t *size)
{
    uint16_t refusal = fast_settings_refusal(s);
    if (!refusal)
        *size = size_of(s);
    return refusal;
}

static uint8_t *put2(uint8_t *to, unsigned number)
{
    to[0] = (uint8_t)number;
    to[1] = (uint8_t)(number >> 8);
    return to + 2;
}

static uint8_t *put_reading(uint8_t *to, lepsarvu_reading it)
{
    *to = (uint8_t)it.kind;
    return put2(put2(to + 1, it.number), it.number >> 16);
}

/* The sections before those of the levels. */
static uint8_t *put_settings_and_note(uint8_t *to, const lepsarvu_settings *s, const lepsarvu_note *note)
{
    unsigned items = shape_items(s);
    to = put2(put2(put2(put2(put2(to, items), s->columns), s->rows), s->depth), s->kernel);
    if (items == LONG_SHAPE_ITEMS)
        to = put2(put2(to, s->black), s->white);
    to = put2(to, s->depth + 1u);
    for (unsigned level = s->depth + 1u; level-- > 0;)
        to = put2(to, s->bins[level]);
    return put_reading(put_reading(put2(to, 2), note->before_drier), note->at_press);
}

static uint16_t write_file(const lepsarvu_settings *s, const lepsarvu_note *note, const int16_t *restrict levels,
                           size_t levels_length, uint8_t *restrict file, size_t file_length, size_t *size)
{
    uint16_t refusal = fast_settings_refusal(s);
    if (refusal)
        return refusal;
    if (!note_ok(note))
        return 4;
    if (levels_length != fast_nodes(s))
        return 6;
    if (file_length < size_of(s))
        return 8;
    if (!fast_values_ok(s, levels))
        return 11;
    uint8_t *to = put_settings_and_note(file, s, note);
    for (unsigned level = s->depth + 1u; level-- > 0;) {
        size_t nodes = fast_level_nodes(s, level);
        to = put2(to, (unsigned)nodes);
        for (size_t at = 0; at < nodes; at++)
            put2(to + 2 * at, (uint16_t)levels[at]);
        to += 2 * nodes;
        levels += nodes;
    }
    *size = (size_t)(to - file);
    return 0;
}

static unsigned get2(const uint8_t *from)
{
    return from[0] | (unsigned)from[1] << 8;
}

/* What a file says before its levels, and where the part that is not looked at yet begins and ends. */
struct bale {
    lepsarvu_settings settings;
    lepsarvu_note note;
    const uint8_t *from, *end;
};

/* A section's count is there and right, and its items are there. */
static uint16_t section_refusal(const struct bale *it, size_t count, size_t item_bytes)
{
    size_t left = (size_t)(it->end - it->from);
    if (left < 2)
        return 9;
    if (get2(it->from) != count)
        return 10;
    return left - 2 < count * item_bytes ? 9 : 0;
}

/* A count of six is right where its items do not say what four say too. */
static uint16_t take_shape(struct bale *it)
{
    lepsarvu_settings *s = &it->settings;
    const uint8_t *from = it->from;
    int is_long = it->end - from >= 2 && get2(from) == LONG_SHAPE_ITEMS;
    unsigned items = is_long ? LONG_SHAPE_ITEMS : SHAPE_ITEMS;
    uint16_t refusal = section_refusal(it, items, 2);
    if (refusal)
        return refusal;
    s->columns = (uint16_t)get2(from + 2);
    s->rows = (uint16_t)get2(from + 4);
    s->depth = (uint16_t)get2(from + 6);
    s->kernel = (uint16_t)get2(from + 8);
    s->black = is_long ? (uint16_t)get2(from + 10) : 0;
    s->white = is_long ? (uint16_t)get2(from + 12) : 255;
    if (items != shape_items(s))
        return 10;
    it->from += 2 + 2 * items;
    return fast_shape_refusal(s);
}

static uint16_t take_bins(struct bale *it)
{
    unsigned count = it->settings.depth + 1u;
    uint16_t refusal = section_refusal(it, count, 2);
    if (refusal)
        return refusal;
    it->from += 2;
    for (unsigned level = count; level-- > 0; it->from += 2) {
        unsigned bin = get2(it->from);
        if (bin < 1 || bin > 255)
            return 3;
        it->settings.bins[level] = (uint16_t)bin;
    }
    return 0;
}

static lepsarvu_reading reading_at(const uint8_t *from)
{
    return (lepsarvu_reading){.kind = from[0], .number = get2(from + 1) | (uint32_t)get2(from + 3) << 16};
}

static uint16_t take_note(struct bale *it)
{
    uint16_t refusal = section_refusal(it, 2, 5);
    if (refusal)
        return refusal;
    it->note = (lepsarvu_note){.before_drier = reading_at(it->from + 2), .at_press = reading_at(it->from + 7)};
    it->from += 12;
    return note_ok(&it->note) ? 0 : 4;
}

static int items_ok(const uint8_t *from, size_t nodes, int bin)
{
    int16_t smallest = 0, largest = 0;
    for (size_t at = 0; at < nodes; at++) {
        int16_t index = (int16_t)get2(from + 2 * at);
        smallest = index < smallest ? index : smallest;
        largest = index > largest ? index : largest;
    }
    return smallest * bin >= -MOST_VALUE && largest * bin <= MOST_VALUE;
}

/* Looks at all levels; the copy of `it` goes on to the end of the file. */
static uint16_t levels_refusal(struct bale it)
{
    for (unsigned level = it.settings.depth + 1u; level-- > 0;) {
        size_t nodes = fast_level_nodes(&it.settings, level);
        uint16_t refusal = section_refusal(&it, nodes, 2);
        if (refusal)
            return refusal;
        if (!items_ok(it.from + 2, nodes, it.settings.bins[level]))
            return 11;
        it.from += 2 + 2 * nodes;
    }
    return it.from == it.end ? 0 : 12;
}

static void take_level(const uint8_t *restrict from, size_t nodes, int16_t *restrict indices)
{
    for (size_t at = 0; at < nodes; at++)
        indices[at] = (int16_t)get2(from + 2 * at);
}

/* Leaves all before the levels in `it`; a length of a level buffer is looked at where one is lent. */
static uint16_t read_refusal(const uint8_t *file, size_t length, const size_t *levels_length, struct bale *it)
{
    *it = (struct bale){.from = file, .end = file + length};
    uint16_t refusal = take_shape(it);
    if (!refusal && levels_length && *levels_length != fast_nodes(&it->settings))
        refusal = 6;
    if (!refusal)
        refusal = take_bins(it);
    if (!refusal)
        refusal = take_note(it);
    return refusal ? refusal : levels_refusal(*it);
}

static uint16_t read_file(const uint8_t *file, size_t file_length, int16_t *levels, size_t levels_length,
                          lepsarvu_settings *settings, lepsarvu_note *note)
{
    struct bale it;
    uint16_t refusal = read_refusal(file, file_length, &levels_length, &it);
    if (refusal)
        return refusal;
    for (unsigned level = it.settings.depth + 1u; level-- > 0;) {
        size_t nodes = fast_level_nodes(&it.settings, level);
        take_level(it.from + 2, nodes, levels);
        it.from += 2 + 2 * nodes;
        levels += nodes;
    }
    *settings = it.settings;
    *note = it.note;
    return 0;
}

static uint16_t check_file(const uint8_t *file, size_t file_length, lepsarvu_settings *settings, lepsarvu_note *note)
{
    struct bale it;
    uint16_t refusal = read_refusal(file, file_length, NULL, &it);
    if (!refusal) {
        *settings = it.settings;
        *note = it.note;
    }
    return refusal;
}

const struct file_calls fast_file = {file_size, write_file, read_file, check_file};
