/* The bale file in plain C, with P5's two forms of the shape section: see plain.h. */
#include "plain.h"

#include <math.h>
#include <string.h>

enum { SHORT_SHAPE = 4, LONG_SHAPE = 6, WHITEST = 255 };

/* A file being read: the part that is left. */
struct rest {
    const uint8_t *bytes;
    size_t length;
};

static int reading_ok(lepsarvu_reading it)
{
    float percentage;
    memcpy(&percentage, &it.number, sizeof percentage);
    if (it.kind == LEPSARVU_NOT_FITTED)
        return it.number == 0;
    if (it.kind == LEPSARVU_PERCENTAGE)
        return !signbit(percentage) && percentage <= 100.0f;
    return it.kind == LEPSARVU_FAULT && it.number != 0 && it.number < 256;
}

static int note_ok(const lepsarvu_note *it)
{
    return reading_ok(it->before_drier) && reading_ok(it->at_press);
}

/* P5: with 0 and 255 the shape section stays at count 4; else its count is 6. */
static int64_t shape_count(const lepsarvu_settings *s)
{
    return s->black == 0 && s->white == WHITEST ? SHORT_SHAPE : LONG_SHAPE;
}

/* 24 + 4(N + 1) + 2T with count 4. */
static size_t size_of(const lepsarvu_settings *s)
{
    int64_t more = shape_count(s) - SHORT_SHAPE;
    return (size_t)(24 + 2 * more + 4 * (s->depth + 1) + 2 * plain_total(s));
}

static uint16_t file_size(const lepsarvu_settings *s, size_t *size)
{
    uint16_t refusal = plain_settings_refusal(s);
    if (refusal == 0)
        *size = size_of(s);
    return refusal;
}

/* Puts the lowest bytes of a number, the lowest first, and answers where the next one goes. */
static uint8_t *put(uint8_t *to, uint32_t number, int bytes)
{
    for (; bytes > 0; bytes--, number >>= 8)
        *to++ = (uint8_t)(number & 255);
    return to;
}

static uint8_t *put_shape(uint8_t *to, const lepsarvu_settings *s)
{
    const uint16_t item[LONG_SHAPE] = {s->columns, s->rows, s->depth, s->kernel, s->black, s->white};
    int64_t count = shape_count(s);
    to = put(to, (uint32_t)count, 2);
    for (int64_t at = 0; at < count; at++)
        to = put(to, item[at], 2);
    return to;
}

static uint8_t *put_bins(uint8_t *to, const lepsarvu_settings *s)
{
    to = put(to, (uint32_t)s->depth + 1, 2);
    for (int level = s->depth; level >= 0; level--)
        to = put(to, s->bins[level], 2);
    return to;
}

static uint8_t *put_note(uint8_t *to, const lepsarvu_note *note)
{
    const lepsarvu_reading reading[2] = {note->before_drier, note->at_press};
    to = put(to, 2, 2);
    for (int at = 0; at < 2; at++) {
        to = put(to, reading[at].kind, 1);
        to = put(to, reading[at].number, 4);
    }
    return to;
}

static uint16_t write_refusal(const lepsarvu_settings *s, const lepsarvu_note *note, const int16_t *levels,
                              size_t levels_length, size_t file_length)
{
    uint16_t refusal = plain_settings_refusal(s);
    if (refusal != 0)
        return refusal;
    if (!note_ok(note))
        return 4;
    if (levels_length != (size_t)plain_total(s))
        return 6;
    if (file_length < size_of(s))
        return 8;
    return plain_values_refusal(s, levels);
}

static uint16_t write_file(const lepsarvu_settings *s, const lepsarvu_note *note, const int16_t *levels,
                           size_t levels_length, uint8_t *file, size_t file_length, size_t *size)
{
    uint16_t refusal = write_refusal(s, note, levels, levels_length, file_length);
    if (refusal != 0)
        return refusal;
    uint8_t *to = put_note(put_bins(put_shape(file, s), s), note);
    for (int level = s->depth; level >= 0; level--) {
        int64_t nodes = plain_nodes(s, level);
        to = put(to, (uint32_t)nodes, 2);
        for (; nodes > 0; nodes--)
            to = put(to, (uint32_t)*levels++, 2);
    }
    *size = (size_t)(to - file);
    return 0;
}

static uint32_t take(struct rest *file, int bytes)
{
    uint32_t number = 0;
    for (int at = 0; at < bytes; at++)
        number |= (uint32_t)file->bytes[at] << (8 * at);
    file->bytes += bytes;
    file->length -= (size_t)bytes;
    return number;
}

/* The start of a section: its count is there, it is one of two, which may be the same, and the items are there. */
static uint16_t open_section(struct rest *file, int64_t first, int64_t second, size_t item_bytes, int64_t *count)
{
    if (file->length < 2)
        return 9;
    *count = take(file, 2);
    if (*count != first && *count != second)
        return 10;
    return file->length < (size_t)*count * item_bytes ? 9 : 0;
}

/* P5: black and white follow k; six items that need only be four are 10, before any is tried. */
static uint16_t read_shape(struct rest *file, lepsarvu_settings *s)
{
    uint16_t item[LONG_SHAPE] = {0, 0, 0, 0, 0, WHITEST};
    int64_t count;
    uint16_t refusal = open_section(file, SHORT_SHAPE, LONG_SHAPE, 2, &count);
    if (refusal != 0)
        return refusal;
    for (int64_t at = 0; at < count; at++)
        item[at] = (uint16_t)take(file, 2);
    *s = (lepsarvu_settings){item[0], item[1], item[2], item[3], item[4], item[5], {0}};
    return count == shape_count(s) ? plain_shape_refusal(s) : 10;
}

static uint16_t read_bins(struct rest *file, lepsarvu_settings *s)
{
    int64_t count = s->depth + 1;
    uint16_t refusal = open_section(file, count, count, 2, &count);
    if (refusal != 0)
        return refusal;
    for (int level = s->depth; level >= 0; level--) {
        s->bins[level] = (uint16_t)take(file, 2);
        if (!plain_bin_ok(s->bins[level]))
            refusal = 3;
    }
    return refusal;
}

static lepsarvu_reading take_reading(struct rest *file)
{
    lepsarvu_reading it;
    it.kind = take(file, 1);
    it.number = take(file, 4);
    return it;
}

static uint16_t read_note(struct rest *file, lepsarvu_note *note)
{
    int64_t count;
    uint16_t refusal = open_section(file, 2, 2, 5, &count);
    if (refusal != 0)
        return refusal;
    note->before_drier = take_reading(file);
    note->at_press = take_reading(file);
    return note_ok(note) ? 0 : 4;
}

/* One level's section; its indices go to the level buffer only if there is one. */
static uint16_t read_level(struct rest *file, int64_t nodes, int64_t bin, int16_t *levels)
{
    uint16_t refusal = open_section(file, nodes, nodes, 2, &nodes);
    for (int64_t at = 0; refusal == 0 && at < nodes; at++) {
        int32_t index = (int32_t)take(file, 2);
        if (index > 32767)
            index -= 65536;
        if (!plain_value_ok(index, bin))
            refusal = 11;
        if (levels)
            levels[at] = (int16_t)index;
    }
    return refusal;
}

/* Reads all; `asked` says whether a level buffer of that length was lent. Fills `levels` even where it refuses. */
static uint16_t read_all(struct rest file, lepsarvu_settings *s, lepsarvu_note *note, int asked, size_t levels_length,
                         int16_t *levels)
{
    uint16_t refusal = read_shape(&file, s);
    if (refusal == 0 && asked && levels_length != (size_t)plain_total(s))
        refusal = 6;
    if (refusal == 0)
        refusal = read_bins(&file, s);
    if (refusal == 0)
        refusal = read_note(&file, note);
    for (int level = s->depth; refusal == 0 && level >= 0; level--) {
        refusal = read_level(&file, plain_nodes(s, level), s->bins[level], levels);
        if (levels)
            levels += plain_nodes(s, level);
    }
    return refusal == 0 && file.length > 0 ? 12 : refusal;
}

static uint16_t read_file(const uint8_t *file, size_t file_length, int16_t *levels, size_t levels_length,
                          lepsarvu_settings *settings, lepsarvu_note *note)
{
    static int16_t indices[LEPSARVU_MOST_NODES];
    lepsarvu_settings s = {0, 0, 0, 0, 0, 0, {0}};
    lepsarvu_note it;
    uint16_t refusal = read_all((struct rest){file, file_length}, &s, &it, 1, levels_length, indices);
    if (refusal == 0) {
        memcpy(levels, indices, levels_length * sizeof *levels);
        *settings = s;
        *note = it;
    }
    return refusal;
}

static uint16_t check_file(const uint8_t *file, size_t file_length, lepsarvu_settings *settings, lepsarvu_note *note)
{
    lepsarvu_settings s = {0, 0, 0, 0, 0, 0, {0}};
    lepsarvu_note it;
    uint16_t refusal = read_all((struct rest){file, file_length}, &s, &it, 0, 0, NULL);
    if (refusal == 0) {
        *settings = s;
        *note = it;
    }
    return refusal;
}

const struct file_calls plain_file = {file_size, write_file, read_file, check_file};
