/* The pyramid in plain C, as fast as straightforward code gets: a pass along the rows into 32-bit sums, a pass down the
 * columns, one rounding by a constant, and edges outside the inner loops. */
#include "plain.h"

/* Added before a division and taken off after it, so that what is divided is never negative. */
enum { LIFT = 1 << 20 };

/* Weights 2k, 5 and 5 - k in twentieths, of the middle, its neighbours together and theirs: one multiplication. */
static inline int32_t weighed(int k, int32_t middle, int32_t neighbours, int32_t outer)
{
    return k * (2 * middle - outer) + 5 * (neighbours + outer);
}

/* The sums of a level's passes: at most 129 rows of 65, or 65 rows of 129. */
typedef int32_t sums[65 * MOST_SIDE];

/* A division of 0 to 16,383 by a bin, as a multiplication. */
struct divisor {
    uint32_t factor, shift;
};

static struct divisor divisor_of(uint32_t bin)
{
    struct divisor it = {0, 14};
    while ((1u << (it.shift - 14)) < bin)
        it.shift++;
    it.factor = ((1u << it.shift) + bin - 1) / bin;
    return it;
}

static inline int32_t rounded(int32_t sum, uint32_t over)
{
    return (int32_t)((uint32_t)(sum + (int32_t)(over / 2 + LIFT * over)) / over) - LIFT;
}

static void reduce_along(const int32_t *restrict from, int columns, int k, int32_t *restrict to)
{
    int last = columns / 2;
    to[0] = weighed(k, from[0], 2 * from[1], 2 * from[2]);
    for (int at = 1; at < last; at++) {
        const int32_t *x = from + 2 * at;
        to[at] = weighed(k, x[0], x[-1] + x[1], x[-2] + x[2]);
    }
    const int32_t *x = from + 2 * last;
    to[last] = weighed(k, x[0], 2 * x[-1], 2 * x[-2]);
}

static void reduce(const int32_t *restrict from, int columns, int rows, int k, int32_t *restrict to)
{
    sums passed;
    int width = columns / 2 + 1, last = rows - 1;
    for (int row = 0; row < rows; row++)
        reduce_along(from + row * columns, columns, k, passed + row * width);
    for (int row = 0; row < rows; row += 2, to += width) {
        const int32_t *x = passed + row * width;
        const int32_t *up = row ? x - width : x + width, *up2 = row ? x - 2 * width : x + 2 * width;
        const int32_t *down = row < last ? x + width : up, *down2 = row < last ? x + 2 * width : up2;
        for (int at = 0; at < width; at++)
            to[at] = rounded(weighed(k, x[at], up[at] + down[at], up2[at] + down2[at]), 400);
    }
}

static void expand_along(const int32_t *restrict from, int width, int k, int32_t *restrict to)
{
    int last = width - 1;
    to[0] = weighed(k, from[0], 0, 2 * from[1]);
    to[1] = 5 * (from[0] + from[1]);
    for (int at = 1; at < last; at++) {
        to[2 * at] = weighed(k, from[at], 0, from[at - 1] + from[at + 1]);
        to[2 * at + 1] = 5 * (from[at] + from[at + 1]);
    }
    to[2 * last] = weighed(k, from[last], 0, 2 * from[last - 1]);
}

static void expand_rows(const int32_t *from, int columns, int rows, int k, int32_t *passed)
{
    int width = columns / 2 + 1, height = rows / 2 + 1;
    for (int row = 0; row < height; row++)
        expand_along(from + row * width, width, k, passed + row * columns);
}

/* One row of the level below, from the sums along the rows. */
static void expand_down(const int32_t *restrict passed, int columns, int rows, int row, int k,
                        int32_t *restrict to)
{
    const int32_t *x = passed + row / 2 * columns, *down = x + columns;
    if (row % 2) {
        for (int at = 0; at < columns; at++)
            to[at] = rounded(5 * (x[at] + down[at]), 100);
        return;
    }
    const int32_t *up = row ? x - columns : down;
    if (row == rows - 1)
        down = up;
    for (int at = 0; at < columns; at++)
        to[at] = rounded(weighed(k, x[at], 0, up[at] + down[at]), 100);
}

/* floor((value + (bin - 1) / 2) / bin): the index of the bin rule, for values within 4,096 either way. */
static void index_row(const int32_t *restrict average, const int32_t *restrict predicted, int length, int bin,
                      int16_t *restrict indices)
{
    struct divisor by = divisor_of((uint32_t)bin);
    int lift = MOST_VALUE / bin + 1, added = (bin - 1) / 2 + lift * bin;
    for (int at = 0; at < length; at++) {
        uint32_t lifted = (uint32_t)(average[at] - predicted[at] + added);
        indices[at] = (int16_t)((int32_t)((lifted * by.factor) >> by.shift) - lift);
    }
}

static void index_level(const int32_t *average, int columns, int rows, int k, int bin, const int32_t *above,
                        int16_t *indices)
{
    sums passed;
    int32_t predicted[MOST_SIDE] = {0};
    if (above)
        expand_rows(above, columns, rows, k, passed);
    for (int row = 0; row < rows; row++) {
        if (above)
            expand_down(passed, columns, rows, row, k, predicted);
        index_row(average + row * columns, predicted, columns, bin, indices + row * columns);
    }
}

/* The same, and what a reader will rebuild of the row, in place of the averages. The value of an index has 16 bits. */
static void index_and_rebuild_row(int32_t *restrict values, const int32_t *restrict predicted, int length,
                                  int16_t bin, int16_t *restrict indices)
{
    struct divisor by = divisor_of((uint32_t)bin);
    int lift = MOST_VALUE / bin + 1, added = (bin - 1) / 2 + lift * bin;
    for (int at = 0; at < length; at++) {
        uint32_t lifted = (uint32_t)(values[at] - predicted[at] + added);
        indices[at] = (int16_t)((int32_t)((lifted * by.factor) >> by.shift) - lift);
        values[at] = predicted[at] + (int16_t)(indices[at] * bin);
    }
}

/* `above` holds the level above as it will be rebuilt. */
static void index_and_rebuild_level(int32_t *values, int columns, int rows, int k, int bin, const int32_t *above,
                                    int16_t *indices)
{
    sums passed;
    int32_t predicted[MOST_SIDE] = {0};
    if (above)
        expand_rows(above, columns, rows, k, passed);
    for (int row = 0; row < rows; row++, values += columns, indices += columns) {
        if (above)
            expand_down(passed, columns, rows, row, k, predicted);
        index_and_rebuild_row(values, predicted, columns, (int16_t)bin, indices);
    }
}

static uint16_t lengths_refusal(const lepsarvu_settings *s, size_t picture_length, size_t levels_length,
                                size_t work_length)
{
    size_t nodes = fast_nodes(s);
    if (picture_length != fast_level_nodes(s, 0))
        return 5;
    if (levels_length != nodes)
        return 6;
    return work_length < nodes ? 7 : 0;
}

/* Of both codings: the settings, the lengths, and last of all the pixels. */
static uint16_t coding_refusal(const lepsarvu_settings *s, const uint8_t *picture, size_t picture_length,
                               size_t levels_length, size_t work_length)
{
    uint16_t refusal = fast_settings_refusal(s);
    if (!refusal)
        refusal = lengths_refusal(s, picture_length, levels_length, work_length);
    if (!refusal && !fast_pixels_ok(s, picture, picture_length))
        refusal = 20;
    return refusal;
}

static int width_of(const lepsarvu_settings *s, unsigned level)
{
    return ((s->columns - 1) >> level) + 1;
}

static int height_of(const lepsarvu_settings *s, unsigned level)
{
    return ((s->rows - 1) >> level) + 1;
}

static void widen(const uint8_t *restrict picture, size_t length, int32_t *restrict values)
{
    for (size_t at = 0; at < length; at++)
        values[at] = picture[at];
}

static uint16_t coding(const lepsarvu_settings *s, const uint8_t *picture, size_t picture_length, int16_t *levels,
                       size_t levels_length, int32_t *work, size_t work_length)
{
    uint16_t refusal = coding_refusal(s, picture, picture_length, levels_length, work_length);
    if (refusal)
        return refusal;
    size_t at = levels_length - picture_length;
    widen(picture, picture_length, work + at);
    for (unsigned level = 0; level <= s->depth; level++) {
        int width = width_of(s, level), height = height_of(s, level);
        size_t up = level < s->depth ? at - fast_level_nodes(s, level + 1) : 0;
        if (level < s->depth)
            reduce(work + at, width, height, s->kernel, work + up);
        index_level(work + at, width, height, s->kernel, s->bins[level], level < s->depth ? work + up : NULL,
                    levels + at);
        at = up;
    }
    return 0;
}

/* The averages of all levels, the picture's last. */
static void average_levels(const lepsarvu_settings *s, const uint8_t *picture, int32_t *work)
{
    size_t pixels = fast_level_nodes(s, 0), at = fast_nodes(s) - pixels;
    widen(picture, pixels, work + at);
    for (unsigned level = 0; level < s->depth; level++) {
        size_t up = at - fast_level_nodes(s, level + 1);
        reduce(work + at, width_of(s, level), height_of(s, level), s->kernel, work + up);
        at = up;
    }
}

static uint16_t closed_loop_coding(const lepsarvu_settings *s, const uint8_t *picture, size_t picture_length,
                                   int16_t *levels, size_t levels_length, int32_t *work, size_t work_length)
{
    uint16_t refusal = coding_refusal(s, picture, picture_length, levels_length, work_length);
    if (refusal)
        return refusal;
    average_levels(s, picture, work);
    size_t at = 0;
    const int32_t *above = NULL;
    for (unsigned level = s->depth + 1u; level-- > 0;) {
        index_and_rebuild_level(work + at, width_of(s, level), height_of(s, level), s->kernel, s->bins[level], above,
                                levels + at);
        above = work + at;
        at += fast_level_nodes(s, level);
    }
    return 0;
}

static void rebuild_level(const int16_t *indices, int columns, int rows, int k, int bin, const int32_t *above,
                          int32_t *values)
{
    sums passed;
    expand_rows(above, columns, rows, k, passed);
    for (int row = 0; row < rows; row++, values += columns, indices += columns) {
        expand_down(passed, columns, rows, row, k, values);
        for (int at = 0; at < columns; at++)
            values[at] += indices[at] * bin;
    }
}

/* To bytes first, by constants; the smaller and the larger of two bytes are then single instructions. */
static void clamp(const int32_t *restrict values, size_t length, uint8_t black, uint8_t white,
                  uint8_t *restrict picture)
{
    for (size_t at = 0; at < length; at++) {
        int32_t value = values[at] < 0 ? 0 : values[at];
        picture[at] = (uint8_t)(value > 255 ? 255 : value);
    }
    for (size_t at = 0; at < length; at++) {
        uint8_t pixel = picture[at] < black ? black : picture[at];
        picture[at] = pixel > white ? white : pixel;
    }
}

static uint16_t rebuilding(const lepsarvu_settings *s, const int16_t *levels, size_t levels_length, uint8_t *picture,
                           size_t picture_length, int32_t *work, size_t work_length)
{
    uint16_t refusal = fast_settings_refusal(s);
    if (!refusal)
        refusal = lengths_refusal(s, picture_length, levels_length, work_length);
    if (refusal)
        return refusal;
    if (!fast_values_ok(s, levels))
        return 11;
    size_t at = 0, next = fast_level_nodes(s, s->depth);
    int top_bin = s->bins[s->depth];
    for (size_t node = 0; node < next; node++)
        work[node] = levels[node] * top_bin;
    for (unsigned level = s->depth; level-- > 0;) {
        rebuild_level(levels + next, width_of(s, level), height_of(s, level), s->kernel, s->bins[level], work + at,
                      work + next);
        at = next;
        next += fast_level_nodes(s, level);
    }
    clamp(work + at, picture_length, (uint8_t)s->black, (uint8_t)s->white, picture);
    return 0;
}

/* The other calls are not timed. */
const struct pyramid_calls fast_pyramid = {
    coding, closed_loop_coding, rebuilding, fast_rebuild_pixel, NULL, NULL, NULL, NULL,
};
