/* One pixel in plain C: of each level a square of 4 by 4 places round the pixel, without a branch for edges or for odd
 * and even places. The first place is one before the node at the pixel or before it, so a place of a square can lie one
 * beyond an edge; it has the index of the place that is reflected to, and its sums come out right of themselves. Where
 * a window has less than 4 columns or rows the last places have no use: they repeat its last. */
#include "plain.h"

enum { SIDE = 4, LIFT = 1 << 20 };

/* Of one axis of a level: where the indices of the four places are, the nodes of the window, and whether the first
 * place is even. */
struct window {
    int at[SIDE], nodes, even;
};

static inline int place(int at, int end, int last)
{
    at = at < end ? at : end;
    return at > last ? last - 1 : at;
}

/* Going up, a to b becomes (a - 1) >> 1 to (b + 2) >> 1: so a + 1 and b - 2 are halved, rounded down. */
static inline struct window window_of(int pixel, int last_pixel, int level)
{
    int first = ((pixel + 1) >> level) - 1, end = (pixel + (2 << level) - 2) >> level, last = last_pixel >> level;
    return (struct window){
        .at = {first < 0 ? 1 : first, first + 1, place(first + 2, end, last), place(first + 3, end, last)},
        .nodes = (end > last ? last : end) - (first < 0 ? 0 : first) + 1,
        .even = ((pixel + 1) >> level) & 1,
    };
}

static inline int32_t rounded(int32_t sum)
{
    return (int32_t)((uint32_t)(sum + 50 + LIFT * 100) / 100) - LIFT;
}

/* Four values become the sums at four places of the level below, an even or an odd one first. */
static inline void expand_line(int32_t *line, int step, int even, int k)
{
    int32_t a = line[0], b = line[step], c = line[2 * step], d = line[3 * step];
    int32_t ab = 5 * (a + b), abc = 2 * k * b + (5 - k) * (a + c), bc = 5 * (b + c);
    int32_t bcd = 2 * k * c + (5 - k) * (b + d), cd = 5 * (c + d);
    line[0] = even ? abc : ab;
    line[step] = even ? bc : abc;
    line[2 * step] = even ? bcd : bc;
    line[3 * step] = even ? cd : bcd;
}

static inline void expand_square(int32_t values[SIDE][SIDE], int even_column, int even_row, int k)
{
    for (int column = 0; column < SIDE; column++)
        expand_line(&values[0][column], SIDE, even_row, k);
    for (int row = 0; row < SIDE; row++) {
        expand_line(values[row], 1, even_column, k);
        for (int column = 0; column < SIDE; column++)
            values[row][column] = rounded(values[row][column]);
    }
}

/* Answers whether all indices that it read are lawful. */
static inline int add_indices(int32_t values[SIDE][SIDE], const int16_t *indices, int width,
                              const struct window *across, const struct window *down, int bin)
{
    int unlawful = 0;
    for (int row = 0; row < SIDE; row++) {
        const int16_t *from = indices + down->at[row] * width;
        for (int column = 0; column < SIDE; column++) {
            int value = from[across->at[column]] * bin;
            unlawful |= (unsigned)(value + MOST_VALUE) > 2 * MOST_VALUE;
            values[row][column] += value;
        }
    }
    return !unlawful;
}

/* EXPAND at the pixel: the square of level 1 has its sum at the first place. */
static inline int32_t expand_pixel(int32_t values[SIDE][SIDE], int even_column, int even_row, int k)
{
    for (int column = 0; column < 3; column++)
        expand_line(&values[0][column], SIDE, even_row, k);
    expand_line(values[0], 1, even_column, k);
    return rounded(values[0][0]);
}

uint16_t fast_rebuild_pixel(const lepsarvu_settings *s, const int16_t *levels, size_t levels_length, uint16_t column,
                            uint16_t row, uint8_t *pixel, uint16_t *read)
{
    uint16_t refusal = fast_settings_refusal(s);
    if (refusal)
        return refusal;
    if (levels_length != fast_nodes(s))
        return 6;
    if (column >= s->columns || row >= s->rows)
        return 21;
    int last_column = s->columns - 1, last_row = s->rows - 1, k = s->kernel, nodes = 1;
    int32_t values[SIDE][SIDE] = {{0}};
    for (int level = s->depth; level > 0; level--) {
        struct window across = window_of(column, last_column, level), down = window_of(row, last_row, level);
        int width = (last_column >> level) + 1, height = (last_row >> level) + 1;
        if (level < s->depth)
            expand_square(values, across.even, down.even, k);
        if (!add_indices(values, levels, width, &across, &down, s->bins[level]))
            return 11;
        nodes += across.nodes * down.nodes;
        levels += width * height;
    }
    int value = levels[row * s->columns + column] * s->bins[0];
    if (value < -MOST_VALUE || value > MOST_VALUE)
        return 11;
    if (s->depth > 0)
        value += expand_pixel(values, !(column & 1), !(row & 1), k);
    value = value < s->black ? s->black : value;
    *pixel = (uint8_t)(value > s->white ? s->white : value);
    *read = (uint16_t)nodes;
    return 0;
}
