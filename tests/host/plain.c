/* Coding and rebuilding in plain C, written from document 01, P5 of document 02 and Burt and Adelson (1983) alone.
 * Nothing here is made fast: every rule is written the way the papers print it. Closed-loop coding and its bounds are
 * in plain_closed.c, one pixel is in plain_pixel.c, what follows from settings alone in plain_settings.c. */
#include "plain_steps.h"

enum { SHARE = 400 };

/* Slot l for level l: the averages g (coding) or the unclamped values r (rebuilding). */
static struct plain_level pyramid[SLOTS];

/* Refusal 11's condition, turned round: index times bin is within -4,096 to 4,096. */
int plain_value_ok(int64_t index, int64_t bin)
{
    return index * bin >= -MOST_VALUE && index * bin <= MOST_VALUE;
}

/* The settings' refusals, then 5 (picture not C x R), 6 (level buffer not T) and 7 (work buffer below T). */
static uint16_t buffers_refusal(const lepsarvu_settings *s, size_t picture_length, size_t levels_length,
                                size_t work_length)
{
    uint16_t refusal = plain_settings_refusal(s);
    if (refusal != 0)
        return refusal;
    if (picture_length != (size_t)s->columns * s->rows)
        return 5;
    if (levels_length != (size_t)plain_total(s))
        return 6;
    return work_length < (size_t)plain_total(s) ? 7 : 0;
}

/* Those, then P5's 20 (a pixel lies outside black and white), last of all in both coders. */
uint16_t plain_coding_refusal(const lepsarvu_settings *s, const uint8_t *picture, size_t picture_length,
                              size_t levels_length, size_t work_length)
{
    uint16_t refusal = buffers_refusal(s, picture_length, levels_length, work_length);
    for (size_t at = 0; refusal == 0 && at < picture_length; at++)
        if (picture[at] < s->black || picture[at] > s->white)
            refusal = 20;
    return refusal;
}

/* The paper's weights with a = k/10, that is a, 1/4 and 1/4 - a/2, in twentieths: 2k, 5 and 5 - k. */
static int64_t weight(int64_t kernel, int64_t distance)
{
    if (distance == 0)
        return 2 * kernel;
    if (distance == 1 || distance == -1)
        return 5;
    return 5 - kernel;
}

/* Edge: -1 is 1, -2 is 2; past the last place z, z + 1 is z - 1 and z + 2 is z - 2. */
static int64_t reflected(int64_t place, int64_t side)
{
    int64_t last = side - 1;
    if (place < 0)
        return -place;
    if (place > last)
        return last - (place - last);
    return place;
}

/* A level's value at a column and a row that may lie up to two places beyond its edge. */
static int64_t value_at(const struct plain_level *level, int64_t column, int64_t row)
{
    return level->at[reflected(row, level->rows)][reflected(column, level->columns)];
}

/* Rounding: the largest whole number not above S/D + 1/2, which is (2S + D) / 2D; D is positive. */
static int64_t rounded(int64_t sum, int64_t divisor)
{
    int64_t upper = 2 * sum + divisor;
    int64_t lower = 2 * divisor;
    int64_t whole = upper / lower;
    if (whole * lower > upper) /* C cuts toward zero, so a negative quotient may lie above */
        whole--;
    return whole;
}

/* REDUCE at one node: 25 products of two weights and the value at (2i + m, 2j + n), over 400. */
static int64_t reduce_node(const struct plain_level *below, int64_t kernel, int64_t i, int64_t j)
{
    int64_t sum = 0;
    for (int64_t m = -2; m <= 2; m++)
        for (int64_t n = -2; n <= 2; n++)
            sum += weight(kernel, m) * weight(kernel, n) * value_at(below, 2 * i + m, 2 * j + n);
    return rounded(sum, SHARE);
}

/* EXPAND at one node: four times the products with the value at ((i - m)/2, (j - n)/2), both whole, over 400. */
static int64_t expand_node(const struct plain_level *above, int64_t kernel, int64_t i, int64_t j)
{
    int64_t sum = 0;
    for (int64_t m = -2; m <= 2; m++)
        for (int64_t n = -2; n <= 2; n++)
            if ((i - m) % 2 == 0 && (j - n) % 2 == 0)
                sum += weight(kernel, m) * weight(kernel, n) * value_at(above, (i - m) / 2, (j - n) / 2);
    return rounded(4 * sum, SHARE);
}

/* What coding takes from a node and rebuilding adds to it: EXPAND of the next level up; 0 at the top. */
int64_t plain_predicted(const struct plain_level *of, const lepsarvu_settings *s, int64_t level, int64_t i, int64_t j)
{
    return level == s->depth ? 0 : expand_node(&of[level + 1], s->kernel, i, j);
}

/* Settings: the columns and rows of every level. */
void plain_size_levels(struct plain_level *of, const lepsarvu_settings *s)
{
    for (int64_t level = 0; level <= s->depth; level++) {
        of[level].columns = plain_side(s->columns, level);
        of[level].rows = plain_side(s->rows, level);
    }
}

/* Coding: g0 is the picture, each next g is REDUCE of the last. */
void plain_average_levels(struct plain_level *of, const lepsarvu_settings *s, const uint8_t *picture)
{
    for (int64_t j = 0; j < of[0].rows; j++)
        for (int64_t i = 0; i < of[0].columns; i++)
            of[0].at[j][i] = picture[j * of[0].columns + i];
    for (int64_t level = 1; level <= s->depth; level++)
        for (int64_t j = 0; j < of[level].rows; j++)
            for (int64_t i = 0; i < of[level].columns; i++)
                of[level].at[j][i] = reduce_node(&of[level - 1], s->kernel, i, j);
}

/* Bin rule: the only whole number m with (2m - 1)n < 2L <= (2m + 1)n. */
int64_t plain_index_of(int64_t value, int64_t bin)
{
    int64_t m = 0;
    while (2 * value > (2 * m + 1) * bin)
        m++;
    while (2 * value <= (2 * m - 1) * bin)
        m--;
    return m;
}

/* Coding: L is g less EXPAND of the next g up, at the top g itself; each L becomes its index. Buffers: level N first,
 * level 0 last, row after row; work gets g. */
static uint16_t coding(const lepsarvu_settings *s, const uint8_t *picture, size_t picture_length, int16_t *levels,
                       size_t levels_length, int32_t *work, size_t work_length)
{
    uint16_t refusal = plain_coding_refusal(s, picture, picture_length, levels_length, work_length);
    if (refusal != 0)
        return refusal;
    plain_size_levels(pyramid, s);
    plain_average_levels(pyramid, s, picture);
    int64_t place = 0;
    for (int64_t level = s->depth; level >= 0; level--)
        for (int64_t j = 0; j < pyramid[level].rows; j++)
            for (int64_t i = 0; i < pyramid[level].columns; i++) {
                int64_t difference = pyramid[level].at[j][i] - plain_predicted(pyramid, s, level, i, j);
                levels[place] = (int16_t)plain_index_of(difference, s->bins[level]);
                work[place] = (int32_t)pyramid[level].at[j][i];
                place++;
            }
    return 0;
}

/* Refusal 11: an index of some level times that level's bin is outside -4,096 to 4,096. */
uint16_t plain_values_refusal(const lepsarvu_settings *s, const int16_t *levels)
{
    for (int64_t level = s->depth; level >= 0; level--)
        for (int64_t left = plain_nodes(s, level); left > 0; left--)
            if (!plain_value_ok(*levels++, s->bins[level]))
                return 11;
    return 0;
}

/* Rebuilding: only the final picture is clamped, to black and white. */
static uint8_t clamped(const lepsarvu_settings *s, int64_t value)
{
    return (uint8_t)(value < s->black ? s->black : value > s->white ? s->white : value);
}

/* Rebuilding: r of level N is the top's values; below it r is the level's values plus EXPAND of the next r up. Work
 * gets the unclamped r, level N first; the picture gets r of level 0, clamped. */
static uint16_t rebuilding(const lepsarvu_settings *s, const int16_t *levels, size_t levels_length, uint8_t *picture,
                           size_t picture_length, int32_t *work, size_t work_length)
{
    uint16_t refusal = buffers_refusal(s, picture_length, levels_length, work_length);
    if (refusal == 0)
        refusal = plain_values_refusal(s, levels);
    if (refusal != 0)
        return refusal;
    plain_size_levels(pyramid, s);
    int64_t place = 0;
    for (int64_t level = s->depth; level >= 0; level--)
        for (int64_t j = 0; j < pyramid[level].rows; j++)
            for (int64_t i = 0; i < pyramid[level].columns; i++) {
                int64_t value = (int64_t)levels[place] * s->bins[level];
                pyramid[level].at[j][i] = value + plain_predicted(pyramid, s, level, i, j);
                work[place] = (int32_t)pyramid[level].at[j][i];
                place++;
            }
    for (int64_t j = 0; j < s->rows; j++)
        for (int64_t i = 0; i < s->columns; i++)
            picture[j * s->columns + i] = clamped(s, pyramid[0].at[j][i]);
    return 0;
}

const struct pyramid_calls plain_pyramid = {
    coding,
    plain_closed_loop_coding,
    rebuilding,
    plain_rebuild_pixel,
    plain_level_bounds,
    plain_closed_loop_bounds,
    plain_deepest_depth,
    plain_total_nodes,
};
