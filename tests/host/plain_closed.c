/* Closed-loop coding and its bounds in plain C, written from P4 and P5 of document 02 alone, with the steps of
 * plain.c. */
#include "plain_steps.h"

/* The averages g of the picture, and the unclamped values r that a reader will rebuild. */
static struct plain_level averages[SLOTS], rebuilt[SLOTS];

/* P4: each lower level codes its average less EXPAND of the already rebuilt level above, where nothing is expected of
 * the top. What becomes of it is the index's value and the same EXPAND. */
static int64_t code_node(const lepsarvu_settings *s, int64_t level, int64_t i, int64_t j)
{
    int64_t expected = plain_predicted(rebuilt, s, level, i, j);
    int64_t index = plain_index_of(averages[level].at[j][i] - expected, s->bins[level]);
    rebuilt[level].at[j][i] = index * s->bins[level] + expected;
    return index;
}

/* P4: the refusals and the buffers of the open coder, but that work gets r, level N first. */
uint16_t plain_closed_loop_coding(const lepsarvu_settings *s, const uint8_t *picture, size_t picture_length,
                                  int16_t *levels, size_t levels_length, int32_t *work, size_t work_length)
{
    uint16_t refusal = plain_coding_refusal(s, picture, picture_length, levels_length, work_length);
    if (refusal != 0)
        return refusal;
    plain_size_levels(averages, s);
    plain_size_levels(rebuilt, s);
    plain_average_levels(averages, s, picture);
    int64_t place = 0;
    for (int64_t level = s->depth; level >= 0; level--)
        for (int64_t j = 0; j < rebuilt[level].rows; j++)
            for (int64_t i = 0; i < rebuilt[level].columns; i++) {
                levels[place] = (int16_t)code_node(s, level, i, j);
                work[place] = (int32_t)rebuilt[level].at[j][i];
                place++;
            }
    return 0;
}

/* P4: each rebuilt level is within half its own bin, rounded down, of its average, at all four kernels. */
uint16_t plain_closed_loop_bounds(const lepsarvu_settings *s, uint16_t bounds[7])
{
    uint16_t refusal = plain_settings_refusal(s);
    if (refusal != 0)
        return refusal;
    for (int64_t level = 0; level < SLOTS; level++)
        bounds[level] = level <= s->depth ? s->bins[level] / 2 : 0;
    return 0;
}
