/* One pixel in plain C, written from P6 of document 02 alone, with the full rebuilding of plain.c: the indices outside
 * the windows are taken as 0, and the picture that is rebuilt then is looked at. */
#include "plain_steps.h"

/* A range of columns or of rows, both ends in it. */
struct range {
    int64_t first, last;
};

/* Half of a number, rounded down; C cuts toward zero, so an odd number below 0 is made even first. */
static int64_t half_down(int64_t number)
{
    return (number < 0 && number % 2 != 0 ? number - 1 : number) / 2;
}

static int64_t half_up(int64_t number)
{
    return half_down(number + 1);
}

/* P6: a range from a to b becomes (a - 2)/2 rounded up to (b + 2)/2 rounded down, kept inside the level. */
static struct range range_above(struct range of, int64_t side)
{
    struct range it = {half_up(of.first - 2), half_down(of.last + 2)};
    if (it.first < 0)
        it.first = 0;
    if (it.last > side - 1)
        it.last = side - 1;
    return it;
}

/* P6: the window at level 0 is the pixel. */
static struct range window(int64_t place, int64_t side, int64_t level)
{
    struct range it = {place, place};
    for (int64_t up = 1; up <= level; up++)
        it = range_above(it, plain_side(side, up));
    return it;
}

static int is_in(struct range range, int64_t place)
{
    return range.first <= place && place <= range.last;
}

uint16_t plain_keep_windows(const lepsarvu_settings *s, uint16_t column, uint16_t row, const int16_t *levels,
                            int16_t *kept)
{
    uint16_t nodes = 0;
    for (int64_t level = s->depth; level >= 0; level--) {
        struct range columns = window(column, s->columns, level), rows = window(row, s->rows, level);
        for (int64_t j = 0; j < plain_side(s->rows, level); j++)
            for (int64_t i = 0; i < plain_side(s->columns, level); i++) {
                int is_inside = is_in(columns, i) && is_in(rows, j);
                *kept++ = is_inside ? *levels : 0;
                levels++;
                nodes += is_inside ? 1 : 0;
            }
    }
    return nodes;
}

static int64_t places_in(struct range range)
{
    return range.last - range.first + 1;
}

uint16_t plain_count_windows(const lepsarvu_settings *s, uint16_t column, uint16_t row)
{
    int64_t nodes = 0;
    for (int64_t level = 0; level <= s->depth; level++)
        nodes += places_in(window(column, s->columns, level)) * places_in(window(row, s->rows, level));
    return (uint16_t)nodes;
}

/* The settings' refusals, then 6 (level buffer not T), 21 (pixel outside the picture) and, inside the windows, 11. */
uint16_t plain_rebuild_pixel(const lepsarvu_settings *s, const int16_t *levels, size_t levels_length, uint16_t column,
                             uint16_t row, uint8_t *pixel, uint16_t *read)
{
    static int16_t kept[LEPSARVU_MOST_NODES];
    static uint8_t picture[LEPSARVU_MOST_PIXELS];
    static int32_t work[LEPSARVU_MOST_NODES];
    uint16_t refusal = plain_settings_refusal(s);
    if (refusal != 0)
        return refusal;
    if (levels_length != (size_t)plain_total(s))
        return 6;
    if (column >= s->columns || row >= s->rows)
        return 21;
    uint16_t nodes = plain_keep_windows(s, column, row, levels, kept);
    refusal = plain_pyramid.rebuilding(s, kept, levels_length, picture, (size_t)s->columns * s->rows, work,
                                       levels_length);
    if (refusal != 0)
        return refusal;
    *pixel = picture[row * s->columns + column];
    *read = nodes;
    return 0;
}
