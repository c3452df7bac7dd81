/* One pixel, library beside plain C, and beside the library's own rebuilding. */
#include "compare.h"

void mark_windows(const lepsarvu_settings *s, const struct place *at, int16_t *marks)
{
    static int16_t ones[LEPSARVU_MOST_NODES];
    for (size_t node = 0; node < nodes_of(s); node++)
        ones[node] = 1;
    plain_keep_windows(s, at->column, at->row, ones, marks);
}

int64_t bin_of(const lepsarvu_settings *s, size_t node)
{
    int64_t level = s->depth;
    for (size_t first = 0; level > 0 && node >= first + (size_t)plain_nodes(s, level); level--)
        first += (size_t)plain_nodes(s, level);
    return s->bins[level];
}

int16_t draw_unlawful(struct seeded *draw, int64_t bin)
{
    const int64_t most = MOST_VALUE / bin, index[5] = {-32768, 32767, most + 1, -most - 1, -32768 + below(draw, 8)};
    return (int16_t)index[below(draw, 5)];
}

void spoil_outside(struct seeded *draw, const lepsarvu_settings *s, const struct place *at, int16_t *levels)
{
    static int16_t marks[LEPSARVU_MOST_NODES];
    mark_windows(s, at, marks);
    for (size_t node = 0; node < nodes_of(s); node++)
        if (!marks[node])
            levels[node] = draw_unlawful(draw, bin_of(s, node));
}

/* P6: one at depth 0, and otherwise never above 1 + 9 + 16(N - 1). */
static int within_limit(const lepsarvu_settings *s, uint16_t read)
{
    return s->depth == 0 ? read == 1 : read >= 1 && read <= 1 + 9 + 16 * (s->depth - 1);
}

/* Whether the library's rebuilding, if it accepts these indices, shows this pixel; `due` says that it must accept. */
static int is_shown(const lepsarvu_settings *s, const int16_t *levels, const struct place *at, uint8_t pixel, int due)
{
    static uint8_t picture[LEPSARVU_MOST_PIXELS];
    static int32_t work[LEPSARVU_MOST_NODES];
    size_t nodes = nodes_of(s);
    uint16_t answer = library_pyramid.rebuilding(s, levels, nodes, picture, pixels_of(s), work, nodes);
    if (answer != 0)
        return answer == 11 && !due;
    return picture[at->row * s->columns + at->column] == pixel;
}

/* What P6 says of an accepted call: the pixel of the full rebuilding with every index outside the windows taken as 0,
 * and of the full rebuilding where that is accepted. */
static int is_right(struct run *run, const lepsarvu_settings *s, const int16_t *levels, const struct place *at,
                    uint8_t pixel, uint16_t read)
{
    static int16_t inside[LEPSARVU_MOST_NODES];
    plain_keep_windows(s, at->column, at->row, levels, inside);
    if (read > run->most_read[s->depth])
        run->most_read[s->depth] = read;
    return read == plain_count_windows(s, at->column, at->row) && within_limit(s, read) &&
           is_shown(s, inside, at, pixel, 1) && is_shown(s, levels, at, pixel, 0);
}

uint16_t compare_pixel(struct run *run, const lepsarvu_settings *s, const int16_t *contents, size_t indices,
                       const struct place *at)
{
    static struct lent settings, levels, pixel[2], read[2];
    uint16_t answers[2], nodes;
    const lepsarvu_settings *lent = lend_copy(&settings, s, sizeof *s, &run->draw);
    const int16_t *lent_levels = lend_copy(&levels, contents, indices * sizeof *contents, &run->draw);
    lend_pair(pixel, 1, &run->draw);
    lend_pair(read, sizeof(uint16_t), &run->draw);
    for (int which = 0; which < 2; which++)
        answers[which] = PYRAMIDS[which]->rebuild_pixel(lent, lent_levels, indices, at->column, at->row,
                                                        start_of(&pixel[which]), start_of(&read[which]));
    int passed = answers[0] == answers[1] && kept(&settings) && kept(&levels) && same_pair(pixel, answers[0], 1) &&
                 same_pair(read, answers[0], sizeof(uint16_t));
    memcpy(&nodes, start_of(&read[0]), sizeof nodes);
    if (passed && answers[0] == 0)
        passed = is_right(run, s, lent_levels, at, *(uint8_t *)start_of(&pixel[0]), nodes);
    count(&run->tally, REBUILD_PIXEL, answers[0], passed);
    return answers[0];
}

void compare_drawn_pixel(struct run *run, const lepsarvu_settings *s)
{
    static struct lent levels;
    size_t indices = draw_length(&run->draw, nodes_of(s));
    int16_t *drawn = lend_levels(run, s, &levels, indices);
    struct place at = {draw_along(&run->draw, s->columns), draw_along(&run->draw, s->rows)};
    int is_inside = at.column < s->columns && at.row < s->rows;
    if (is_inside && is_lawful(s) && indices == nodes_of(s) && once_in(&run->draw, 4))
        spoil_outside(&run->draw, s, &at, drawn);
    compare_pixel(run, s, drawn, indices, &at);
}
