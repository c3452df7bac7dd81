/* The pyramid's functions, library beside plain C. */
#include "compare.h"

void compare_deepest(struct run *run, uint16_t columns, uint16_t rows)
{
    static struct lent depth[2];
    uint16_t answers[2];
    lend_pair(depth, sizeof(uint16_t), &run->draw);
    for (int which = 0; which < 2; which++)
        answers[which] = PYRAMIDS[which]->deepest_depth(columns, rows, start_of(&depth[which]));
    int passed = answers[0] == answers[1] && same_pair(depth, answers[0], sizeof(uint16_t));
    count(&run->tally, DEEPEST_DEPTH, answers[0], passed);
}

/* A call on settings alone, of one of the two implementations; it leaves its answer in `left`. */
typedef uint16_t settings_call(int which, const lepsarvu_settings *s, void *left);

static uint16_t call_bounds(int which, const lepsarvu_settings *s, void *left)
{
    return PYRAMIDS[which]->level_bounds(s, left);
}

static uint16_t call_closed_bounds(int which, const lepsarvu_settings *s, void *left)
{
    return PYRAMIDS[which]->closed_loop_bounds(s, left);
}

static uint16_t call_total(int which, const lepsarvu_settings *s, void *left)
{
    return PYRAMIDS[which]->total_nodes(s, left);
}

static uint16_t call_size(int which, const lepsarvu_settings *s, void *left)
{
    return FILES[which]->file_size(s, left);
}

static void compare_call(struct run *run, const lepsarvu_settings *s, enum function function, settings_call *call,
                         size_t bytes)
{
    static struct lent settings, left[2];
    uint16_t answers[2];
    const lepsarvu_settings *lent = lend_copy(&settings, s, sizeof *s, &run->draw);
    lend_pair(left, bytes, &run->draw);
    for (int which = 0; which < 2; which++)
        answers[which] = call(which, lent, start_of(&left[which]));
    int passed = answers[0] == answers[1] && kept(&settings) && same_pair(left, answers[0], bytes);
    count(&run->tally, function, answers[0], passed);
}

void compare_settings(struct run *run, const lepsarvu_settings *s)
{
    compare_call(run, s, LEVEL_BOUNDS, call_bounds, sizeof s->bins);
    compare_call(run, s, CLOSED_LOOP_BOUNDS, call_closed_bounds, sizeof s->bins);
    compare_call(run, s, TOTAL_NODES, call_total, sizeof(uint16_t));
    compare_call(run, s, FILE_SIZE, call_size, sizeof(size_t));
}

/* A work buffer's length: often more than it need be. */
static size_t work_length(struct run *run, size_t nodes)
{
    return draw_length(&run->draw, nodes) + (once_in(&run->draw, 3) ? below(&run->draw, 6) : 0);
}

static void keep_coded(struct run *run, const struct lent *levels, uint16_t answer)
{
    run->coded = answer == 0 ? levels->bytes / sizeof(int16_t) : 0;
    memcpy(run->levels, levels->memory + GUARD, run->coded * sizeof(int16_t));
}

void compare_coding(struct run *run, const lepsarvu_settings *s, enum manner manner)
{
    static struct lent settings, picture, levels[2], work[2];
    uint16_t answers[2];
    size_t nodes = nodes_of(s), pixels = draw_length(&run->draw, pixels_of(s));
    size_t indices = draw_length(&run->draw, nodes), places = work_length(run, nodes);
    const lepsarvu_settings *lent = lend_copy(&settings, s, sizeof *s, &run->draw);
    draw_pixels(&run->draw, s, lend(&picture, pixels, &run->draw), pixels);
    seal(&picture);
    lend_pair(levels, indices * sizeof(int16_t), &run->draw);
    lend_pair(work, places * sizeof(int32_t), &run->draw);
    for (int which = 0; which < 2; which++)
        answers[which] = coding_in(manner, PYRAMIDS[which])(lent, start_of(&picture), pixels, start_of(&levels[which]),
                                                            indices, start_of(&work[which]), places);
    int passed = answers[0] == answers[1] && kept(&settings) && kept(&picture) &&
                 same_pair(levels, answers[0], nodes * sizeof(int16_t)) &&
                 same_pair(work, answers[0], nodes * sizeof(int32_t));
    if (manner == CLOSED_LOOP && answers[0] == 0)
        passed = passed && files_and_rebuilds(run, s, start_of(&levels[0]), start_of(&work[0]));
    count(&run->tally, manner == CLOSED_LOOP ? CLOSED_LOOP_CODING : CODING, answers[0], passed);
    keep_coded(run, &levels[1], answers[1]);
}

int16_t *lend_levels(struct run *run, const lepsarvu_settings *s, struct lent *levels, size_t length)
{
    int16_t *indices = lend(levels, length * sizeof(int16_t), &run->draw);
    if (run->coded == length && !once_in(&run->draw, 3))
        memcpy(indices, run->levels, length * sizeof(int16_t));
    else
        draw_levels(&run->draw, s, indices, length);
    seal(levels);
    return indices;
}

void compare_rebuilding(struct run *run, const lepsarvu_settings *s)
{
    static struct lent settings, levels, picture[2], work[2];
    uint16_t answers[2];
    size_t nodes = nodes_of(s), pixels = draw_length(&run->draw, pixels_of(s));
    size_t indices = draw_length(&run->draw, nodes), places = work_length(run, nodes);
    const lepsarvu_settings *lent = lend_copy(&settings, s, sizeof *s, &run->draw);
    const int16_t *lent_levels = lend_levels(run, s, &levels, indices);
    lend_pair(picture, pixels, &run->draw);
    lend_pair(work, places * sizeof(int32_t), &run->draw);
    for (int which = 0; which < 2; which++)
        answers[which] =
            PYRAMIDS[which]->rebuilding(lent, lent_levels, indices, start_of(&picture[which]), pixels,
                                        start_of(&work[which]), places);
    int passed = answers[0] == answers[1] && kept(&settings) && kept(&levels) &&
                 same_pair(picture, answers[0], pixels) &&
                 same_pair(work, answers[0], nodes * sizeof(int32_t));
    count(&run->tally, REBUILDING, answers[0], passed);
}
