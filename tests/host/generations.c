/* Lists of generations: document 01, "Generations". See lists.h. */
#include "lists.h"

/* Two picture buffers, one of which holds the picture at hand; the rest is lent anew for each generation. */
static struct lent picture[2], settings, levels, work[2];
static int at_hand;

/* What the coding left. */
static struct coded coded;

enum outcome { BROKEN = -1, REFUSED, ACCEPTED };

/* Whether a refused coding changed nothing, and 20 was given of a picture that has such a pixel. */
static enum outcome refused_coding(struct seen *seen, const struct list *list, const lepsarvu_settings *s,
                                   uint16_t answer)
{
    int turned_down = answer == 20;
    seen->turned_down += turned_down && list->accepted > 0;
    if (turned_down && pixels_inside(s, start_of(&picture[at_hand]), picture[at_hand].bytes))
        return BROKEN;
    return kept(&levels) && kept(&work[0]) ? REFUSED : BROKEN;
}

/* Codes the picture at hand, open-loop or closed-loop. */
static enum outcome code(struct seen *seen, const struct list *list, const lepsarvu_settings *s, int careless)
{
    enum manner manner = draw_manner();
    size_t nodes = nodes_of(s), indices = step_length(careless, nodes), places = step_length(careless, nodes);
    const lepsarvu_settings *lent = lend_copy(&settings, s, sizeof *s, &draw);
    int16_t *to = lend_sealed(&levels, indices * sizeof(int16_t));
    int32_t *left = lend_sealed(&work[0], places * sizeof(int32_t));
    seal(&picture[at_hand]);
    uint16_t answer = coding_in(manner, &library_pyramid)(lent, start_of(&picture[at_hand]), picture[at_hand].bytes,
                                                          to, indices, left, places);
    if (!kept(&settings) || !kept(&picture[at_hand]))
        return BROKEN;
    if (answer != 0)
        return refused_coding(seen, list, s, answer);
    if (!guards_kept(&levels) || !kept_from(&work[0], nodes * sizeof(int32_t)))
        return BROKEN;
    return take_coded(&coded, manner, s, start_of(&picture[at_hand]), left) ? ACCEPTED : BROKEN;
}

/* Rebuilds from the levels as the coding left them, into a picture buffer and with a work buffer. */
static enum outcome rebuild(const lepsarvu_settings *s, struct lent *into, struct lent *with)
{
    seal(&levels);
    seal(into);
    seal(with);
    uint16_t answer = library_pyramid.rebuilding(start_of(&settings), start_of(&levels),
                                                 levels.bytes / sizeof(int16_t), start_of(into), into->bytes,
                                                 start_of(with), with->bytes / sizeof(int32_t));
    if (!kept(&settings) || !kept(&levels))
        return BROKEN;
    if (answer != 0)
        return kept(into) && kept(with) ? REFUSED : BROKEN;
    return guards_kept(into) && kept_from(with, nodes_of(s) * sizeof(int32_t)) ? ACCEPTED : BROKEN;
}

/* One generation, into the same picture buffer or the other, with the same work buffer or another. */
static enum outcome generation(struct seen *seen, struct list *list)
{
    lepsarvu_settings s = draw_step(list);
    int careless = once_in(&draw, 5), into = once_in(&draw, 2) ? at_hand : 1 - at_hand, with = (int)below(&draw, 2);
    enum outcome outcome = code(seen, list, &s, careless);
    seen->refused_call[0] += outcome == REFUSED;
    if (outcome != ACCEPTED)
        return outcome;
    careless |= once_in(&draw, 10);
    if (into != at_hand)
        lend_sealed(&picture[into], step_length(careless, pixels_of(&s)));
    if (with == 1)
        lend_sealed(&work[1], step_length(careless, nodes_of(&s)) * sizeof(int32_t));
    outcome = rebuild(&s, &picture[into], &work[with]);
    seen->refused_call[1] += outcome == REFUSED;
    if (outcome != ACCEPTED)
        return outcome;
    at_hand = into;
    int passed = take_bounds(list, &coded) &&
                 rebuilt_right(seen, &coded, start_of(&work[with]), start_of(&picture[into]));
    seen->other_greys += s.black != list->black || s.white != list->white;
    return passed ? ACCEPTED : BROKEN;
}

int run_generations(struct seen *seen, struct list *list)
{
    static uint8_t first[LEPSARVU_MOST_PIXELS + 1];
    lepsarvu_settings s = {list->columns, list->rows, 0, 3, list->black, list->white, {1}};
    size_t pixels = step_length(once_in(&draw, 10), pixels_of(&s));
    int whole = 1;
    at_hand = 0;
    draw_picture(&draw, &s, first, pixels);
    lend_copy(&picture[at_hand], first, pixels, &draw);
    for (uint32_t step = 0; step < list->steps && whole; step++) {
        enum outcome outcome = generation(seen, list);
        seen->accepted += outcome == ACCEPTED;
        seen->refused += outcome == REFUSED;
        whole = outcome != BROKEN;
    }
    seen->all_accepted += list->accepted == MOST_LIST;
    return whole && picture[at_hand].bytes == pixels &&
           close_enough(seen, list, first, start_of(&picture[at_hand]), pixels);
}
