/* Demand 3 on the library, over whole lists: lists generations|copies [SEED [SMALL [LARGE]]]
 * A list has 0 to 6 generations, or archive copies, of one picture, lawful or not, each coded open-loop or closed-loop.
 * After it, every pixel must be within the sum of the accepted ones' bounds of the first picture, of each the bound of
 * the manner in which it was coded. */
#include <inttypes.h>
#include <stdlib.h>
#include <string.h>

#include "lists.h"

enum { SMALL_LISTS = 100000, LARGE_LISTS = 500, SMALL_SIDE = 17, LARGE_SIDE = 129, SHOWN_FAILURES = 20 };

struct seeded draw;

/* Black and white of a step: mostly the list's, else wider ones, a little narrower ones, or any, which are drawn
 * already. The last two may turn the picture down. */
static void draw_step_greys(const struct list *list, lepsarvu_settings *s)
{
    uint32_t kind = below(&draw, 12), spare = list->white - list->black - 1u, lower = below(&draw, 3);
    if (kind == 0)
        return;
    s->black = list->black;
    s->white = list->white;
    if (kind == 1) {
        s->black = (uint16_t)below(&draw, list->black + 1u);
        s->white = (uint16_t)(list->white + below(&draw, 256u - list->white));
    }
    if (kind == 2 && lower <= spare) {
        s->black = (uint16_t)(list->black + lower);
        s->white = (uint16_t)(list->white - below(&draw, (spare - lower < 3 ? spare - lower : 2) + 1));
    }
}

lepsarvu_settings draw_step(const struct list *list)
{
    lepsarvu_settings s = draw_for_size(&draw, list->columns, list->rows, list->most_bin);
    draw_step_greys(list, &s);
    if (once_in(&draw, 10)) {
        s.columns = list->rows;
        s.rows = list->columns;
    }
    for (uint32_t times = once_in(&draw, 8) ? 1 + below(&draw, 2) : 0; times > 0; times--)
        spoil(&draw, &s);
    return s;
}

size_t step_length(int careless, size_t right)
{
    return careless ? draw_length(&draw, right) : right;
}

void *lend_sealed(struct lent *it, size_t bytes)
{
    lend(it, bytes, &draw);
    seal(it);
    return start_of(it);
}

enum manner draw_manner(void)
{
    return once_in(&draw, 2) ? CLOSED_LOOP : OPEN_LOOP;
}

int pixels_inside(const lepsarvu_settings *s, const uint8_t *picture, size_t pixels)
{
    int all = 1;
    for (size_t at = 0; at < pixels; at++)
        all &= s->black <= picture[at] && picture[at] <= s->white;
    return all;
}

int take_coded(struct coded *it, enum manner manner, const lepsarvu_settings *s, const uint8_t *picture,
               const int32_t *left)
{
    static int16_t levels[LEPSARVU_MOST_NODES];
    size_t nodes = nodes_of(s);
    it->manner = manner;
    it->s = *s;
    memcpy(manner == CLOSED_LOOP ? it->values : it->averages, left, nodes * sizeof *left);
    if (!pixels_inside(s, picture, pixels_of(s)))
        return 0;
    return manner == OPEN_LOOP ||
           plain_pyramid.coding(s, picture, pixels_of(s), levels, nodes, it->averages, nodes) == 0;
}

int take_bounds(struct list *list, struct coded *it)
{
    static struct lent settings, found;
    uint16_t expected[LEPSARVU_SLOTS];
    const lepsarvu_settings *lent = lend_copy(&settings, &it->s, sizeof it->s, &draw);
    uint16_t answer = bounds_in(it->manner, &library_pyramid)(lent, lend_sealed(&found, sizeof expected));
    memcpy(it->bounds, start_of(&found), sizeof expected);
    if (answer != 0 || bounds_in(it->manner, &plain_pyramid)(&it->s, expected) != 0)
        return 0;
    list->accepted++;
    list->closed += it->manner == CLOSED_LOOP;
    list->sum += it->bounds[0];
    list->most_bound = it->bounds[0] > list->most_bound ? it->bounds[0] : list->most_bound;
    return kept(&settings) && guards_kept(&found) && memcmp(it->bounds, expected, sizeof expected) == 0;
}

static int64_t largest_error(const int32_t *rebuilt, const int32_t *averages, int64_t nodes)
{
    int64_t most = 0;
    for (int64_t node = 0; node < nodes; node++) {
        int64_t error = llabs((int64_t)rebuilt[node] - averages[node]);
        most = error > most ? error : most;
    }
    return most;
}

static int clamped_right(struct seen *seen, const lepsarvu_settings *s, const int32_t *rebuilt, const uint8_t *shown)
{
    int right = 1, beyond = 0;
    for (size_t at = 0; at < pixels_of(s); at++) {
        int low = rebuilt[at] < s->black, high = rebuilt[at] > s->white;
        right &= shown[at] == (low ? s->black : high ? s->white : rebuilt[at]);
        beyond |= (low && s->black != 0) || (high && s->white != 255);
    }
    seen->clamped += (uint64_t)beyond;
    return right;
}

int rebuilt_right(struct seen *seen, const struct coded *it, const int32_t *rebuilt, const uint8_t *shown)
{
    int64_t at = 0, most = 0;
    for (int level = it->s.depth; level >= 0; level--) {
        int64_t nodes = plain_nodes(&it->s, level);
        most = largest_error(rebuilt + at, it->averages + at, nodes);
        if (most > it->bounds[level])
            return 0;
        at += nodes;
    }
    if (!clamped_right(seen, &it->s, rebuilt + at - pixels_of(&it->s), shown))
        return 0;
    if (it->manner == OPEN_LOOP)
        return 1;
    seen->reached += most > 0 && most == it->bounds[0];
    return memcmp(rebuilt, it->values, (size_t)at * sizeof *rebuilt) == 0;
}

int close_enough(struct seen *seen, const struct list *list, const uint8_t *first, const uint8_t *last, size_t pixels)
{
    int64_t most = 0;
    for (size_t at = 0; at < pixels; at++)
        most = abs(first[at] - last[at]) > most ? abs(first[at] - last[at]) : most;
    seen->narrow += list->accepted >= 2 && list->sum < 255;
    seen->beyond += most > list->most_bound;
    return most <= list->sum;
}

static void count_manners(struct seen *seen, const struct list *list)
{
    int all_open = list->closed == 0, all_closed = list->closed == list->accepted;
    if (list->accepted < 2)
        return;
    seen->all_open += (uint64_t)all_open;
    seen->all_closed += (uint64_t)all_closed;
    seen->mixed += !all_open && !all_closed;
}

typedef int run_list(struct seen *seen, struct list *list);

static void run_one(struct seen *seen, run_list *run, uint32_t least_side, uint32_t most_side)
{
    static const uint32_t MOST_BINS[] = {2, 3, 5, 8, 16, 32, 64, 255};
    lepsarvu_settings size = draw_lawful(&draw, most_side);
    struct list list = {0};
    list.black = size.black;
    list.white = size.white;
    list.columns = least_side > 2 ? (uint16_t)least_side : size.columns;
    list.rows = least_side > 2 ? (uint16_t)least_side : size.rows;
    list.most_bin = MOST_BINS[below(&draw, 8)];
    list.steps = below(&draw, MOST_LIST + 1);
    seen->lists++;
    seen->empty += list.steps == 0;
    int passed = run(seen, &list);
    count_manners(seen, &list);
    seen->passed += (uint64_t)passed;
    if (!passed && seen->failed++ < SHOWN_FAILURES)
        fprintf(stderr, "list %" PRIu64 ": %u by %u, %u steps: failed\n", seen->lists, list.columns, list.rows,
                list.steps);
}

static void demand(struct seen *seen, const char *what, uint64_t found, uint64_t least)
{
    printf("%-32s %8" PRIu64 "\n", what, found);
    if (found >= least)
        seen->passed++;
    else {
        fprintf(stderr, "%s: fewer than %" PRIu64 "\n", what, least);
        seen->failed++;
    }
}

/* There were many of every kind. */
static void demand_kinds(struct seen *seen, const char *const calls[4])
{
    uint64_t lists = seen->lists;
    printf("%" PRIu64 " lists\n", lists);
    demand(seen, "empty lists", seen->empty, lists / 20);
    demand(seen, "accepted", seen->accepted, lists);
    demand(seen, "refused", seen->refused, lists / 4);
    for (int call = 0; call < 4 && calls[call] != NULL; call++)
        demand(seen, calls[call], seen->refused_call[call], lists / 50);
    demand(seen, "lists of six, all accepted", seen->all_accepted, lists / 100);
    demand(seen, "two or more, sum below 255", seen->narrow, lists / 4);
    demand(seen, "error above every single bound", seen->beyond, lists / 1000 + 1);
    demand(seen, "two or more, all open-loop", seen->all_open, lists / 20);
    demand(seen, "two or more, all closed-loop", seen->all_closed, lists / 20);
    demand(seen, "two or more, of both manners", seen->mixed, lists / 4);
    demand(seen, "closed-loop bounds reached", seen->reached, lists / 4);
    demand(seen, "turned down: outside black, white", seen->turned_down, lists / 20);
    demand(seen, "accepted, other black or white", seen->other_greys, lists / 20);
    demand(seen, "clamped to black or white", seen->clamped, lists / 20);
}

int main(int words, char **word)
{
    static const char *const GENERATION[4] = {"refused codings", "refused rebuildings", NULL, NULL};
    static const char *const COPY[4] = {"refused readings of the file", "refused rebuildings", "refused codings",
                                        "refused writings"};
    static struct seen seen;
    int copies = words > 1 && strcmp(word[1], "copies") == 0;
    draw.state = words > 2 ? strtoull(word[2], NULL, 10) : 1983;
    uint64_t small = words > 3 ? strtoull(word[3], NULL, 10) : SMALL_LISTS;
    uint64_t large = words > 4 ? strtoull(word[4], NULL, 10) : LARGE_LISTS;
    run_list *run = copies ? run_copies : run_generations;
    for (uint64_t done = 0; done < small; done++)
        run_one(&seen, run, 2, done % 2 ? SMALL_SIDE : 9);
    for (uint64_t done = 0; done < large; done++)
        run_one(&seen, run, LARGE_SIDE, LARGE_SIDE);
    demand_kinds(&seen, copies ? COPY : GENERATION);
    printf("%" PRIu64 " passed, %" PRIu64 " failed\n", seen.passed, seen.failed);
    return seen.failed != 0;
}
