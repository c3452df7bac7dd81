/* How near an error comes to its bound: near
 * Pictures are looked for whose rebuilt pixel (0, 0) lies as far as possible from what was coded: a picture is changed
 * at random, and a change is kept unless it makes the error smaller. The search is done with plain C; the picture that
 * it finds is coded and rebuilt by the library. At depth 1 the bound is reached, so neither its multiplier nor its
 * rounding can be other than they are; at more depth kernel 6 stays below it, since the errors of a level can't have
 * the worst size and sign at all of its nodes. Closed-loop the bound of level 0 is reached at every depth, whatever the
 * levels above it lost, and pictures of noise are enough to find that. */
#include <stdlib.h>

#include "guarded.h"

enum { SEED = 1983, CHANGES = 20000, STARTS = 100, FEW_STARTS = 10, MOST_PIXELS = 81, MOST_NODES = 200, WIDEST = 255 };
enum { NOISES = 20000 };

/* Which value of pixel (0, 0) is meant: the rebuilt one, or after the clamp the shown one. */
enum value { REBUILT, SHOWN };

/* How the bound stands to the error that must be found: it may be above it, or must be reached; SHARP: reached, and
 * with a multiplier of one hundredth more or less it would not be. */
enum demand { BELOW, REACHED, SHARP };

struct aim {
    lepsarvu_settings s;
    enum value value;
    int sign; /* of rebuilt less coded */
    int64_t error;
    enum demand demand;
};

static const struct aim AIMS[] = {
    {{3, 3, 1, 6, 0, 255, {1, 255}}, REBUILT, 1, 249, SHARP},
    {{3, 3, 1, 6, 0, 255, {1, 255}}, REBUILT, -1, 249, SHARP},
    {{3, 3, 1, 6, 0, 255, {255, 255}}, REBUILT, 1, 376, SHARP},
    {{3, 3, 1, 6, 0, 255, {255, 255}}, REBUILT, -1, 376, SHARP},
    {{3, 3, 1, 6, 0, 255, {254, 254}}, REBUILT, -1, 376, SHARP},
    {{3, 3, 1, 6, 0, 255, {1, 101}}, SHOWN, 1, 98, REACHED},
    {{3, 3, 1, 6, 0, 255, {1, 101}}, SHOWN, -1, 98, REACHED},
    {{3, 3, 1, 6, 0, 255, {9, 51}}, SHOWN, 1, 53, REACHED},
    {{5, 5, 1, 6, 0, 255, {51, 51}}, SHOWN, -1, 74, REACHED},
    {{3, 3, 1, 6, 0, 255, {1, 31}}, SHOWN, 1, 30, REACHED}, /* 29.4, rounded up */
    {{3, 3, 1, 6, 0, 255, {1, 11}}, SHOWN, -1, 10, REACHED},
    {{3, 3, 1, 6, 0, 255, {7, 41}}, SHOWN, -1, 43, REACHED}, /* 39.2, rounded up, and 3 */
    {{3, 3, 1, 6, 0, 255, {10, 4}}, SHOWN, -1, 9, REACHED},
    {{3, 3, 1, 6, 0, 255, {1, 2}}, SHOWN, -1, 2, REACHED},
    {{3, 3, 1, 3, 0, 255, {255, 255}}, REBUILT, 1, 254, SHARP},
    {{3, 3, 1, 4, 0, 255, {255, 255}}, REBUILT, -1, 254, SHARP},
    {{3, 3, 1, 5, 0, 255, {255, 255}}, REBUILT, 1, 254, SHARP},
    {{3, 3, 1, 5, 0, 255, {255, 255}}, REBUILT, -1, 254, SHARP},
    {{3, 3, 1, 4, 0, 255, {10, 4}}, SHOWN, -1, 7, REACHED},
    {{5, 5, 2, 5, 0, 255, {31, 31, 31}}, SHOWN, 1, 45, REACHED},
    {{9, 9, 3, 5, 0, 255, {9, 9, 9, 9}}, SHOWN, -1, 16, REACHED},
    {{5, 5, 2, 6, 0, 255, {31, 31, 31}}, REBUILT, 1, 80, BELOW},
    {{5, 5, 2, 6, 0, 255, {255, 255, 255}}, REBUILT, 1, 650, BELOW},
    {{9, 9, 3, 6, 0, 255, {9, 9, 9, 9}}, REBUILT, -1, 35, BELOW},
    {{3, 3, 1, 6, 16, 235, {1, 101}}, SHOWN, 1, 98, REACHED},
    {{3, 3, 1, 6, 16, 235, {9, 51}}, SHOWN, -1, 53, REACHED},
    {{3, 3, 1, 6, 16, 235, {1, 255}}, REBUILT, 1, 249, REACHED},
    {{3, 3, 1, 6, 16, 235, {1, 255}}, REBUILT, -1, 249, REACHED},
    {{3, 3, 1, 4, 16, 235, {10, 4}}, SHOWN, -1, 7, REACHED},
    {{5, 5, 2, 5, 16, 235, {31, 31, 31}}, SHOWN, 1, 45, REACHED},
    {{3, 3, 1, 5, 100, 160, {31, 31}}, SHOWN, 1, 30, REACHED},
};

static struct seeded draw = {SEED};
static struct tally tally;

/* The bound of level 0 with a multiplier in hundredths. */
static int64_t bound_with(const lepsarvu_settings *s, int64_t hundredths)
{
    int64_t bound = 0;
    for (int level = s->depth; level >= 0; level--)
        bound = (hundredths * bound + 99) / 100 + s->bins[level] / 2;
    return bound;
}

/* The error of a picture's pixel (0, 0), with plain C. */
static int64_t error_of(const struct aim *aim, const uint8_t *picture)
{
    static uint8_t shown[MOST_PIXELS];
    static int16_t levels[MOST_NODES];
    static int32_t work[MOST_NODES];
    const lepsarvu_settings *s = &aim->s;
    size_t nodes = nodes_of(s), pixels = pixels_of(s);
    if (plain_pyramid.coding(s, picture, pixels, levels, nodes, work, nodes) != 0 ||
        plain_pyramid.rebuilding(s, levels, nodes, shown, pixels, work, nodes) != 0)
        abort();
    return aim->sign * ((aim->value == SHOWN ? shown[0] : work[nodes - pixels]) - picture[0]);
}

/* A picture of noise, from black to white. */
static void draw_noise(const lepsarvu_settings *s, uint8_t *picture)
{
    size_t pixels = pixels_of(s);
    for (size_t at = 0; at < pixels; at++)
        picture[at] = (uint8_t)(s->black + below(&draw, s->white - s->black + 1u));
}

/* Changes one to three pixels, mostly a little. */
static void change(const lepsarvu_settings *s, uint8_t *picture)
{
    uint32_t pixels = (uint32_t)pixels_of(s);
    for (uint32_t times = 1 + below(&draw, 3); times > 0; times--) {
        uint8_t *pixel = &picture[below(&draw, pixels)];
        int by = once_in(&draw, 8) ? (int)below(&draw, 511) - 255 : (int)below(&draw, 17) - 8;
        *pixel = (uint8_t)(*pixel + by < s->black ? s->black : *pixel + by > s->white ? s->white : *pixel + by);
    }
}

/* One climb from a picture of noise, until the error is what no error should be above. */
static int64_t climb(const struct aim *aim, uint8_t *picture, int64_t bound)
{
    uint8_t changed[MOST_PIXELS];
    size_t pixels = pixels_of(&aim->s);
    draw_noise(&aim->s, picture);
    int64_t most = error_of(aim, picture);
    for (int done = 0; done < CHANGES && most < bound; done++) {
        memcpy(changed, picture, pixels);
        change(&aim->s, changed);
        int64_t error = error_of(aim, changed);
        if (error >= most) {
            most = error;
            memcpy(picture, changed, pixels);
        }
    }
    return most;
}

/* The largest error of some climbs. */
static int64_t search(const struct aim *aim, uint8_t *best)
{
    uint8_t picture[MOST_PIXELS] = {0};
    int64_t most = -1, bound = aim->demand == BELOW ? INT64_MAX : aim->error;
    int starts = aim->demand == BELOW ? FEW_STARTS : STARTS;
    for (int start = 0; start < starts && most < bound; start++) {
        int64_t error = climb(aim, picture, bound);
        if (error > most) {
            most = error;
            memcpy(best, picture, sizeof picture);
        }
    }
    return most;
}

static void demand(const lepsarvu_settings *s, const char *what, int passed)
{
    if (!passed)
        fprintf(stderr, "%u by %u, depth %u, kernel %u, bins %u, %u: %s\n", s->columns, s->rows, s->depth, s->kernel,
                s->bins[0], s->bins[1], what);
    tally.passed += (uint64_t)passed;
    tally.failed += (uint64_t)!passed;
}

/* The library's bound of level 0, and in the job's things what it rebuilds of the picture. */
static uint16_t rebuild_with_library(enum manner manner, const lepsarvu_settings *s, const uint8_t *picture)
{
    enum function bounds = manner == CLOSED_LOOP ? CLOSED_LOOP_BOUNDS : LEVEL_BOUNDS;
    enum function coder = manner == CLOSED_LOOP ? CLOSED_LOOP_CODING : CODING;
    uint16_t bound;
    provide_settings(&draw, *s);
    provide_copy(PICTURE, picture, pixels_of(s));
    provide(&draw, LEVELS, nodes_of(s));
    provide(&draw, WORK, nodes_of(s));
    demand(s, "the bounds", call_between_guards(bounds, &draw) && job.answer == 0);
    demand(s, "the coding", call_between_guards(coder, &draw) && job.answer == 0);
    provide(&draw, WORK, nodes_of(s));
    demand(s, "the rebuilding", call_between_guards(REBUILDING, &draw) && job.answer == 0);
    memcpy(&bound, job.held[BOUNDS], sizeof bound);
    return bound;
}

/* The library's error and bound for the picture. */
static int64_t library_error(const struct aim *aim, const uint8_t *picture, uint16_t *bound)
{
    int32_t rebuilt;
    *bound = rebuild_with_library(OPEN_LOOP, &aim->s, picture);
    memcpy(&rebuilt, job.held[WORK] + (nodes_of(&aim->s) - pixels_of(&aim->s)) * sizeof rebuilt, sizeof rebuilt);
    return aim->sign * ((aim->value == SHOWN ? job.held[PICTURE][0] : rebuilt) - picture[0]);
}

static void pursue(const struct aim *aim)
{
    uint8_t picture[MOST_PIXELS] = {0};
    uint16_t bound = 0;
    int64_t found = search(aim, picture), error = library_error(aim, picture, &bound);
    int64_t hundredths = aim->s.kernel == 6 ? 196 : 100;
    printf("%u by %u, depth %u, kernel %u, pixels of %u to %u, bins", aim->s.columns, aim->s.rows, aim->s.depth,
           aim->s.kernel, aim->s.black, aim->s.white);
    for (int level = 0; level <= aim->s.depth; level++)
        printf(" %u", aim->s.bins[level]);
    printf(": %s off by %" PRId64 ", bound %u; %d hundredths would give %" PRId64 "\n",
           aim->value == SHOWN ? "shown" : "rebuilt", aim->sign * error, bound, aim->s.kernel == 6 ? 200 : 101,
           bound_with(&aim->s, aim->s.kernel == 6 ? 200 : 101));
    demand(&aim->s, "the library's error is not that of plain C", error == found);
    demand(&aim->s, "the error that must be found was not", error >= aim->error);
    demand(&aim->s, "the error is above the bound", error <= bound);
    if (aim->demand != BELOW)
        demand(&aim->s, "the bound is above the largest error", error == bound);
    if (aim->demand == SHARP)
        demand(&aim->s, "another multiplier would do",
               bound_with(&aim->s, hundredths - 1) < error && error < bound_with(&aim->s, hundredths + 1));
}

/* The smallest and the largest of rebuilt less coded, over the pixels of level 0 before the clamp. */
struct errors {
    int64_t least, most;
};

static struct errors errors_of(const lepsarvu_settings *s, const uint8_t *picture, const int32_t *work)
{
    size_t pixels = pixels_of(s);
    const int32_t *rebuilt = work + nodes_of(s) - pixels;
    struct errors it = {INT64_MAX, INT64_MIN};
    for (size_t at = 0; at < pixels; at++) {
        int64_t error = (int64_t)rebuilt[at] - picture[at];
        it.least = error < it.least ? error : it.least;
        it.most = error > it.most ? error : it.most;
    }
    return it;
}

/* A picture of noise, and its errors with plain C. */
static struct errors noise_errors(const lepsarvu_settings *s, uint8_t *picture)
{
    static int16_t levels[LEPSARVU_MOST_NODES];
    static int32_t work[LEPSARVU_MOST_NODES];
    size_t nodes = nodes_of(s), pixels = pixels_of(s);
    draw_noise(s, picture);
    if (plain_pyramid.closed_loop_coding(s, picture, pixels, levels, nodes, work, nodes) != 0)
        abort();
    return errors_of(s, picture, work);
}

/* Closed-loop an error is at least minus half the bin, rounded down, and at most half of one less than the bin. Noise
 * that reaches one of the two is looked for, and given to the library. Returns that one. */
static int64_t reach_closed(const lepsarvu_settings *s, int sign)
{
    static uint8_t picture[LEPSARVU_MOST_PIXELS];
    int64_t least = -(s->bins[0] / 2), most = (s->bins[0] - 1) / 2;
    struct errors errors = noise_errors(s, picture);
    for (int noise = 1; noise < NOISES && (sign < 0 ? errors.least > least : errors.most < most); noise++)
        errors = noise_errors(s, picture);
    uint16_t bound = rebuild_with_library(CLOSED_LOOP, s, picture);
    struct errors found = errors_of(s, picture, (const int32_t *)(const void *)job.held[WORK]);
    demand(s, "the library's errors are not those of plain C",
           found.least == errors.least && found.most == errors.most);
    demand(s, "an error is outside of half the bin", found.least >= least && found.most <= most);
    demand(s, "half the bin was not reached", sign < 0 ? found.least == least : found.most == most);
    demand(s, "the bound is not half the bin", bound == -least);
    return sign < 0 ? found.least : found.most;
}

/* Every depth, at the smallest size that has it, below levels of the widest bins. */
static void reach_all_closed(uint16_t kernel, uint16_t bin, uint16_t black, uint16_t white)
{
    struct errors narrowest = {INT64_MIN, INT64_MAX};
    for (uint16_t depth = 0; depth <= 6; depth++) {
        uint16_t side = (uint16_t)((1 << depth) + 1);
        lepsarvu_settings s = {side, side, depth, kernel, black, white, {bin}};
        for (int level = 1; level <= depth; level++)
            s.bins[level] = WIDEST;
        int64_t least = reach_closed(&s, -1), most = reach_closed(&s, 1);
        narrowest.least = least > narrowest.least ? least : narrowest.least;
        narrowest.most = most < narrowest.most ? most : narrowest.most;
    }
    printf("closed-loop, kernel %u, bin %u below bins of %d, pixels of %u to %u: at every depth rebuilt off by %" PRId64
           " and by %" PRId64 "\n", kernel, bin, WIDEST, black, white, narrowest.least, narrowest.most);
}

int main(void)
{
    static const uint16_t BINS[] = {1, 2, 3, 15, 254, 255};
    for (size_t at = 0; at < sizeof AIMS / sizeof *AIMS; at++)
        pursue(&AIMS[at]);
    for (uint16_t kernel = 3; kernel <= 6; kernel++)
        for (size_t at = 0; at < sizeof BINS / sizeof *BINS; at++) {
            reach_all_closed(kernel, BINS[at], 0, WIDEST);
            reach_all_closed(kernel, BINS[at], 16, 235);
        }
    return finish(&tally);
}
