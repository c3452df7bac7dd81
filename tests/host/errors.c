/* The largest errors of both manners of coding, beside their bounds: errors DOCUMENT, with the reference's vectors
 * `pyramid` on standard input.
 * Each picture is coded with every kernel, with the depth and the bins of its case and again with its size's deepest
 * depth and the same bin at every level; every rebuilt value, before the clamp, must be within its level's bound of its
 * average. What the second found at depth 6 is printed as a table, in which closed-loop coding reaches every bound, and
 * the lines of the table must stand in the document. */
#include <stdlib.h>

#include "guarded.h"
#include "vectors.h"

enum { DEEPEST = 6, BIN = 15, LEAST_KERNEL = 3, MOST_KERNEL = 6, MOST_LINE = 160, MOST_DOCUMENT = 1 << 20 };

/* Of one manner, at each level. */
struct errors {
    int64_t largest[LEPSARVU_SLOTS];
    uint16_t bound[LEPSARVU_SLOTS];
};

static const enum function CODERS[MANNERS] = {CODING, CLOSED_LOOP_CODING};
static const enum function BOUNDERS[MANNERS] = {LEVEL_BOUNDS, CLOSED_LOOP_BOUNDS};

static struct errors table[MOST_KERNEL + 1][MANNERS];
static uint64_t pictures_in_table;
static char document[MOST_DOCUMENT + 1];

struct seeded draw = {1983};
struct tally tally;

static void demand(const lepsarvu_settings *s, const char *what, int passed)
{
    if (!passed && tally.failed < SHOWN_FAILURES)
        fprintf(stderr, "case %" PRIu64 ": %u by %u, depth %u, kernel %u: %s\n", tally.number, s->columns, s->rows,
                s->depth, s->kernel, what);
    tally.passed += (uint64_t)passed;
    tally.failed += (uint64_t)!passed;
}

static void call_for(enum function function)
{
    int kept = call_between_guards(function, &draw);
    demand(&job.s, FUNCTION_NAMES[function], kept && job.answer == 0);
}

static void find_largest(const int32_t *averages, int64_t largest[LEPSARVU_SLOTS])
{
    const int32_t *rebuilt = (const void *)job.held[WORK];
    for (int level = job.s.depth; level >= 0; level--)
        for (int64_t nodes = plain_nodes(&job.s, level); nodes > 0; nodes--) {
            int64_t error = llabs((int64_t)*rebuilt++ - *averages++);
            largest[level] = error > largest[level] ? error : largest[level];
        }
}

/* Codes the picture and rebuilds it. The averages are those that open-loop coding leaves, which is measured first. */
static struct errors measured(enum manner manner, const uint8_t *picture)
{
    static int32_t averages[LEPSARVU_MOST_NODES];
    struct errors it = {{0}, {0}};
    size_t nodes = nodes_of(&job.s);
    provide_copy(PICTURE, picture, pixels_of(&job.s));
    provide(&draw, LEVELS, nodes);
    provide(&draw, WORK, nodes);
    provide(&draw, BOUNDS, LEPSARVU_SLOTS);
    call_for(BOUNDERS[manner]);
    memcpy(it.bound, job.held[BOUNDS], sizeof it.bound);
    call_for(CODERS[manner]);
    if (manner == OPEN_LOOP)
        memcpy(averages, job.held[WORK], nodes * sizeof *averages);
    provide(&draw, WORK, nodes);
    call_for(REBUILDING);
    find_largest(averages, it.largest);
    return it;
}

static void compare(const lepsarvu_settings *s, const uint8_t *picture, struct errors found[MANNERS])
{
    provide_settings(&draw, *s);
    found[OPEN_LOOP] = measured(OPEN_LOOP, picture);
    found[CLOSED_LOOP] = measured(CLOSED_LOOP, picture);
    for (int level = 0; level <= s->depth; level++) {
        for (int manner = 0; manner < MANNERS; manner++)
            demand(s, "an error is above its bound", found[manner].largest[level] <= found[manner].bound[level]);
        demand(s, "a closed-loop bound is above the other",
               found[CLOSED_LOOP].bound[level] <= found[OPEN_LOOP].bound[level]);
    }
}

static void put_in_table(uint16_t kernel, const struct errors found[MANNERS])
{
    for (int manner = 0; manner < MANNERS; manner++)
        for (int level = 0; level <= DEEPEST; level++) {
            struct errors *it = &table[kernel][manner];
            int64_t largest = found[manner].largest[level];
            it->largest[level] = largest > it->largest[level] ? largest : it->largest[level];
            it->bound[level] = found[manner].bound[level];
        }
}

static void look_at_case(void)
{
    struct errors found[MANNERS];
    lepsarvu_settings own = take_settings(), even = {own.columns, own.rows, 0, 0, own.black, own.white, {0}};
    const uint8_t *picture = take(pixels_of(&own));
    take(8 * nodes_of(&own) + pixels_of(&own) + 2 * (own.depth + 1u)); /* what the reference made of it */
    plain_pyramid.deepest_depth(own.columns, own.rows, &even.depth);
    for (int level = 0; level <= even.depth; level++)
        even.bins[level] = BIN;
    pictures_in_table += even.depth == DEEPEST;
    for (uint16_t kernel = LEAST_KERNEL; kernel <= MOST_KERNEL; kernel++) {
        own.kernel = even.kernel = kernel;
        compare(&own, picture, found);
        compare(&even, picture, found);
        if (even.depth == DEEPEST)
            put_in_table(kernel, found);
    }
}

static void load(const char *path)
{
    FILE *from = fopen(path, "rb");
    if (from == NULL || fread(document, 1, MOST_DOCUMENT, from) == 0 || fclose(from) != 0) {
        fprintf(stderr, "%s can't be read\n", path);
        exit(1);
    }
}

/* What must hold of a line of the table. */
static void demand_of(const char *line, const char *what, int passed)
{
    if (!passed)
        fprintf(stderr, "%s: %s\n", what, line);
    tally.passed += (uint64_t)passed;
    tally.failed += (uint64_t)!passed;
}

/* Prints a line of the table, which must be a line of the document. */
static void show(const char *line)
{
    char whole[MOST_LINE + 2]; /* with both newlines */
    snprintf(whole, sizeof whole, "\n%s\n", line);
    puts(line);
    demand_of(line, "the document does not have the line", strstr(document, whole) != NULL);
}

static void show_table(void)
{
    char line[MOST_LINE];
    printf("%" PRIu64 " pictures at depth 6, a bin of %d at every level\n", pictures_in_table, BIN);
    show("| Kernel | Level | Open-loop: largest error seen | Open-loop: bound | Closed-loop: largest error seen | "
         "Closed-loop: bound |");
    show("|---|---|---|---|---|---|");
    for (int kernel = LEAST_KERNEL; kernel <= MOST_KERNEL; kernel++)
        for (int level = DEEPEST; level >= 0; level--) {
            const struct errors *open = &table[kernel][OPEN_LOOP], *closed = &table[kernel][CLOSED_LOOP];
            snprintf(line, sizeof line, "| %d | %d | %" PRId64 " | %u | %" PRId64 " | %u |", kernel, level,
                     open->largest[level], open->bound[level], closed->largest[level], closed->bound[level]);
            show(line);
            demand_of(line, "the closed-loop bound is not reached", closed->largest[level] == closed->bound[level]);
        }
}

int main(int words, char **word)
{
    if (words != 2) {
        fprintf(stderr, "usage: errors DOCUMENT\n");
        return 2;
    }
    load(word[1]);
    while (next_case()) {
        tally.number++;
        look_at_case();
    }
    show_table();
    return finish(&tally);
}
