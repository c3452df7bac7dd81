/* Compares the library with plain C over cases from a seed: compare [SEED [SMALL [LARGE]]]
 * A case is one draw of settings: every function is called on it, with lawful and unlawful buffers of its own. */
#include <stdlib.h>

#include "compare.h"

enum { SMALL_CASES = 1000000, LARGE_CASES = 6000, SMALL_SIDE = 9, LARGE_SIDE = 129, ALL_SIDES = 140 };

/* All functions but the readers. */
static void compare_calls(struct run *run, const lepsarvu_settings *s)
{
    enum manner last = once_in(&run->draw, 2) ? OPEN_LOOP : CLOSED_LOOP; /* what it coded is rebuilt and written */
    run->tally.number++;
    compare_deepest(run, s->columns, s->rows);
    compare_settings(run, s);
    compare_coding(run, s, last == OPEN_LOOP ? CLOSED_LOOP : OPEN_LOOP);
    compare_coding(run, s, last);
    compare_rebuilding(run, s);
    compare_drawn_pixel(run, s);
    compare_writing(run, s);
    compare_writing_pgm(run, s);
}

static void one_case(struct run *run)
{
    lepsarvu_settings s = draw_settings(&run->draw, run->most_side);
    compare_calls(run, &s);
    compare_reading(run);
    compare_reading_pgm(run);
}

static void many_cases(struct run *run, uint64_t cases, uint32_t most_side)
{
    run->most_side = most_side;
    for (uint64_t done = 0; done < cases; done++)
        one_case(run);
}

/* The deepest depth, and the bytes of a PGM file, of every size around the lawful ones. */
static void all_sizes(struct run *run)
{
    for (uint16_t columns = 0; columns < ALL_SIDES; columns++)
        for (uint16_t rows = 0; rows < ALL_SIDES; rows++) {
            compare_deepest(run, columns, rows);
            compare_pgm_size(run, columns, rows);
        }
}

/* A shape with lawful bins, so that only the shape may be refused; every pair of black and white of the list. */
static void one_shape(struct run *run, uint16_t columns, uint16_t rows, uint16_t depth, uint16_t kernel)
{
    static const uint16_t GREYS[][2] = {{0, 255}, {16, 235}, {235, 235}, {16, 256}};
    for (size_t which = 0; which < sizeof GREYS / sizeof *GREYS; which++) {
        lepsarvu_settings s = {columns, rows, depth, kernel, GREYS[which][0], GREYS[which][1], {0}};
        for (int slot = 0; slot < LEPSARVU_SLOTS && slot <= depth; slot++)
            s.bins[slot] = 1;
        compare_calls(run, &s);
        compare_reading_shape(run, &s);
    }
}

/* All functions on shapes that break every set of the shape's rules, and none. */
static void all_shapes(struct run *run)
{
    static const uint16_t SIDES[] = {0, 1, 2, 3, 4, 5, 9, 65, 128, 129, 130, 131, 257, 65535};
    static const uint16_t DEPTHS[] = {0, 1, 2, 6, 7, 8, 65535}, KERNELS[] = {2, 4, 7};
    run->most_side = SMALL_SIDE;
    for (size_t c = 0; c < sizeof SIDES / sizeof *SIDES; c++)
        for (size_t r = 0; r < sizeof SIDES / sizeof *SIDES; r++)
            for (size_t n = 0; n < sizeof DEPTHS / sizeof *DEPTHS; n++)
                for (size_t k = 0; k < sizeof KERNELS / sizeof *KERNELS; k++)
                    one_shape(run, SIDES[c], SIDES[r], DEPTHS[n], KERNELS[k]);
}

int main(int words, char **word)
{
    static struct run run;
    uint64_t seed = words > 1 ? strtoull(word[1], NULL, 10) : 1983;
    uint64_t small = words > 2 ? strtoull(word[2], NULL, 10) : SMALL_CASES;
    uint64_t large = words > 3 ? strtoull(word[3], NULL, 10) : LARGE_CASES;
    printf("seed %" PRIu64 ": %" PRIu64 " cases of sides to 9, %" PRIu64 " of sides to 129\n", seed, small, large);
    run.draw.state = seed;
    all_sizes(&run);
    all_shapes(&run);
    every_pgm(&run);
    every_set_pgm(&run);
    every_pixel(&run);
    many_cases(&run, small, SMALL_SIDE);
    many_cases(&run, large, LARGE_SIDE);
    print_answers(&run.tally);
    demand_answers(&run.tally);
    return finish(&run.tally);
}
