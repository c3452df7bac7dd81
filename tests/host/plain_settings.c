/* Settings and what follows from them alone, in plain C, written from document 01, P1 and P5 of document 02 alone. */
#include "plain_steps.h"

enum { MOST_DEPTH = 6, LEAST_SIDE = 2, WHITEST = 255 };

/* Settings: level l has (C - 1) / 2^l + 1 columns; rows alike. */
int64_t plain_side(int64_t side, int64_t level)
{
    int64_t power = (int64_t)1 << level;
    return (side - 1) / power + 1;
}

int64_t plain_nodes(const lepsarvu_settings *s, int64_t level)
{
    return plain_side(s->columns, level) * plain_side(s->rows, level);
}

/* Settings: T is the number of nodes of levels 0 to N together. */
int64_t plain_total(const lepsarvu_settings *s)
{
    int64_t total = 0;
    for (int64_t level = 0; level <= s->depth; level++)
        total += plain_nodes(s, level);
    return total;
}

/* Settings: C and R are each 2 to 129. */
static int size_ok(int64_t columns, int64_t rows)
{
    return columns >= LEAST_SIDE && columns <= MOST_SIDE && rows >= LEAST_SIDE && rows <= MOST_SIDE;
}

/* Settings: 2^N divides a side less 1. N is 0 to 6. */
static int divides(int64_t depth, int64_t side)
{
    int64_t power = (int64_t)1 << depth;
    return (side - 1) % power == 0;
}

/* Refusals 1 (C or R is not 2 to 129), 13 (N is above 6), 14 (2^N does not divide C - 1) and 15 (2^N does not divide
 * R - 1), in this order. */
uint16_t plain_size_refusal(const lepsarvu_settings *s)
{
    if (!size_ok(s->columns, s->rows))
        return 1;
    if (s->depth > MOST_DEPTH)
        return 13;
    if (!divides(s->depth, s->columns))
        return 14;
    return divides(s->depth, s->rows) ? 0 : 15;
}

/* P5: black below white, both 0 to 255. */
int plain_greys_ok(const lepsarvu_settings *s)
{
    return s->black < s->white && s->white <= WHITEST;
}

/* The size's refusals, then 2 (k is not 3 to 6) and 19 (black and white break their rule). */
uint16_t plain_shape_refusal(const lepsarvu_settings *s)
{
    uint16_t refusal = plain_size_refusal(s);
    if (refusal != 0)
        return refusal;
    if (s->kernel < 3 || s->kernel > 6)
        return 2;
    return plain_greys_ok(s) ? 0 : 19;
}

/* Settings: a bin in use is 1 to 255. */
int plain_bin_ok(int64_t bin)
{
    return bin >= 1 && bin <= 255;
}

/* The shape's refusals, then 3 (slots 0 to N hold lawful bins, slots above N hold 0). */
uint16_t plain_settings_refusal(const lepsarvu_settings *s)
{
    uint16_t refusal = plain_shape_refusal(s);
    if (refusal != 0)
        return refusal;
    for (int64_t level = 0; level < SLOTS; level++)
        if (level <= s->depth ? !plain_bin_ok(s->bins[level]) : s->bins[level] != 0)
            return 3;
    return 0;
}

/* Bound (demand 3): at the top half its bin rounded down; below it the multiplier (100 hundredths, 196 for kernel 6)
 * times the bound above, rounded up, plus half the level's own bin rounded down. Slots above N get 0. */
uint16_t plain_level_bounds(const lepsarvu_settings *s, uint16_t bounds[7])
{
    uint16_t refusal = plain_settings_refusal(s);
    if (refusal != 0)
        return refusal;
    int64_t multiplier = s->kernel == 6 ? 196 : 100;
    int64_t bound = 0; /* nothing above the top: its bound is half its bin alone */
    for (int64_t level = SLOTS - 1; level >= 0; level--) {
        if (level <= s->depth)
            bound = (multiplier * bound + 99) / 100 + s->bins[level] / 2;
        bounds[level] = (uint16_t)bound;
    }
    return 0;
}

/* Deepest depth: the largest N of 0 to 6 that the size allows. Refusal 1 on size only. */
uint16_t plain_deepest_depth(uint16_t columns, uint16_t rows, uint16_t *depth)
{
    if (!size_ok(columns, rows))
        return 1;
    for (uint16_t n = 0; n <= MOST_DEPTH; n++)
        if (divides(n, columns) && divides(n, rows))
            *depth = n;
    return 0;
}

/* Settings: T, for lawful settings, and the settings' refusals. */
uint16_t plain_total_nodes(const lepsarvu_settings *s, uint16_t *nodes)
{
    uint16_t refusal = plain_settings_refusal(s);
    if (refusal == 0)
        *nodes = (uint16_t)plain_total(s);
    return refusal;
}
