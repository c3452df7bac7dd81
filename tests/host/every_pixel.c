/* Every pixel of small pictures at every depth, with every kernel, and pixels of large ones, with every index that lies
 * outside of the windows, and each that lies inside, made one that a rebuilding would refuse. */
#include "compare.h"

enum { KINDS = 4, GREY = 2, SMALL_SIDE = 9, DRAWN = 6, DEPTHS = LEPSARVU_SLOTS };

/* Large pictures; the levels above have two columns or rows in some, the top of the deepest ones three of them. */
static const uint16_t SHAPES[][3] = {
    {129, 129, 6}, {129, 129, 5}, {129, 129, 4}, {129, 129, 3}, {129, 129, 2}, {129, 129, 1}, {129, 129, 0},
    {65, 65, 6},   {65, 129, 6},  {129, 65, 6},  {33, 97, 5},   {97, 33, 5},   {97, 97, 5},   {17, 113, 4},
    {9, 129, 3},   {5, 129, 2},   {129, 5, 2},   {3, 129, 1},   {129, 3, 1},   {2, 129, 0},   {129, 2, 0},
};

/* The most indices that a pixel of 129 by 129 takes at each depth, by hand: column and row 66 have windows of 1, 3, 4,
 * 4, 4 and 4 of a level's columns and rows, and the level above has no more than three. */
static const uint16_t MOST_READ[DEPTHS] = {1, 10, 26, 42, 58, 74, 83};
static const struct place WIDEST = {66, 66};

/* The indices of the picture at hand, as they are and with some made unlawful, and the picture. */
static int16_t lawful[LEPSARVU_MOST_NODES], spoiled[LEPSARVU_MOST_NODES], marks[LEPSARVU_MOST_NODES];
static uint8_t picture[LEPSARVU_MOST_PIXELS];
static int32_t work[LEPSARVU_MOST_NODES];

static void demand(struct run *run, const char *what, uint16_t answer, int passed)
{
    if (!passed && run->tally.failed < SHOWN_FAILURES)
        fprintf(stderr, "case %" PRIu64 ": %s\n", run->tally.number, what);
    count(&run->tally, REBUILD_PIXEL, answer, passed);
}

/* Lawful indices: any, extreme ones, a grey at the top with small differences below it, or 1 and 0. */
static int16_t draw_lawful_index(struct seeded *draw, int kind, int64_t bin, int is_top)
{
    int64_t most = MOST_VALUE / bin, any = (int64_t)below(draw, (uint32_t)(2 * most + 1)) - most;
    int64_t grey = is_top ? below(draw, 256) / bin : ((int64_t)below(draw, 41) - 20) / bin;
    const int64_t index[KINDS] = {any, any < 0 ? -most : most, grey, once_in(draw, 2)};
    return (int16_t)index[kind];
}

static void rebuild(struct run *run, const lepsarvu_settings *s, int kind)
{
    size_t nodes = nodes_of(s), top = (size_t)plain_nodes(s, s->depth);
    run->tally.number++;
    for (size_t node = 0; node < nodes; node++)
        lawful[node] = draw_lawful_index(&run->draw, kind, bin_of(s, node), node < top);
    uint16_t answer = library_pyramid.rebuilding(s, lawful, nodes, picture, pixels_of(s), work, nodes);
    demand(run, "lawful indices are refused", answer, answer == 0);
}

/* The library alone: every pixel is the one of the picture, and the count is that of the windows. */
static void every_shown(struct run *run, const lepsarvu_settings *s)
{
    struct place at;
    size_t nodes = nodes_of(s), pixel = 0;
    for (at.row = 0; at.row < s->rows; at.row++)
        for (at.column = 0; at.column < s->columns; at.column++) {
            uint8_t shown = (uint8_t)~picture[pixel];
            uint16_t read = 0;
            uint16_t answer = library_pyramid.rebuild_pixel(s, lawful, nodes, at.column, at.row, &shown, &read);
            int passed = answer == 0 && shown == picture[pixel] && read == plain_count_windows(s, at.column, at.row);
            demand(run, "a pixel is not the picture's", answer, passed);
            pixel++;
        }
}

/* All that lies outside of the windows is unlawful: the pixel is the same. */
static void outside_unlawful(struct run *run, const lepsarvu_settings *s, const struct place *at)
{
    memcpy(spoiled, lawful, sizeof spoiled);
    spoil_outside(&run->draw, s, at, spoiled);
    uint16_t answer = compare_pixel(run, s, spoiled, nodes_of(s), at);
    demand(run, "an index outside the windows is looked at", answer, answer == 0);
}

/* Each index by itself is unlawful; one inside the windows is 11, one outside, if it is tried, is not looked at. */
static void each_unlawful(struct run *run, const lepsarvu_settings *s, const struct place *at, int with_outside)
{
    mark_windows(s, at, marks);
    memcpy(spoiled, lawful, sizeof spoiled);
    for (size_t node = 0; node < nodes_of(s); node++) {
        if (!marks[node] && !with_outside)
            continue;
        spoiled[node] = draw_unlawful(&run->draw, bin_of(s, node));
        uint16_t answer = compare_pixel(run, s, spoiled, nodes_of(s), at);
        demand(run, "an index is unlawful", answer, answer == (marks[node] ? 11 : 0));
        spoiled[node] = lawful[node];
    }
}

/* All indices are unlawful: a pixel outside is still 21, one inside 11. */
static void all_unlawful(struct run *run, const lepsarvu_settings *s, const struct place *at, uint16_t due)
{
    for (size_t node = 0; node < nodes_of(s); node++)
        spoiled[node] = draw_unlawful(&run->draw, bin_of(s, node));
    uint16_t answer = compare_pixel(run, s, spoiled, nodes_of(s), at);
    demand(run, "all indices are unlawful", answer, answer == (due == 21 ? 21 : 11));
}

/* Every pixel, and those around the picture; of one of the kinds each unlawful index too. */
static void every_pixel_of(struct run *run, const lepsarvu_settings *s, int kind, int with_each)
{
    struct place at;
    rebuild(run, s, kind);
    every_shown(run, s);
    for (at.row = 0; at.row <= s->rows; at.row++)
        for (at.column = 0; at.column <= s->columns; at.column++) {
            uint16_t due = at.row < s->rows && at.column < s->columns ? 0 : 21;
            uint16_t answer = compare_pixel(run, s, lawful, nodes_of(s), &at);
            demand(run, "a pixel is inside or not", answer, answer == due);
            all_unlawful(run, s, &at, due);
            if (due == 0) {
                outside_unlawful(run, s, &at);
                if (with_each)
                    each_unlawful(run, s, &at, 1);
            }
        }
}

static lepsarvu_settings settings_of(struct run *run, const uint16_t shape[3], uint16_t kernel)
{
    lepsarvu_settings s = draw_for_size(&run->draw, shape[0], shape[1], 255);
    s.depth = shape[2];
    s.kernel = kernel;
    for (int slot = 0; slot < LEPSARVU_SLOTS; slot++)
        s.bins[slot] = (uint16_t)(slot > s.depth ? 0 : s.bins[slot] != 0 ? s.bins[slot] : 1 + below(&run->draw, 255));
    return s;
}

/* Corners, the middle, places beside the edges, and drawn ones. */
static void some_pixels_of(struct run *run, const lepsarvu_settings *s, int kind)
{
    const uint16_t c = s->columns, r = s->rows;
    const struct place at[] = {{0, 0},         {c - 1, 0}, {0, r - 1},     {c - 1, r - 1},
                               {c / 2, r / 2}, {1, r / 2}, {c / 2, r - 2}, {c - 2, 1}};
    rebuild(run, s, kind);
    every_shown(run, s);
    for (size_t which = 0; which < sizeof at / sizeof *at + DRAWN; which++) {
        struct place drawn = {draw_inside(&run->draw, c), draw_inside(&run->draw, r)};
        const struct place *one = which < DRAWN ? &drawn : &at[which - DRAWN];
        demand(run, "a pixel is refused", 0, compare_pixel(run, s, lawful, nodes_of(s), one) == 0);
        outside_unlawful(run, s, one);
        if (which < 2)
            each_unlawful(run, s, one, 0);
    }
}

/* Every depth that a size allows, every kernel, and indices of every kind by turns. */
static void small_pictures(struct run *run)
{
    uint16_t deepest, shape[3];
    int kind = 0;
    for (shape[0] = 2; shape[0] <= SMALL_SIDE; shape[0]++)
        for (shape[1] = 2; shape[1] <= SMALL_SIDE; shape[1]++) {
            plain_pyramid.deepest_depth(shape[0], shape[1], &deepest);
            for (shape[2] = 0; shape[2] <= deepest; shape[2]++)
                for (uint16_t kernel = 3; kernel <= 6; kernel++) {
                    lepsarvu_settings s = settings_of(run, shape, kernel);
                    every_pixel_of(run, &s, kind++ % KINDS, 0);
                    every_pixel_of(run, &s, GREY, shape[2] > 0 || kernel == 3);
                }
        }
}

static void large_pictures(struct run *run)
{
    for (size_t which = 0; which < sizeof SHAPES / sizeof *SHAPES; which++)
        for (uint16_t kernel = 3; kernel <= 6; kernel++) {
            lepsarvu_settings s = settings_of(run, SHAPES[which], kernel);
            some_pixels_of(run, &s, once_in(&run->draw, 2) ? GREY : (int)below(&run->draw, KINDS));
            if (s.columns == 129 && s.rows == 129)
                compare_pixel(run, &s, lawful, nodes_of(&s), &WIDEST);
        }
}

/* No more indices were read than by hand, and as many. */
void every_pixel(struct run *run)
{
    small_pictures(run);
    large_pictures(run);
    for (int depth = 0; depth < DEPTHS; depth++)
        demand(run, "the most indices that are read", 0, run->most_read[depth] == MOST_READ[depth]);
}
