/* Every set of the rules of settings, buffers and their contents, broken in a call of each function: sets [SEED]
 * The first of the set in the order of the function must be the answer. What is expected comes from the set itself, and
 * no other implementation is asked. Files of both forms, by hand too, are in forms.c. */
#include "sets.h"

#include <stdlib.h>
#include <string.h>

#include "guarded.h"

enum { TIMES = 12, PIXEL_TIMES = 2400, PIXELS = 15, NODES = 21, FILE_BYTES = 78, WAYS = 6 };

struct seeded draw;
struct tally tally;

static const uint16_t REFUSAL[RULES] = {1, 13, 14, 15, 2, 19, 3, 4, 5, 6, 7, 8, 21, 11, 20};

/* Three by five: the level above has six nodes. */
static const lepsarvu_settings LAWFUL = {3, 5, 1, 4, 16, 235, {10, 4, 0, 0, 0, 0, 0}};

/* The rules that a function knows. */
static const unsigned KNOWN[FUNCTIONS] = {
    [CODING] = SETTINGS_RULES | 1 << PICTURE_5 | 1 << LEVELS_6 | 1 << WORK_7 | 1 << PIXEL_20,
    [CLOSED_LOOP_CODING] = SETTINGS_RULES | 1 << PICTURE_5 | 1 << LEVELS_6 | 1 << WORK_7 | 1 << PIXEL_20,
    [REBUILDING] = SETTINGS_RULES | 1 << PICTURE_5 | 1 << LEVELS_6 | 1 << WORK_7 | 1 << INDEX_11,
    [REBUILD_PIXEL] = SETTINGS_RULES | 1 << LEVELS_6 | 1 << OUTSIDE_21 | 1 << INDEX_11,
    [LEVEL_BOUNDS] = SETTINGS_RULES,
    [CLOSED_LOOP_BOUNDS] = SETTINGS_RULES,
    [TOTAL_NODES] = SETTINGS_RULES,
    [FILE_SIZE] = SETTINGS_RULES,
    [WRITE_FILE] = SETTINGS_RULES | 1 << NOTE_4 | 1 << LEVELS_6 | 1 << FILE_8 | 1 << INDEX_11,
};

uint16_t first_of(unsigned set)
{
    for (int rule = 0; rule < RULES; rule++)
        if (breaks(set, (enum rule)rule))
            return REFUSAL[rule];
    return 0;
}

/* A side outside of 2 to 129 or not, one less than which is divisible by 2 or not. */
static uint16_t draw_side(uint16_t lawful, int outside, int odd)
{
    static const uint16_t ODD[] = {2, 4, 6, 10, 66, 128}, OUTSIDE[] = {1, 131, 133, 257, 513, 65535},
                          BOTH[] = {0, 130, 132, 256, 512, 65534};
    const uint16_t *from = !outside ? ODD : odd ? BOTH : OUTSIDE;
    return outside || odd ? from[below(&draw, WAYS)] : lawful;
}

lepsarvu_settings broken(lepsarvu_settings s, unsigned set)
{
    static const uint16_t DEPTHS[WAYS] = {7, 8, 16, 256, 257, 65535}, KERNELS[WAYS] = {0, 2, 7, 259, 260, 65535};
    static const uint16_t GREYS[WAYS][2] = {{16, 16}, {235, 16}, {16, 256}, {0, 0}, {255, 255}, {65535, 235}};
    static const uint16_t BINS[WAYS][2] = {{0, 0}, {1, 0}, {0, 256}, {1, 65535}, {2, 1}, {6, 255}}; /* slot, bin */
    int outside = breaks(set, SIZE_1) ? 1 + (int)below(&draw, 3) : 0; /* columns, rows or both */
    const uint16_t *bin = BINS[below(&draw, WAYS)], *greys = GREYS[below(&draw, WAYS)];
    s.columns = draw_side(s.columns, outside & 1, breaks(set, COLUMNS_14));
    s.rows = draw_side(s.rows, outside & 2, breaks(set, ROWS_15));
    if (breaks(set, DEPTH_13))
        s.depth = DEPTHS[below(&draw, WAYS)];
    if (breaks(set, KERNEL_2))
        s.kernel = KERNELS[below(&draw, WAYS)];
    if (breaks(set, GREYS_19)) {
        s.black = greys[0];
        s.white = greys[1];
    }
    if (breaks(set, BIN_3))
        s.bins[bin[0]] = bin[1];
    return s;
}

/* Lawful readings, or one that is not. */
static lepsarvu_note draw_broken_note(int is_broken)
{
    static const lepsarvu_reading BAD[] = {{0, 1}, {1, 0x42C80001}, {1, 0x80000000}, {2, 0},   {2, 256},
                                           {3, 0}, {255, 0},        {256, 0},        {257, 0}, {0x80000002, 5}};
    lepsarvu_note it = {{LEPSARVU_PERCENTAGE, 0x40D00000}, {LEPSARVU_FAULT, 255}};
    if (is_broken)
        *(once_in(&draw, 2) ? &it.before_drier : &it.at_press) = BAD[below(&draw, sizeof BAD / sizeof *BAD)];
    return it;
}

/* A length that is exactly right, or one that is not, or is too short. */
static size_t exactly(int is_broken, size_t right)
{
    const size_t wrong[] = {right - 1, right + 1, 0, right / 2, right + 8};
    return is_broken ? wrong[below(&draw, 5)] : right;
}

static size_t at_least(int is_broken, size_t right)
{
    return is_broken ? exactly(1, right) % right : right + below(&draw, 3);
}

/* The first, the last or another. */
static size_t draw_place(size_t many)
{
    const size_t place[] = {0, many - 1, below(&draw, (uint32_t)many)};
    return place[below(&draw, 3)];
}

static void provide_picture(unsigned set)
{
    static const uint8_t OUTSIDE[] = {0, 15, 236, 255};
    uint8_t *pixels = job.held[PICTURE];
    provide(&draw, PICTURE, exactly(breaks(set, PICTURE_5), PIXELS));
    for (size_t at = 0; at < elements(PICTURE); at++)
        pixels[at] = (uint8_t)(16 + below(&draw, 220));
    if (breaks(set, PIXEL_20) && elements(PICTURE) > 0)
        pixels[draw_place(elements(PICTURE))] = OUTSIDE[below(&draw, 4)];
}

/* The first six indices have a bin of 4, the others one of 10. */
static void provide_levels(unsigned set)
{
    int16_t *indices = (void *)job.held[LEVELS];
    provide(&draw, LEVELS, exactly(breaks(set, LEVELS_6), NODES));
    for (size_t at = 0; at < elements(LEVELS); at++) {
        int most = at < 6 ? 1024 : 409;
        indices[at] = (int16_t)(once_in(&draw, 2) ? most : -most);
    }
    if (breaks(set, INDEX_11) && elements(LEVELS) > 0) {
        size_t at = draw_place(elements(LEVELS));
        indices[at] = (int16_t)(indices[at] + (indices[at] > 0 ? 1 : -1));
    }
}

/* A pixel of the picture, or one that is beyond its columns, its rows or both. */
static void provide_place(unsigned set)
{
    static const uint16_t BEYOND[2][WAYS] = {{3, 4, 5, 256, 259, 65535}, {5, 6, 15, 256, 260, 65535}};
    uint16_t column = (uint16_t)below(&draw, 3), row = (uint16_t)below(&draw, 5);
    uint32_t outside = breaks(set, OUTSIDE_21) ? 1 + below(&draw, 3) : 0;
    ask_pixel(&draw, outside & 1 ? BEYOND[0][below(&draw, WAYS)] : column,
              outside & 2 ? BEYOND[1][below(&draw, WAYS)] : row);
}

/* Whether a pixel's windows have a node: of the first six, which are two by three, they have both columns of two or
 * three rows, and of the others the pixel itself. Of a pixel outside, all indices count. */
static int is_read(size_t node)
{
    static const size_t ROWS_ABOVE[5][2] = {{0, 1}, {0, 1}, {0, 2}, {1, 2}, {1, 2}};
    if (job.column >= 3 || job.row >= 5)
        return 1;
    const size_t *rows = ROWS_ABOVE[job.row];
    return node < 6 ? rows[0] <= node / 2 && node / 2 <= rows[1] : node - 6 == (size_t)job.row * 3 + job.column;
}

/* The same for one pixel: all indices that are read are lawful, or one of them is not, or none; the others never. */
static void provide_read_levels(unsigned set)
{
    int16_t *indices = (void *)job.held[LEVELS];
    int all = once_in(&draw, 2);
    size_t one = below(&draw, NODES);
    while (!is_read(one))
        one = below(&draw, NODES);
    provide_levels(set & ~(1u << INDEX_11));
    for (size_t at = 0; at < elements(LEVELS); at++) {
        int is_broken = !is_read(at) || (breaks(set, INDEX_11) && (all || at == one));
        if (is_broken)
            indices[at] = (int16_t)(once_in(&draw, 3) ? -32768 : indices[at] + (indices[at] > 0 ? 1 : -1));
    }
}

void expect(enum function function, uint16_t expected)
{
    tally.number++;
    int passed = call_between_guards(function, &draw) && job.answer == expected;
    if (!passed && tally.failed < SHOWN_FAILURES)
        fprintf(stderr, "case %" PRIu64 ": %s should answer %u\n", tally.number, FUNCTION_NAMES[function], expected);
    count(&tally, function, job.answer, passed);
}

static void break_set(enum function function, unsigned set)
{
    provide_settings(&draw, broken(LAWFUL, set));
    provide_note(draw_broken_note(breaks(set, NOTE_4)));
    provide_picture(set);
    provide_place(set);
    if (function == REBUILD_PIXEL)
        provide_read_levels(set);
    else
        provide_levels(set);
    provide(&draw, WORK, at_least(breaks(set, WORK_7), NODES));
    provide(&draw, FILE_PART, at_least(breaks(set, FILE_8), FILE_BYTES));
    expect(function, first_of(set));
}

/* All subsets of what a function knows, the empty one last. Of one pixel those with lawful settings are broken in more
 * ways, so that every index is unlawful for every pixel. */
static void break_sets(enum function function)
{
    unsigned known = KNOWN[function], set = known;
    for (;; set = (set - 1) & known) {
        int is_pixel = function == REBUILD_PIXEL && (set & SETTINGS_RULES) == 0;
        for (int times = is_pixel ? PIXEL_TIMES : TIMES; times > 0; times--)
            break_set(function, set);
        if (set == 0)
            return;
    }
}

int main(int words, char **word)
{
    draw.state = words > 1 ? strtoull(word[1], NULL, 10) : 1983;
    for (int function = 0; function < FUNCTIONS; function++)
        if (KNOWN[function] != 0)
            break_sets((enum function)function);
    all_forms();
    print_answers(&tally);
    return finish(&tally);
}
