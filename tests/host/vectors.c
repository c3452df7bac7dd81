/* Holds the library to the answers of the Python reference, on standard input:
 * vectors pyramid|closed|levels|files|pyramid_greys|closed_greys|levels_greys|files_greys|pixels|calls|pgm
 * tests/reference/README.md gives the formats. */
#include "guarded.h"
#include "vectors.h"

struct seeded draw = {1983};
struct tally tally;

int call(enum function function)
{
    return call_between_guards(function, &draw);
}

int holds(enum thing thing, const void *expected, size_t bytes)
{
    return memcmp(job.held[thing], expected, bytes) == 0;
}

/* Whether what a call left is what the vectors say next, in numbers of so many bytes. */
static int holds_indices(size_t many)
{
    const int16_t *found = (const void *)job.held[LEVELS];
    int same = 1;
    for (size_t place = 0; place < many; place++)
        same &= found[place] == (int16_t)(uint16_t)take_number(2);
    return same;
}

/* Of the work buffer: averages, and what a closed-loop coding left, have two bytes, other rebuilt values four. */
static int holds_work(size_t many, int bytes)
{
    const int32_t *found = (const void *)job.held[WORK];
    int same = 1;
    for (size_t place = 0; place < many; place++) {
        uint32_t number = take_number(bytes);
        same &= found[place] == (bytes == 2 ? (int16_t)(uint16_t)number : (int32_t)number);
    }
    return same;
}

static int holds_bounds(void)
{
    const uint16_t *found = (const void *)job.held[BOUNDS];
    int same = 1;
    for (int level = job.s.depth; level >= 0; level--)
        same &= found[level] == take_number(2);
    for (int level = job.s.depth + 1; level < LEPSARVU_SLOTS; level++)
        same &= found[level] == 0;
    return same;
}

static int holds_number(uint16_t expected)
{
    return holds(NUMBER, &expected, sizeof expected);
}

/* Rebuilds from the levels in place; the vectors' answer is the next number, or 0 if none is given. */
static void rebuild_case(int given)
{
    size_t nodes = nodes_of(&job.s), pixels = pixels_of(&job.s);
    provide(&draw, PICTURE, pixels);
    provide(&draw, WORK, nodes);
    int passed = call(REBUILDING);
    uint16_t expected = given ? (uint16_t)take_number(2) : 0;
    passed &= job.answer == expected;
    if (expected == 0) {
        passed &= holds_work(nodes, 4);
        passed &= holds(PICTURE, take(pixels), pixels);
    }
    count(&tally, REBUILDING, job.answer, passed);
}

static void pyramid_case(void)
{
    provide_settings(&draw, take_settings());
    size_t nodes = nodes_of(&job.s), pixels = pixels_of(&job.s);
    int passed = call(TOTAL_NODES);
    count(&tally, TOTAL_NODES, job.answer, passed && job.answer == 0 && holds_number((uint16_t)nodes));
    provide_copy(PICTURE, take(pixels), pixels);
    provide(&draw, LEVELS, nodes);
    provide(&draw, WORK, nodes);
    passed = call(CODING) && job.answer == 0;
    passed &= holds_indices(nodes);
    passed &= holds_work(nodes, 2);
    count(&tally, CODING, job.answer, passed);
    rebuild_case(0);
    passed = call(LEVEL_BOUNDS) && job.answer == 0;
    passed &= holds_bounds();
    count(&tally, LEVEL_BOUNDS, job.answer, passed);
}

/* The rebuilding of what was coded leaves what the coder left, and the next picture. */
static void rebuild_closed(size_t nodes, size_t pixels)
{
    static int32_t left[LEPSARVU_MOST_NODES];
    memcpy(left, job.held[WORK], nodes * sizeof *left);
    provide(&draw, PICTURE, pixels);
    provide(&draw, WORK, nodes);
    int passed = call(REBUILDING) && job.answer == 0 && holds(WORK, left, nodes * sizeof *left);
    const uint8_t *shown = take(pixels);
    count(&tally, REBUILDING, job.answer, passed && holds(PICTURE, shown, pixels));
}

static void closed_case(void)
{
    provide_settings(&draw, take_settings());
    size_t nodes = nodes_of(&job.s), pixels = pixels_of(&job.s);
    provide_copy(PICTURE, take(pixels), pixels);
    provide(&draw, LEVELS, nodes);
    provide(&draw, WORK, nodes);
    int passed = call(CLOSED_LOOP_CODING) && job.answer == 0;
    passed &= holds_indices(nodes);
    passed &= holds_work(nodes, 2);
    count(&tally, CLOSED_LOOP_CODING, job.answer, passed);
    rebuild_closed(nodes, pixels);
    passed = call(CLOSED_LOOP_BOUNDS) && job.answer == 0;
    passed &= holds_bounds();
    count(&tally, CLOSED_LOOP_BOUNDS, job.answer, passed);
}

void take_levels(void)
{
    provide(&draw, LEVELS, nodes_of(&job.s));
    int16_t *indices = (void *)job.held[LEVELS];
    for (size_t place = 0; place < nodes_of(&job.s); place++)
        indices[place] = (int16_t)(uint16_t)take_number(2);
}

static void levels_case(void)
{
    provide_settings(&draw, take_settings());
    take_levels();
    rebuild_case(1);
}

/* Whether an accepted reader left this; what a refused one left was compared with what there was before. */
static int holds_filled(const struct filled *is)
{
    return job.answer != 0 || (holds(READ_SETTINGS, &is->settings, sizeof is->settings) &&
                               holds(READ_NOTE, &is->note, sizeof is->note));
}

/* Reads with a level buffer of some length; the vectors' indices, if any are due, are the next ones. */
static void read_with(size_t many, uint16_t expected, const struct filled *is)
{
    provide(&draw, LEVELS, many);
    int passed = call(READ_FILE) && job.answer == expected && holds_filled(is);
    if (expected == 0)
        passed &= holds_indices(many);
    count(&tally, READ_FILE, job.answer, passed);
}

/* Writing what was read gives the file again. */
static void write_again(const struct filled *it, const uint8_t *file, size_t length)
{
    provide_settings(&draw, it->settings);
    provide_note(it->note);
    provide(&draw, FILE_PART, length);
    int passed = call(WRITE_FILE) && job.answer == 0 && holds(SIZE, &length, sizeof length);
    count(&tally, WRITE_FILE, job.answer, passed && holds(FILE_PART, file, length));
}

static void files_case(void)
{
    static const lepsarvu_settings NONE;
    struct filled is = {NONE, {{0, 0}, {0, 0}}};
    uint16_t expected = (uint16_t)take_number(2);
    size_t nodes = take_number(2), length = take_number(4);
    const uint8_t *file = take(length);
    if (expected == 0) {
        is.settings = take_settings();
        is.note = take_note();
    }
    provide_settings(&draw, NONE);
    provide_copy(FILE_PART, file, length);
    int passed = call(CHECK_FILE) && job.answer == expected && holds_filled(&is);
    count(&tally, CHECK_FILE, job.answer, passed);
    provide_settings(&draw, NONE);
    read_with(nodes + 1, nodes != 0 ? 6 : expected, &is);
    read_with(nodes, expected, &is);
    if (expected == 0)
        write_again(&is, file, length);
}

int main(int words, char **word)
{
    static const struct {
        const char *kind;
        int with_greys;
        void (*check)(void);
    } KINDS[] = {
        {"pyramid", 0, pyramid_case}, {"pyramid_greys", 1, pyramid_case}, {"closed", 0, closed_case},
        {"closed_greys", 1, closed_case}, {"levels", 0, levels_case}, {"levels_greys", 1, levels_case},
        {"files", 0, files_case}, {"files_greys", 1, files_case}, {"pixels", 1, pixels_case}, {"calls", 1, calls_case},
        {"pgm", 0, pgm_case},
    };
    for (size_t at = 0; words == 2 && at < sizeof KINDS / sizeof *KINDS; at++)
        if (strcmp(word[1], KINDS[at].kind) == 0) {
            with_greys = KINDS[at].with_greys;
            while (next_case()) {
                tally.number++;
                KINDS[at].check();
            }
            printf("%s: %" PRIu64 " cases\n", word[1], tally.number);
            print_answers(&tally);
            return finish(&tally);
        }
    fprintf(stderr, "usage: vectors pyramid|closed|levels|files, each with _greys too, pixels, calls or pgm\n");
    return 2;
}
