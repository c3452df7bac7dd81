/* Every function on memory beside which nothing can be read: pages [SEED [SMALL [LARGE]]]
 * Each thing that a call is lent, struct, buffer, small array or number, ends exactly where the forbidden part starts,
 * and in a second call starts exactly where it ends. A call that reads or writes there fails, and is named. What the
 * calls answer and leave is compared with plain C, which works elsewhere. */
#define _GNU_SOURCE /* for mmap and sigaction */
#include "pages.h"

enum { SMALL_CASES = 20000, LARGE_CASES = 400, SMALL_SIDE = 9, LARGE_SIDE = 129 };

static struct seeded draw;
static struct tally tally;

/* The implementation that is tried. */
static const struct pyramid_calls *tried_pyramid = &library_pyramid;
static const struct file_calls *tried_file = &library_file;
static const struct pgm_calls *tried_pgm = &library_pgm;

/* What plain C answers and leaves. */
static _Alignas(16) unsigned char expected[THINGS][MOST_LENT];
static uint16_t expected_answer;

static void expect(enum function function)
{
    job.pyramid = &plain_pyramid;
    job.file = &plain_file;
    job.pgm = &plain_pgm;
    for (enum thing thing = 0; thing < THINGS; thing++)
        job.at[thing] = memcpy(expected[thing], job.held[thing], job.bytes[thing]);
    JOB_CALLS[function]();
    expected_answer = job.answer;
    job.pyramid = tried_pyramid;
    job.file = tried_file;
    job.pgm = tried_pgm;
}

static int as_expected(enum function function, enum place place)
{
    int all = job.answer == expected_answer;
    for (enum thing thing = 0; thing < THINGS; thing++)
        if (is_lent(function, thing))
            all &= memcmp(job.at[thing], expected[thing], job.bytes[thing]) == 0 && guard_kept(thing, place);
    return all;
}

static void try_at(enum function function, enum place place)
{
    for (enum thing thing = 0; thing < THINGS; thing++)
        lay_at(thing, place);
    int fault = faults(JOB_CALLS[function]);
    if (fault && tally.failed < SHOWN_FAILURES)
        fprintf(stderr, "case %" PRIu64 ": %s goes outside of %s, where %s\n", tally.number, FUNCTION_NAMES[function],
                fault_name(), PLACE_NAMES[place]);
    count(&tally, function, expected_answer, !fault && as_expected(function, place));
}

static void try_both(enum function function)
{
    expect(function);
    try_at(function, AT_END);
    try_at(function, AT_START);
    for (enum thing thing = 0; thing < THINGS; thing++)
        job.at[thing] = expected[thing];
    job.answer = expected_answer;
    hold_again(function);
}

static void drawn_cases(uint64_t cases, uint32_t most_side)
{
    for (; cases > 0; cases--) {
        tally.number++;
        drawn_case(&draw, most_side, try_both);
    }
}

static void try_lawful(lepsarvu_settings s)
{
    tally.number++;
    lawful_case(&draw, s, try_both);
}

/* The largest and the smallest, with every kernel. */
static void lawful_cases(void)
{
    for (uint16_t kernel = 3; kernel <= 6; kernel++) {
        try_lawful((lepsarvu_settings){129, 129, 6, kernel, 16, 235, {12, 8, 6, 4, 3, 2, 1}});
        try_lawful((lepsarvu_settings){2, 2, 0, kernel, 0, 255, {1}});
    }
}

/* Self-check: what the program must see. */

static struct {
    volatile unsigned char *at;
    int is_write;
} touched;

static void touch(void)
{
    unsigned char byte = *touched.at;
    if (touched.is_write)
        *touched.at = byte;
}

static void demand(const char *what, int passed)
{
    if (!passed)
        fprintf(stderr, "self-check: %s\n", what);
    tally.passed += (uint64_t)passed;
    tally.failed += (uint64_t)!passed;
}

/* The first and the last byte of every thing can be read and written, those beside the forbidden part can't. */
static void check_rooms(enum place place)
{
    for (enum thing thing = 0; thing < THINGS; thing++)
        for (touched.is_write = 0; touched.is_write < 2; touched.is_write++) {
            lay_at(thing, place);
            unsigned char *first = job.at[thing], *after = first + job.bytes[thing];
            touched.at = first;
            demand("the first byte can't be touched", !faults(touch));
            touched.at = after - 1;
            demand("the last byte can't be touched", !faults(touch));
            touched.at = place == AT_END ? after : first - 1;
            demand("a byte outside was touched", faults(touch) && strcmp(fault_name(), THING_NAMES[thing]) == 0);
        }
}

/* Plain C with one fault: it reads a byte past the bins, which are the last of the settings. */
static uint16_t over_reading(const lepsarvu_settings *s, uint16_t bounds[7])
{
    const unsigned char *bytes = (const void *)s;
    volatile unsigned char read = bytes[sizeof *s];
    (void)read;
    return plain_pyramid.level_bounds(s, bounds);
}

/* The same: it reads a byte before the note. */
static uint16_t under_reading(const lepsarvu_settings *s, const lepsarvu_note *note, const int16_t *levels,
                              size_t levels_length, uint8_t *file, size_t file_length, size_t *size)
{
    const unsigned char *bytes = (const void *)note;
    volatile unsigned char read = *(bytes - 1);
    (void)read;
    return plain_file.write_file(s, note, levels, levels_length, file, file_length, size);
}

/* The same: it looks for a digit after a file that ends in one. */
static uint16_t over_checking(const uint8_t *file, size_t file_length, uint16_t *columns, uint16_t *rows)
{
    volatile uint8_t read = file[file_length];
    (void)read;
    return plain_pgm.check_pgm(file, file_length, columns, rows);
}

/* A function that reads past one end of a thing fails at one place, and does not at the other, where more follows. */
static int is_seen(enum function function, enum thing thing)
{
    struct tally before = tally;
    tally.failed = SHOWN_FAILURES; /* so that it is not shown */
    try_both(function);
    int seen = tally.failed == SHOWN_FAILURES + 1 && tally.passed == before.passed + 1 &&
               strcmp(fault_name(), THING_NAMES[thing]) == 0;
    tally = before;
    return seen;
}

static void check_faulty(void)
{
    static const char CUT[] = "P5 13 1";
    struct pyramid_calls faulty = plain_pyramid;
    struct file_calls faulty_file = plain_file;
    struct pgm_calls faulty_pgm = plain_pgm;
    faulty.level_bounds = over_reading;
    faulty_file.write_file = under_reading;
    faulty_pgm.check_pgm = over_checking;
    tried_pyramid = &faulty;
    tried_file = &faulty_file;
    tried_pgm = &faulty_pgm;
    demand("a read past the bins was not seen", is_seen(LEVEL_BOUNDS, SETTINGS));
    demand("a read before the note was not seen", is_seen(WRITE_FILE, NOTE));
    provide_copy(FILE_PART, CUT, sizeof CUT - 1);
    demand("a read past a PGM file was not seen", is_seen(CHECK_PGM, FILE_PART));
    tried_pyramid = &library_pyramid;
    tried_file = &library_file;
    tried_pgm = &library_pgm;
}

static void check_oneself(void)
{
    provide_settings(&draw, (lepsarvu_settings){3, 3, 1, 4, 0, 255, {10, 4, 0, 0, 0, 0, 0}});
    for (enum thing thing = PICTURE; thing <= FILE_PART; thing++)
        provide(&draw, thing, 13);
    check_rooms(AT_END);
    check_rooms(AT_START);
    check_faulty();
}

int main(int words, char **word)
{
    draw.state = words > 1 ? strtoull(word[1], NULL, 10) : 1983;
    uint64_t small = words > 2 ? strtoull(word[2], NULL, 10) : SMALL_CASES;
    uint64_t large = words > 3 ? strtoull(word[3], NULL, 10) : LARGE_CASES;
    make_rooms();
    catch_faults();
    check_oneself();
    lawful_cases();
    drawn_cases(small, SMALL_SIDE);
    drawn_cases(large, LARGE_SIDE);
    print_answers(&tally);
    demand_answers(&tally);
    return finish(&tally);
}
