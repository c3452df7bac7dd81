/* The stack that a call takes: stack [SEED [SMALL [LARGE]]]
 * Every function is called on a painted stack, with the largest and the smallest settings and in cases from a seed,
 * accepted and refused. Counted are the frame of a small C function that makes the call, the arguments that it passes
 * on the stack, the return address, and all that the function, and memset or memmove, use below. */
#include "guarded.h"
#include "painted.h"

enum { SMALL_CASES = 5000, LARGE_CASES = 300, SMALL_SIDE = 9, LARGE_SIDE = 129, KNOWN = 3000, SLACK = 64 };

/* The most that a call of a function of closed-loop coding, of one pixel or of PGM files may take. */
enum { MOST_CLOSED_LOOP_CODING = 2432, MOST_CLOSED_LOOP_BOUNDS = 192, MOST_REBUILD_PIXEL = 1024 };
enum { MOST_PGM_SIZE = 128, MOST_WRITE_PGM = 256, MOST_READ_PGM = 512, MOST_CHECK_PGM = 512 };

/* The most that a call may take, and the least that the deepest one must have been seen to take: its arguments on the
 * stack, its return address, and the rows of 129 32-bit numbers that stand below each other. */
static const struct {
    size_t least, most;
} LIMITS[FUNCTIONS] = {
    [CODING] = {8 + 8 + 2 * 516, 2432}, [REBUILDING] = {8 + 8 + 516, 1024}, [LEVEL_BOUNDS] = {8, 192},
    [DEEPEST_DEPTH] = {8, 128},         [TOTAL_NODES] = {8, 128},           [FILE_SIZE] = {8, 128},
    [WRITE_FILE] = {8 + 8, 1280},       [READ_FILE] = {8, 1280},            [CHECK_FILE] = {8, 1280},
    [PGM_SIZE] = {8, MOST_PGM_SIZE},    [WRITE_PGM] = {8 + 8, MOST_WRITE_PGM}, [READ_PGM] = {8, MOST_READ_PGM},
    [CHECK_PGM] = {8, MOST_CHECK_PGM},  [CLOSED_LOOP_CODING] = {8 + 8 + 2 * 516, MOST_CLOSED_LOOP_CODING},
    [CLOSED_LOOP_BOUNDS] = {8, MOST_CLOSED_LOOP_BOUNDS}, [REBUILD_PIXEL] = {8 + 8, MOST_REBUILD_PIXEL},
};

static struct seeded draw;
static struct tally tally;
static size_t deepest[FUNCTIONS];

/* The same call twice, over two paints, takes the same; nothing of what it is lent lies on the painted stack. */
static void measure(enum function function)
{
    lay_between_guards(function, &draw);
    size_t first = bytes_taken(JOB_CALLS[function], PAINTS[0]), second = bytes_taken(JOB_CALLS[function], PAINTS[1]);
    deepest[function] = first > deepest[function] ? first : deepest[function];
    count(&tally, function, job.answer, first == second && kept_between_guards(function));
    hold_again(function);
}

static void measure_lawful(lepsarvu_settings s)
{
    tally.number++;
    lawful_case(&draw, s, measure);
}

/* The largest and the smallest, with every kernel; returns how many. */
static uint64_t lawful_cases(void)
{
    for (uint16_t kernel = 3; kernel <= 6; kernel++) {
        measure_lawful((lepsarvu_settings){129, 129, 6, kernel, 16, 235, {12, 8, 6, 4, 3, 2, 1}});
        measure_lawful((lepsarvu_settings){129, 129, 6, kernel, 0, 255, {255, 255, 255, 255, 255, 255, 255}});
        measure_lawful((lepsarvu_settings){2, 2, 0, kernel, 0, 255, {1}});
    }
    return tally.number;
}

static void drawn_cases(uint64_t cases, uint32_t most_side)
{
    for (; cases > 0; cases--) {
        tally.number++;
        drawn_case(&draw, most_side, measure);
    }
}

/* Takes so many bytes, whatever the library does. */
static void known_call(void)
{
    volatile unsigned char row[KNOWN];
    for (size_t at = 0; at < KNOWN; at++)
        row[at] = 0;
    row[0] = row[1];
}

static void demand(const char *what, size_t taken, size_t least, size_t most)
{
    int passed = least <= taken && taken <= most;
    printf("%-18s %5zu bytes of stack, %zu to %zu allowed%s\n", what, taken, least, most, passed ? "" : ": FAILED");
    tally.passed += (uint64_t)passed;
    tally.failed += (uint64_t)!passed;
}

/* The lawful cases were accepted. */
static void demand_accepted(uint64_t cases)
{
    for (int function = 0; function < FUNCTIONS; function++)
        if (tally.answers[function][0] != cases) {
            fprintf(stderr, "%s: a lawful case was refused\n", FUNCTION_NAMES[function]);
            tally.failed++;
        }
}

int main(int words, char **word)
{
    draw.state = words > 1 ? strtoull(word[1], NULL, 10) : 1983;
    uint64_t small = words > 2 ? strtoull(word[2], NULL, 10) : SMALL_CASES;
    uint64_t large = words > 3 ? strtoull(word[3], NULL, 10) : LARGE_CASES;
    demand_accepted(lawful_cases());
    drawn_cases(small, SMALL_SIDE);
    drawn_cases(large, LARGE_SIDE);
    print_answers(&tally);
    demand_answers(&tally);
    demand("known", bytes_taken(known_call, PAINTS[0]), KNOWN, KNOWN + SLACK);
    for (int function = 0; function < FUNCTIONS; function++)
        demand(FUNCTION_NAMES[function], deepest[function], LIMITS[function].least, LIMITS[function].most);
    return finish(&tally);
}
