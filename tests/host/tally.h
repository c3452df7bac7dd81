/* Counts of comparisons by function and answer, and of those that failed. */
#ifndef HOST_TALLY_H
#define HOST_TALLY_H

#include <inttypes.h>
#include <stdio.h>

enum function {
    CODING,
    CLOSED_LOOP_CODING,
    REBUILDING,
    REBUILD_PIXEL,
    LEVEL_BOUNDS,
    CLOSED_LOOP_BOUNDS,
    DEEPEST_DEPTH,
    TOTAL_NODES,
    FILE_SIZE,
    WRITE_FILE,
    READ_FILE,
    CHECK_FILE,
    PGM_SIZE,
    WRITE_PGM,
    READ_PGM,
    CHECK_PGM,
    FUNCTIONS
};

enum { ANSWERS = 22, SHOWN_FAILURES = 20 };

struct tally {
    uint64_t number; /* of the case at hand */
    uint64_t answers[FUNCTIONS][ANSWERS];
    uint64_t passed, failed;
};

static const char *const FUNCTION_NAMES[FUNCTIONS] = {
    "coding",       "closed_loop_coding", "rebuilding",    "rebuild_pixel",
    "level_bounds", "closed_loop_bounds", "deepest_depth", "total_nodes",
    "file_size",    "write_file",         "read_file",     "check_file",
    "pgm_size",     "write_pgm",          "read_pgm",      "check_pgm",
};

static inline void count(struct tally *it, enum function function, uint16_t answer, int passed)
{
    if (answer < ANSWERS)
        it->answers[function][answer]++;
    if (passed) {
        it->passed++;
        return;
    }
    if (it->failed++ < SHOWN_FAILURES)
        fprintf(stderr, "case %" PRIu64 ": %s differs, answer %u\n", it->number, FUNCTION_NAMES[function], answer);
}

/* One line for each function that was called: how often each answer was given. */
static inline void print_answers(const struct tally *it)
{
    for (int function = 0; function < FUNCTIONS; function++) {
        uint64_t total = 0;
        for (int answer = 0; answer < ANSWERS; answer++)
            total += it->answers[function][answer];
        if (total == 0)
            continue;
        printf("%-18s %9" PRIu64 " compared;", FUNCTION_NAMES[function], total);
        for (int answer = 0; answer < ANSWERS; answer++)
            if (it->answers[function][answer] != 0)
                printf(" %d: %" PRIu64, answer, it->answers[function][answer]);
        puts("");
    }
}

/* Sets of answers, a bit for each: acceptance and the settings' refusals; with them what both readers of a bale file
 * give; and what both readers of a PGM file give. */
#define BIT(answer) (1u << (answer))
#define OF_SETTINGS (BIT(0) | BIT(1) | BIT(13) | BIT(14) | BIT(15) | BIT(2) | BIT(19) | BIT(3))
#define OF_FILE (OF_SETTINGS | BIT(4) | BIT(9) | BIT(10) | BIT(11) | BIT(12))
#define OF_PGM (BIT(0) | BIT(16) | BIT(1) | BIT(17) | BIT(18))

/* Every answer that the header lists for a function must have been given, and no other. */
static inline void demand_answers(struct tally *it)
{
    static const uint32_t LISTED[FUNCTIONS] = {
        [CODING] = OF_SETTINGS | BIT(5) | BIT(6) | BIT(7) | BIT(20),
        [CLOSED_LOOP_CODING] = OF_SETTINGS | BIT(5) | BIT(6) | BIT(7) | BIT(20),
        [REBUILDING] = OF_SETTINGS | BIT(5) | BIT(6) | BIT(7) | BIT(11),
        [REBUILD_PIXEL] = OF_SETTINGS | BIT(6) | BIT(21) | BIT(11),
        [LEVEL_BOUNDS] = OF_SETTINGS,
        [CLOSED_LOOP_BOUNDS] = OF_SETTINGS,
        [DEEPEST_DEPTH] = BIT(0) | BIT(1),
        [TOTAL_NODES] = OF_SETTINGS,
        [FILE_SIZE] = OF_SETTINGS,
        [WRITE_FILE] = OF_SETTINGS | BIT(4) | BIT(6) | BIT(8) | BIT(11),
        [READ_FILE] = OF_FILE | BIT(6),
        [CHECK_FILE] = OF_FILE,
        [PGM_SIZE] = BIT(0) | BIT(1),
        [WRITE_PGM] = BIT(0) | BIT(1) | BIT(5) | BIT(8),
        [READ_PGM] = OF_PGM | BIT(5),
        [CHECK_PGM] = OF_PGM,
    };
    for (int function = 0; function < FUNCTIONS; function++)
        for (int answer = 0; answer < ANSWERS; answer++)
            if ((it->answers[function][answer] != 0) != (LISTED[function] >> answer & 1)) {
                fprintf(stderr, "%s: answer %d was given %" PRIu64 " times\n", FUNCTION_NAMES[function], answer,
                        it->answers[function][answer]);
                it->failed++;
            }
}

/* The last line, and the program's exit status. */
static inline int finish(const struct tally *it)
{
    printf("%" PRIu64 " passed, %" PRIu64 " failed\n", it->passed, it->failed);
    return it->failed != 0;
}

#endif
