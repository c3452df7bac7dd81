/* Cases of calls, accepted and refused: see vectors.h. */
#include <string.h>

#include "vectors.h"

static void fill_levels(size_t many, int16_t index)
{
    provide(&draw, LEVELS, many);
    int16_t *indices = (void *)job.held[LEVELS];
    for (size_t place = 0; place < many; place++)
        indices[place] = index;
}

static void answers(enum function function, uint16_t expected)
{
    int passed = call(function) && job.answer == expected;
    count(&tally, function, job.answer, passed);
}

/* The same, of a call that leaves one number. */
static void answers_with(enum function function, uint16_t expected, enum thing thing, const void *number, size_t bytes)
{
    int passed = call(function) && job.answer == expected && (expected != 0 || holds(thing, number, bytes));
    count(&tally, function, job.answer, passed);
}

void calls_case(void)
{
    uint16_t length[4], answer[7];
    provide_settings(&draw, take_settings());
    take_numbers(length, 4);
    provide_note(take_note());
    int16_t index = (int16_t)(uint16_t)take_number(2);
    take_numbers(answer, 7);
    size_t bytes = take_number(4);
    int pixel = (int)take_number(1);
    provide(&draw, PICTURE, length[0]);
    fill_levels(length[1], index);
    provide(&draw, WORK, length[2]);
    provide(&draw, FILE_PART, length[3]);
    answers(REBUILDING, answer[1]);
    answers_with(WRITE_FILE, answer[2], SIZE, &bytes, sizeof bytes);
    memset(job.held[PICTURE], pixel, length[0]);
    answers(CODING, answer[0]);
    answers(CLOSED_LOOP_CODING, answer[0]); /* document 02: the same numbers, in the same order */
    answers(LEVEL_BOUNDS, answer[3]);
    answers(CLOSED_LOOP_BOUNDS, answer[3]);
    answers_with(DEEPEST_DEPTH, answer[4], NUMBER, &answer[5], sizeof answer[5]);
    answers_with(TOTAL_NODES, answer[3], NUMBER, &answer[6], sizeof answer[6]);
    answers_with(FILE_SIZE, answer[3], SIZE, &bytes, sizeof bytes);
}
