/* Cases of PGM files: see vectors.h. */
#include "vectors.h"

/* What a case says of a file that is accepted. */
struct whole {
    uint16_t columns, rows;
    const uint8_t *pixels, *single; /* the single form of the same picture */
    size_t many, single_length;
};

static void take_whole(struct whole *it)
{
    it->columns = (uint16_t)take_number(2);
    it->rows = (uint16_t)take_number(2);
    it->many = (size_t)it->columns * it->rows;
    it->pixels = take(it->many);
    it->single_length = take_number(4);
    it->single = take(it->single_length);
}

static void provide_sides(void)
{
    provide(&draw, COLUMNS, 1);
    provide(&draw, ROWS, 1);
}

/* What a refused reader left was compared with what there was before. */
static int holds_sides(const struct whole *it)
{
    return job.answer != 0 ||
           (holds(COLUMNS, &it->columns, sizeof it->columns) && holds(ROWS, &it->rows, sizeof it->rows));
}

static void check(uint16_t expected, const struct whole *it)
{
    provide_sides();
    int passed = call(CHECK_PGM) && job.answer == expected && holds_sides(it);
    count(&tally, CHECK_PGM, job.answer, passed);
}

/* Reads with a picture buffer of some length. */
static void read_with(size_t many, uint16_t expected, const struct whole *it)
{
    provide_sides();
    provide(&draw, PICTURE, many);
    int passed = call(READ_PGM) && job.answer == expected && holds_sides(it);
    if (expected == 0)
        passed = passed && holds(PICTURE, it->pixels, many);
    count(&tally, READ_PGM, job.answer, passed);
}

/* Writes the picture that was read, into a buffer of so many bytes more than the single form has. */
static void write_with(size_t more, const struct whole *it)
{
    provide(&draw, FILE_PART, it->single_length + more);
    int passed = call(WRITE_PGM) && job.answer == 0 && holds(SIZE, &it->single_length, sizeof it->single_length) &&
                 holds(FILE_PART, it->single, it->single_length);
    count(&tally, WRITE_PGM, job.answer, passed);
}

static void write_single(const struct whole *it)
{
    provide_settings(&draw, (lepsarvu_settings){it->columns, it->rows, 0, 0, 0, 0, {0}});
    int passed = call(PGM_SIZE) && job.answer == 0 && holds(SIZE, &it->single_length, sizeof it->single_length);
    count(&tally, PGM_SIZE, job.answer, passed);
    provide(&draw, FILE_PART, it->single_length - 1);
    provide(&draw, SIZE, 1);
    passed = call(WRITE_PGM) && job.answer == 8;
    count(&tally, WRITE_PGM, job.answer, passed);
    write_with(3, it);
    write_with(0, it);
}

void pgm_case(void)
{
    struct whole it = {0, 0, NULL, NULL, 9, 0};
    uint16_t expected = (uint16_t)take_number(2);
    size_t length = take_number(4);
    const uint8_t *file = take(length);
    if (expected == 0)
        take_whole(&it);
    provide_copy(FILE_PART, file, length);
    check(expected, &it);
    read_with(it.many - 1, expected == 0 ? 5 : expected, &it);
    read_with(it.many + 1, expected == 0 ? 5 : expected, &it);
    read_with(it.many, expected, &it);
    if (expected != 0)
        return;
    write_single(&it);
    check(0, &it); /* of the single form, which was written last */
    read_with(it.many, 0, &it);
}
