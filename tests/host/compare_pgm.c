/* The functions of PGM files, library beside plain C. */
#include "compare.h"

void compare_pgm_size(struct run *run, uint16_t columns, uint16_t rows)
{
    static struct lent size[2];
    uint16_t answers[2];
    lend_pair(size, sizeof(size_t), &run->draw);
    for (int which = 0; which < 2; which++)
        answers[which] = PGMS[which]->pgm_size(columns, rows, start_of(&size[which]));
    int passed = answers[0] == answers[1] && same_pair(size, answers[0], sizeof(size_t));
    count(&run->tally, PGM_SIZE, answers[0], passed);
}

/* What a reader leaves beside the picture, twice. */
struct sides {
    struct lent columns[2], rows[2];
};

static void lend_sides(struct run *run, struct sides *sides)
{
    lend_pair(sides->columns, sizeof(uint16_t), &run->draw);
    lend_pair(sides->rows, sizeof(uint16_t), &run->draw);
}

static int same_sides(const struct sides *sides, uint16_t answer)
{
    return same_pair(sides->columns, answer, sizeof(uint16_t)) && same_pair(sides->rows, answer, sizeof(uint16_t));
}

uint16_t compare_check_pgm(struct run *run, const uint8_t *contents, size_t length)
{
    static struct lent file;
    static struct sides sides;
    uint16_t answers[2];
    lend_copy(&file, contents, length, &run->draw);
    lend_sides(run, &sides);
    for (int w = 0; w < 2; w++)
        answers[w] =
            PGMS[w]->check_pgm(start_of(&file), length, start_of(&sides.columns[w]), start_of(&sides.rows[w]));
    int passed = answers[0] == answers[1] && kept(&file) && same_sides(&sides, answers[0]);
    count(&run->tally, CHECK_PGM, answers[0], passed);
    return answers[0];
}

uint16_t compare_read_pgm(struct run *run, const uint8_t *contents, size_t length, size_t pixels,
                          struct pgm_picture *read)
{
    static struct lent file, picture[2];
    static struct sides sides;
    uint16_t answers[2];
    lend_copy(&file, contents, length, &run->draw);
    lend_pair(picture, pixels, &run->draw);
    lend_sides(run, &sides);
    for (int w = 0; w < 2; w++)
        answers[w] = PGMS[w]->read_pgm(start_of(&file), length, start_of(&picture[w]), pixels,
                                       start_of(&sides.columns[w]), start_of(&sides.rows[w]));
    int passed = answers[0] == answers[1] && kept(&file) && same_sides(&sides, answers[0]) &&
                 same_pair(picture, answers[0], pixels);
    count(&run->tally, READ_PGM, answers[0], passed);
    if (passed && answers[0] == 0 && read != NULL) {
        memcpy(&read->columns, start_of(&sides.columns[0]), sizeof read->columns);
        memcpy(&read->rows, start_of(&sides.rows[0]), sizeof read->rows);
        memcpy(read->pixels, start_of(&picture[0]), pixels);
    }
    return answers[0];
}

/* Reading what the library wrote gives the picture back. */
static void read_again(struct run *run, uint16_t columns, uint16_t rows, const struct lent *picture,
                       const uint8_t *file, size_t length)
{
    static struct pgm_picture read;
    uint16_t answer = compare_read_pgm(run, file, length, picture->bytes, &read);
    int same = answer == 0 && read.columns == columns && read.rows == rows &&
               memcmp(read.pixels, picture->before, picture->bytes) == 0;
    count(&run->tally, READ_PGM, answer, same);
}

uint16_t compare_write_pgm(struct run *run, uint16_t columns, uint16_t rows, const uint8_t *contents, size_t pixels,
                           size_t bytes)
{
    static struct lent picture, file[2], size[2];
    uint16_t answers[2];
    size_t whole;
    lend_copy(&picture, contents, pixels, &run->draw);
    lend_pair(file, bytes, &run->draw);
    lend_pair(size, sizeof(size_t), &run->draw);
    for (int which = 0; which < 2; which++)
        answers[which] = PGMS[which]->write_pgm(columns, rows, start_of(&picture), pixels, start_of(&file[which]),
                                                bytes, start_of(&size[which]));
    memcpy(&whole, start_of(&size[1]), sizeof whole);
    int passed = answers[0] == answers[1] && kept(&picture) && same_pair(file, answers[0], whole) &&
                 same_pair(size, answers[0], sizeof(size_t));
    count(&run->tally, WRITE_PGM, answers[0], passed);
    if (passed && answers[0] == 0)
        read_again(run, columns, rows, &picture, start_of(&file[0]), whole);
    return answers[0];
}

/* A size's file, if it is lawful, with some more bytes now and then, or any other length. */
static size_t draw_bytes(struct run *run, const lepsarvu_settings *s)
{
    size_t whole;
    if (plain_pgm.pgm_size(s->columns, s->rows, &whole) != 0)
        whole = 11 + pixels_of(s);
    return draw_length(&run->draw, whole) + (once_in(&run->draw, 3) ? below(&run->draw, 9) : 0);
}

void compare_writing_pgm(struct run *run, const lepsarvu_settings *s)
{
    static uint8_t drawn[MOST_DRAWN_PIXELS];
    lepsarvu_settings any_greys = *s;
    size_t pixels = draw_length(&run->draw, pixels_of(s));
    any_greys.black = 0;
    any_greys.white = 255;
    draw_picture(&run->draw, &any_greys, drawn, pixels);
    compare_pgm_size(run, s->columns, s->rows);
    compare_write_pgm(run, s->columns, s->rows, drawn, pixels, draw_bytes(run, s));
}

void compare_reading_pgm(struct run *run)
{
    static uint8_t drawn[MOST_DRAWN_PGM];
    static struct pgm_picture read;
    size_t pixels, length = draw_pgm(&run->draw, run->most_side, drawn, &pixels);
    compare_check_pgm(run, drawn, length);
    pixels = draw_length(&run->draw, pixels);
    if (compare_read_pgm(run, drawn, length, pixels, &read) == 0)
        compare_write_pgm(run, read.columns, read.rows, read.pixels, pixels, LEPSARVU_MOST_PGM_BYTES);
}
