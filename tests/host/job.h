/* The calls of all functions as jobs on memory that a test lays out: what is lent, which of it a function may write,
 * and cases from a seed in which every function is called, accepted and refused. */
#ifndef HOST_JOB_H
#define HOST_JOB_H

#include "draw.h"
#include "tally.h"

/* What the functions are lent: a struct, a buffer, a small array or a number each. PIXEL is one pixel and INDICES_READ
 * the number of indices that were read for it, NUMBER is a depth or a number of nodes, FILE_PART a bale file or a PGM
 * file, READ_SETTINGS and READ_NOTE are what was read of the former, COLUMNS and ROWS of the latter. */
enum thing {
    SETTINGS,
    NOTE,
    PICTURE,
    LEVELS,
    WORK,
    FILE_PART,
    NUMBER,
    SIZE,
    BOUNDS,
    READ_SETTINGS,
    READ_NOTE,
    COLUMNS,
    ROWS,
    PIXEL,
    INDICES_READ,
    THINGS
};

enum { MORE = 9, MOST_LENT = (LEPSARVU_MOST_NODES + MORE) * (int)sizeof(int32_t) };
_Static_assert(MOST_LENT % 16 == 0, "what is held is aligned");

struct job {
    const struct pyramid_calls *pyramid; /* whose functions are called */
    const struct file_calls *file;
    const struct pgm_calls *pgm;
    lepsarvu_settings s;  /* what SETTINGS holds */
    uint16_t column, row; /* of the pixel that is asked for */
    uint16_t answer;
    size_t bytes[THINGS]; /* of each thing */
    void *at[THINGS];     /* where it lies while it is lent */
    _Alignas(16) unsigned char held[THINGS][MOST_LENT]; /* what it holds between the calls */
};

extern struct job job;

/* How many elements a thing has, and that it has so many from now on, which hold what they hold. */
size_t elements(enum thing thing);
void lengthen(enum thing thing, size_t many);

/* So many elements of a thing, which hold anything; so many that hold something. */
void provide(struct seeded *draw, enum thing thing, size_t many);
void provide_copy(enum thing thing, const void *contents, size_t many);

/* The settings, and all that has always the same length, which holds anything; a note. */
void provide_settings(struct seeded *draw, lepsarvu_settings s);
void provide_note(lepsarvu_note note);

/* Asks for the pixel at a column and a row, whose answers hold anything. */
void ask_pixel(struct seeded *draw, uint16_t column, uint16_t row);

/* Makes a function's call on what lies at job.at, and leaves the answer in job.answer. */
extern void (*const JOB_CALLS[FUNCTIONS])(void);

/* Whether a function is lent a thing, and whether it may write to it. */
int is_lent(enum function function, enum thing thing);
int may_write(enum function function, enum thing thing);

/* How much of a thing the call that was made had to write: nothing if it was refused. */
size_t written_part(enum function function, enum thing thing);

/* Takes over what the call left, for those that follow. */
void hold_again(enum function function);

/* What a test does with a function's job: it lays out what the function is lent, makes the call and looks. */
typedef void each_job(enum function function);

/* Right lengths: the levels that one of the two codings leaves are rebuilt, as a whole and for one pixel, and written,
 * and the file that was written is read; so is a PGM file of the rebuilt picture. */
void lawful_case(struct seeded *draw, lepsarvu_settings s, each_job *each);

/* Any settings, lengths, level buffers, pixels, readings and files. */
void drawn_case(struct seeded *draw, uint32_t most_side, each_job *each);

#endif
