/* One comparison of the library with plain C for each function; see compare.c. */
#ifndef HOST_COMPARE_H
#define HOST_COMPARE_H

#include "draw.h"
#include "lent.h"
#include "tally.h"

struct run {
    struct seeded draw;
    struct tally tally;
    uint32_t most_side;
    /* The last indices that plain C coded, for rebuilding and writing: `coded` of them, or 0. */
    size_t coded;
    int16_t levels[LEPSARVU_MOST_NODES];
    /* The most indices that were read for a pixel, by depth. */
    uint16_t most_read[LEPSARVU_SLOTS];
};

static const struct pyramid_calls *const PYRAMIDS[2] = {&library_pyramid, &plain_pyramid};
static const struct file_calls *const FILES[2] = {&library_file, &plain_file};
static const struct pgm_calls *const PGMS[2] = {&library_pgm, &plain_pgm};

/* A pixel of a picture, or outside of it. */
struct place {
    uint16_t column, row;
};

/* What was read of a PGM file. */
struct pgm_picture {
    uint16_t columns, rows;
    uint8_t pixels[LEPSARVU_MOST_PIXELS];
};

void compare_deepest(struct run *run, uint16_t columns, uint16_t rows);
void compare_settings(struct run *run, const lepsarvu_settings *s);
void compare_coding(struct run *run, const lepsarvu_settings *s, enum manner manner);
void compare_rebuilding(struct run *run, const lepsarvu_settings *s);
void compare_drawn_pixel(struct run *run, const lepsarvu_settings *s);
void compare_writing(struct run *run, const lepsarvu_settings *s);
void compare_reading(struct run *run);
void compare_reading_shape(struct run *run, const lepsarvu_settings *s);

void compare_writing_pgm(struct run *run, const lepsarvu_settings *s);
void compare_reading_pgm(struct run *run);

/* One call of a function of PGM files; the answer is the library's. What was written is read again; what was read is
 * left in `read`, unless that is NULL. */
void compare_pgm_size(struct run *run, uint16_t columns, uint16_t rows);
uint16_t compare_write_pgm(struct run *run, uint16_t columns, uint16_t rows, const uint8_t *contents, size_t pixels,
                           size_t bytes);
uint16_t compare_read_pgm(struct run *run, const uint8_t *contents, size_t length, size_t pixels,
                          struct pgm_picture *read);
uint16_t compare_check_pgm(struct run *run, const uint8_t *contents, size_t length);

/* PGM files and pictures that are not drawn: see every_pgm.c and sets_pgm.c. */
void every_pgm(struct run *run);
void every_set_pgm(struct run *run);

/* One call for one pixel, with so many indices; the answer is the library's. */
uint16_t compare_pixel(struct run *run, const lepsarvu_settings *s, const int16_t *contents, size_t indices,
                       const struct place *at);

/* Of a pixel inside the picture, and of lawful settings: 1 for each node in the windows and 0 for the others; the bin
 * of a node; an index that a bin does not allow; such indices for all nodes outside of the windows. */
void mark_windows(const lepsarvu_settings *s, const struct place *at, int16_t *marks);
int64_t bin_of(const lepsarvu_settings *s, size_t node);
int16_t draw_unlawful(struct seeded *draw, int64_t bin);
void spoil_outside(struct seeded *draw, const lepsarvu_settings *s, const struct place *at, int16_t *levels);

/* Pixels that are not drawn: see every_pixel.c. */
void every_pixel(struct run *run);

/* Whether the library files what closed-loop coding left, and rebuilds from the file the values that the coder left. */
int files_and_rebuilds(struct run *run, const lepsarvu_settings *s, const int16_t *coded, const int32_t *values);

/* A level buffer of so many indices between guards: coded ones if there are as many, or drawn ones. */
int16_t *lend_levels(struct run *run, const lepsarvu_settings *s, struct lent *levels, size_t length);

#endif
