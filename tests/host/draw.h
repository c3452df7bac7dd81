/* Cases drawn from a seed: settings, lengths, pictures, level buffers, readings, bale and PGM files, lawful and not. */
#ifndef HOST_DRAW_H
#define HOST_DRAW_H

#include "plain.h"
#include "seeded.h"

/* The most bytes of a file that is drawn; a PGM file may be of some pixels too many, and has comments. */
enum { MOST_DRAWN_FILE = LEPSARVU_MOST_FILE_BYTES + 16, MOST_DRAWN_PIXELS = 131 * 131, MOST_DRAWN_PGM = 18000 };

lepsarvu_settings draw_lawful(struct seeded *draw, uint32_t most_side);
lepsarvu_settings draw_settings(struct seeded *draw, uint32_t most_side);
int is_lawful(const lepsarvu_settings *s);

/* Lawful settings of a lawful size, any depth of it among them, with bins to some largest. */
lepsarvu_settings draw_for_size(struct seeded *draw, uint16_t columns, uint16_t rows, uint32_t most_bin);

/* Black and white: often 0 and 255 or 16 and 235, and any others, lawful. */
void draw_greys(struct seeded *draw, lepsarvu_settings *s);

/* Puts one setting, or both of black and white, where they may be unlawful. */
void spoil(struct seeded *draw, lepsarvu_settings *s);

/* The right lengths of lawful settings, and some of others. */
size_t pixels_of(const lepsarvu_settings *s);
size_t nodes_of(const lepsarvu_settings *s);
size_t draw_length(struct seeded *draw, size_t right);

/* A column of so many, or a row: often the first, the last or one beside them; and the same, outside now and then. */
uint16_t draw_inside(struct seeded *draw, uint16_t many);
uint16_t draw_along(struct seeded *draw, uint16_t many);

/* Pixels from black to white, where these are lawful, both of them and all kinds of patterns among them. */
void draw_picture(struct seeded *draw, const lepsarvu_settings *s, uint8_t *picture, size_t length);

/* The same, now and then but for one pixel: the first, the last or another is below black or above white. */
void draw_pixels(struct seeded *draw, const lepsarvu_settings *s, uint8_t *picture, size_t length);

void draw_levels(struct seeded *draw, const lepsarvu_settings *s, int16_t *levels, size_t length);
lepsarvu_reading draw_reading(struct seeded *draw);
lepsarvu_reading draw_lawful_reading(struct seeded *draw);
lepsarvu_note draw_note(struct seeded *draw);
lepsarvu_note draw_lawful_note(struct seeded *draw);

/* A whole or damaged file; answers its length. */
size_t draw_file(struct seeded *draw, uint32_t most_side, uint8_t file[MOST_DRAWN_FILE]);

/* The same with the shape section of these settings, which the others don't fit, now and then in its long form where
 * the short one is due; now and then nothing follows it. */
size_t draw_file_of_shape(struct seeded *draw, uint32_t most_side, const lepsarvu_settings *s,
                          uint8_t file[MOST_DRAWN_FILE]);

/* The nodes of the size and depth that the file's first bytes hold, if these are lawful. */
size_t shape_nodes(const uint8_t *file, size_t length);

/* Cuts a file of some bytes, changes bytes, takes one out, puts one in or appends up to four, or does nothing of this;
 * answers its length. */
size_t draw_damage(struct seeded *draw, uint8_t *file, size_t length);

/* A PGM file with all kinds of gaps and numbers, lawful, broken or damaged; answers its length, and in `pixels` the
 * columns times rows that were meant. */
size_t draw_pgm(struct seeded *draw, uint32_t most_side, uint8_t file[MOST_DRAWN_PGM], size_t *pixels);

#endif
