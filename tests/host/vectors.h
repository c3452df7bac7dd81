/* Vectors of the Python reference, taken from standard input case by case; see vectors.c. */
#ifndef HOST_VECTORS_H
#define HOST_VECTORS_H

#include "job.h"

extern struct seeded draw;
extern struct tally tally;

/* Whether the settings of the kind at hand have a black and a white; otherwise these are 0 and 255. */
extern int with_greys;

/* What a reader fills. */
struct filled {
    lepsarvu_settings settings;
    lepsarvu_note note;
};

/* Makes a function's call between guards; answers whether what it may not write was kept. */
int call(enum function function);

/* Whether a thing holds these bytes, from its start. */
int holds(enum thing thing, const void *expected, size_t bytes);

/* Whether another case follows. */
int next_case(void);

/* The next bytes of the case, which are held until its end; little-endian numbers of so many bytes; 16-bit numbers. */
const uint8_t *take(size_t bytes);
uint32_t take_number(int bytes);
void take_numbers(uint16_t *to, int many);

lepsarvu_settings take_settings(void);
lepsarvu_note take_note(void);

/* Settings and lengths that may be unlawful: the answer of every call. */
void calls_case(void);

/* Indices for all levels of the settings at hand, which become the level buffer. */
void take_levels(void);

/* A level buffer and some pixels: the answer, the pixel and the number of indices read of each. */
void pixels_case(void);

/* A PGM file: what its readers answer, and the single form of its picture. */
void pgm_case(void);

#endif
