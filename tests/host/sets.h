/* Sets of broken rules of settings, buffers and their contents: see sets.c. */
#ifndef HOST_SETS_H
#define HOST_SETS_H

#include "job.h"

/* The rules in the order in which every function looks for those that it knows, each named by its refusal. */
enum rule {
    SIZE_1,
    DEPTH_13,
    COLUMNS_14,
    ROWS_15,
    KERNEL_2,
    GREYS_19,
    BIN_3,
    NOTE_4,
    PICTURE_5,
    LEVELS_6,
    WORK_7,
    FILE_8,
    OUTSIDE_21,
    INDEX_11,
    PIXEL_20,
    RULES
};

/* Sets of them, a bit for each: those of the shape section, and of all settings. */
enum { SHAPE_RULES = (1 << BIN_3) - 1, SETTINGS_RULES = SHAPE_RULES | 1 << BIN_3 };

extern struct seeded draw;
extern struct tally tally;

static inline int breaks(unsigned set, enum rule rule)
{
    return set >> rule & 1;
}

/* The refusal that is due where such a set is broken, 0 for the empty one. */
uint16_t first_of(unsigned set);

/* Lawful settings, made to break those rules of a set that are about settings, each in some way. Where they break
 * another too, its refusal comes after one that is meant. */
lepsarvu_settings broken(lepsarvu_settings lawful, unsigned set);

/* Makes a function's call on what was provided; it must answer this, and change nothing that it may not. */
void expect(enum function function, uint16_t expected);

/* Files with and without black and white, by hand: see forms.c. */
void all_forms(void);

#endif
