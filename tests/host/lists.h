/* Lists of generations and of archive copies, run on the library: see lists.c. */
#ifndef HOST_LISTS_H
#define HOST_LISTS_H

#include <stdio.h>

#include "draw.h"
#include "lent.h"

enum { MOST_LIST = 6 };

/* What a run of lists saw. */
struct seen {
    uint64_t lists, empty, accepted, refused, all_accepted; /* all_accepted: lists of six */
    uint64_t refused_call[4];                               /* which call of a generation or a copy was refused */
    uint64_t narrow;                                        /* lists of two and more whose sum is below 255 */
    uint64_t beyond;                                        /* lists whose error is above each bound in the sum */
    uint64_t all_open, all_closed, mixed;                   /* lists of two and more, by manners of coding */
    uint64_t reached;     /* rebuildings whose error is the closed-loop bound of level 0, above 0 */
    uint64_t turned_down; /* codings after an accepted one that were refused with 20 */
    uint64_t other_greys; /* accepted ones whose black and white are not the list's */
    uint64_t clamped;     /* rebuildings clamped to a black or a white, of those other than 0 and 255 */
    uint64_t passed, failed;
};

/* One list: the size of its pictures, between what the first one lies, what the bins may be, and how far it went. */
struct list {
    uint16_t columns, rows, black, white;
    uint32_t most_bin;
    uint32_t steps, accepted, closed; /* closed: accepted and coded closed-loop */
    int64_t sum, most_bound;          /* of the bounds of level 0 that count */
};

/* What an accepted coding left, for its rebuilding to be held to. */
struct coded {
    enum manner manner;
    lepsarvu_settings s;
    uint16_t bounds[LEPSARVU_SLOTS];
    int32_t averages[LEPSARVU_MOST_NODES];
    int32_t values[LEPSARVU_MOST_NODES]; /* of closed-loop coding: those that it says will be rebuilt */
};

extern struct seeded draw;

/* A list of generations, or of copies, of pictures with this size; the answer says whether all was as it must be. */
int run_generations(struct seen *seen, struct list *list);
int run_copies(struct seen *seen, struct list *list);

/* Settings for the list's pictures, now and then unlawful, with columns and rows exchanged, or with a black and a white
 * that are not the list's. */
lepsarvu_settings draw_step(const struct list *list);

/* A right length, or if somebody is careless one that may be wrong. */
size_t step_length(int careless, size_t right);

/* Lends so many elements that hold anything. */
void *lend_sealed(struct lent *it, size_t bytes);

/* Either manner of coding, as likely as the other. */
enum manner draw_manner(void);

/* Whether every pixel lies between black and white. */
int pixels_inside(const lepsarvu_settings *s, const uint8_t *picture, size_t pixels);

/* Takes over what an accepted coding of the picture left in its work buffer. The averages, which closed-loop coding
 * does not leave, are then those of plain C, which must accept the coding too. */
int take_coded(struct coded *it, enum manner manner, const lepsarvu_settings *s, const uint8_t *picture,
               const int32_t *left);

/* The library's bounds of that coding, which must be those of plain C; adds that of level 0 to the list's sum. */
int take_bounds(struct list *list, struct coded *it);

/* Whether every rebuilt value is within its level's bound of its average and, after closed-loop coding, what the coder
 * left, and every shown pixel is its rebuilt value, or black or white where that lies beyond. */
int rebuilt_right(struct seen *seen, const struct coded *it, const int32_t *rebuilt, const uint8_t *shown);

/* Whether two pictures differ nowhere by more than the list's sum; counts what it sees. */
int close_enough(struct seen *seen, const struct list *list, const uint8_t *first, const uint8_t *last, size_t pixels);

#endif
