/* A job whose things stand between guards. */
#ifndef HOST_GUARDED_H
#define HOST_GUARDED_H

#include "job.h"
#include "lent.h"

static struct lent guarded[THINGS];

static inline void lay_between_guards(enum function function, struct seeded *draw)
{
    for (enum thing thing = 0; thing < THINGS; thing++)
        if (is_lent(function, thing))
            job.at[thing] = lend_copy(&guarded[thing], job.held[thing], job.bytes[thing], draw);
}

/* The guards of all that the call was lent, and all that it may not write, are as they were. */
static inline int kept_between_guards(enum function function)
{
    int all = 1;
    for (enum thing thing = 0; thing < THINGS; thing++)
        if (is_lent(function, thing))
            all &= kept_from(&guarded[thing], written_part(function, thing));
    return all;
}

/* Makes a function's call; answers whether what it may not write was kept. */
static inline int call_between_guards(enum function function, struct seeded *draw)
{
    lay_between_guards(function, draw);
    JOB_CALLS[function]();
    int all = kept_between_guards(function);
    hold_again(function);
    return all;
}

#endif
