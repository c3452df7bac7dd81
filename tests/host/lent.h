/* Memory lent to a call, between guard bytes, with a copy of what it held. */
#ifndef HOST_LENT_H
#define HOST_LENT_H

#include <string.h>

#include "seeded.h"

enum { GUARD = 256, ROOM = 1 << 17, GUARD_BYTE = 0xA5 };

struct lent {
    size_t bytes;
    _Alignas(16) unsigned char memory[GUARD + ROOM + GUARD];
    unsigned char before[ROOM];
};

static inline void *start_of(struct lent *it)
{
    return it->memory + GUARD;
}

/* Lends so many bytes, which hold anything. */
static inline void *lend(struct lent *it, size_t bytes, struct seeded *draw)
{
    it->bytes = bytes;
    memset(it->memory, GUARD_BYTE, GUARD);
    memset(it->memory + GUARD, (int)below(draw, 256), bytes);
    memset(it->memory + GUARD + bytes, GUARD_BYTE, GUARD);
    return start_of(it);
}

/* To be called when the contents are in place. */
static inline void seal(struct lent *it)
{
    memcpy(it->before, it->memory + GUARD, it->bytes);
}

static inline void *lend_copy(struct lent *it, const void *contents, size_t bytes, struct seeded *draw)
{
    memcpy(lend(it, bytes, draw), contents, bytes);
    seal(it);
    return start_of(it);
}

/* The same bytes twice, for two implementations to write to. */
static inline void lend_pair(struct lent pair[2], size_t bytes, struct seeded *draw)
{
    lend(&pair[0], bytes, draw);
    seal(&pair[0]);
    lend_copy(&pair[1], start_of(&pair[0]), bytes, draw);
}

/* All bytes of a guard are the guard byte: the first is, and each is as the one before it. */
static inline int is_guard(const unsigned char *from)
{
    return from[0] == GUARD_BYTE && memcmp(from, from + 1, GUARD - 1) == 0;
}

static inline int guards_kept(const struct lent *it)
{
    return is_guard(it->memory) && is_guard(it->memory + GUARD + it->bytes);
}

/* The guards, and the bytes from a place on, are as they were. */
static inline int kept_from(const struct lent *it, size_t from)
{
    return guards_kept(it) && from <= it->bytes &&
           memcmp(it->memory + GUARD + from, it->before + from, it->bytes - from) == 0;
}

static inline int kept(const struct lent *it)
{
    return kept_from(it, 0);
}

/* Both hold the same; what lies after the bytes that an accepted call writes is untouched, a refused call's is all. */
static inline int same_pair(const struct lent pair[2], uint16_t answer, size_t written)
{
    int same = memcmp(pair[0].memory + GUARD, pair[1].memory + GUARD, pair[0].bytes) == 0;
    return same && kept_from(&pair[0], answer == 0 ? written : 0);
}

#endif
