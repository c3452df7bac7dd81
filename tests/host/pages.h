/* Memory for what a job is lent that ends where nothing can be read or written, or starts there. */
#ifndef HOST_PAGES_H
#define HOST_PAGES_H

#include <setjmp.h>
#include <signal.h>
#include <stdlib.h>
#include <string.h>
#include <sys/mman.h>

#include "job.h"

/* Both are whole pages, of any machine; the forbidden part stands on both sides of the room. */
enum { ROOM = 1 << 17, FORBIDDEN = 1 << 20, GUARD = 256, GUARD_BYTE = 0xA5 };
_Static_assert(MOST_LENT + GUARD <= ROOM, "there is room for every thing and a guard");

enum place { AT_END, AT_START, PLACES };

static const char *const PLACE_NAMES[PLACES] = {"memory ends", "memory starts"};
static const char *const THING_NAMES[THINGS] = {
    "settings", "note",          "picture",   "levels",  "work", "file",  "number",       "size",
    "bounds",   "read settings", "read note", "columns", "rows", "pixel", "indices read",
};

static unsigned char *room[THINGS];
static sigjmp_buf before_fault;
static unsigned char *volatile fault_address;

static inline void make_rooms(void)
{
    for (enum thing thing = 0; thing < THINGS; thing++) {
        unsigned char *all = mmap(NULL, FORBIDDEN + ROOM + FORBIDDEN, PROT_NONE, MAP_PRIVATE | MAP_ANONYMOUS, -1, 0);
        if (all == MAP_FAILED || mprotect(all + FORBIDDEN, ROOM, PROT_READ | PROT_WRITE) != 0) {
            perror("no memory");
            exit(1);
        }
        room[thing] = all + FORBIDDEN;
    }
}

static inline void on_fault(int signal, siginfo_t *about, void *context)
{
    (void)signal;
    (void)context;
    fault_address = about->si_addr;
    siglongjmp(before_fault, 1);
}

static inline void catch_faults(void)
{
    struct sigaction action;
    memset(&action, 0, sizeof action);
    action.sa_sigaction = on_fault;
    action.sa_flags = SA_SIGINFO;
    if (sigaction(SIGSEGV, &action, NULL) != 0 || sigaction(SIGBUS, &action, NULL) != 0) {
        perror("faults can't be caught");
        exit(1);
    }
}

/* Whether a call touches memory that nobody may touch; it ends there. */
static inline int faults(void (*call)(void))
{
    if (sigsetjmp(before_fault, 1) != 0)
        return 1;
    call();
    return 0;
}

/* The thing beside whose room the last fault was. */
static inline const char *fault_name(void)
{
    for (enum thing thing = 0; thing < THINGS; thing++)
        if (fault_address >= room[thing] - FORBIDDEN && fault_address < room[thing] + ROOM + FORBIDDEN)
            return THING_NAMES[thing];
    return "nothing that was lent";
}

/* The bytes of the room that lie before a thing at its end, or after a thing at its start. */
static inline unsigned char *guard_of(enum thing thing, enum place place)
{
    return place == AT_END ? room[thing] + ROOM - job.bytes[thing] - GUARD : room[thing] + job.bytes[thing];
}

static inline void lay_at(enum thing thing, enum place place)
{
    job.at[thing] = place == AT_END ? room[thing] + ROOM - job.bytes[thing] : room[thing];
    memcpy(job.at[thing], job.held[thing], job.bytes[thing]);
    memset(guard_of(thing, place), GUARD_BYTE, GUARD);
}

static inline int guard_kept(enum thing thing, enum place place)
{
    const unsigned char *guard = guard_of(thing, place);
    return guard[0] == GUARD_BYTE && memcmp(guard, guard + 1, GUARD - 1) == 0;
}

#endif
