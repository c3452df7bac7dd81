/* A stack of our own, painted before a call and looked at after it, to see how deep the call went. Nobody else writes
 * there: the program has no handlers of signals. What a function uses below its stack pointer is seen too. */
#ifndef HOST_PAINTED_H
#define HOST_PAINTED_H

#include <stdint.h>
#include <stdio.h>
#include <stdlib.h>
#include <ucontext.h>

enum { STACK_WORDS = 2048, APART = 1024 };

/* Two, so that a word that a call leaves can't look like both. */
static const uint64_t PAINTS[2] = {UINT64_C(0xA5A5A5A5A5A5A5A5), UINT64_C(0x5A5A5A5A5A5A5A5A)};

static struct {
    _Alignas(64) uint64_t stack[STACK_WORDS];
    ucontext_t here, there;
    void (*call)(void);
} painted;

/* Getting onto this stack and off it writes to its top; the call's part begins below the room. */
static void call_below(void)
{
    volatile unsigned char room[APART];
    for (size_t at = 0; at < APART; at++)
        room[at] = 0;
    painted.call();
    room[0] = room[1];
}

static void call_on_painted(void (*call)(void))
{
    painted.call = call;
    if (getcontext(&painted.there) != 0)
        abort();
    painted.there.uc_stack.ss_sp = painted.stack;
    painted.there.uc_stack.ss_size = sizeof painted.stack;
    painted.there.uc_link = &painted.here;
    makecontext(&painted.there, call_below, 0);
    if (swapcontext(&painted.here, &painted.there) != 0)
        abort();
}

/* The bytes from the top of the stack to the deepest word that is paint no more. */
static size_t depth_of(void (*call)(void), uint64_t paint)
{
    size_t kept = 0;
    for (size_t at = 0; at < STACK_WORDS; at++)
        painted.stack[at] = paint;
    call_on_painted(call);
    while (kept < STACK_WORDS && painted.stack[kept] == paint)
        kept++;
    if (kept == 0) {
        fprintf(stderr, "a call took all of the painted stack\n");
        abort();
    }
    return (STACK_WORDS - kept) * sizeof(uint64_t);
}

static void call_nothing(void)
{
}

/* How much deeper a call goes than one that does nothing. */
static size_t bytes_taken(void (*call)(void), uint64_t paint)
{
    return depth_of(call, paint) - depth_of(call_nothing, paint);
}

#endif
