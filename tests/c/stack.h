/*
 * The stack that calls take. A call runs on a stack of its own that was painted before; the lowest octet that has changed
 * tells how deep it went. From that is taken what a call of an empty function changes. A program that includes this defines
 * _GNU_SOURCE first.
 */
#ifndef STACK_H
#define STACK_H

#include "lahzavar.h"

#include <stdio.h>
#include <stdlib.h>
#include <string.h>
#include <ucontext.h>

#define STACK 262144u
#define MARGIN 512u
#define STATE_MOST (sizeof(struct lahzavar_station) + sizeof(struct lahzavar_car))

/* A figure of the table: what is called, and the most stack that it took so far. */
struct figure {
    const char *name;
    void (*call)(void);
    size_t deepest;
};

static struct lahzavar_answer answer; /* of the last call */
static void *state;                   /* the station or car that the calls change */
static size_t state_octets;

static union {
    uint8_t octets[STACK];
    uint64_t aligned;
} stack;
static ucontext_t measuring, measured;
static void (*to_call)(void);

static inline void call_nothing(void)
{
}

/* The first function on the painted stack. Its frame goes deeper than the change of stacks does. */
static inline void on_stack(void)
{
    volatile uint8_t margin[MARGIN];
    margin[0] = 0;
    to_call();
    margin[MARGIN - 1] = margin[0];
}

/* How much of the stack, painted with one value, a call changes. */
static inline size_t changed(void (*call)(void), int paint)
{
    size_t at = 0;
    memset(&stack, paint, sizeof stack);
    to_call = call;
    if (getcontext(&measured) != 0) {
        exit(1);
    }
    measured.uc_stack.ss_sp = stack.octets;
    measured.uc_stack.ss_size = sizeof stack.octets;
    measured.uc_link = &measuring;
    makecontext(&measured, on_stack, 0);
    if (swapcontext(&measuring, &measured) != 0) {
        exit(1);
    }
    while (at < STACK && stack.octets[at] == paint) {
        at++;
    }
    return STACK - at;
}

/*
 * Measures a call, which must be accepted: what it takes beyond an empty one, the greater of two paints, either of which it
 * might write itself. It is made once before, so that its symbols are bound. The state is then as the last call left it.
 */
static inline void measure(struct figure *figure)
{
    static const int paints[] = {0x5A, 0xA5};
    uint8_t before[STATE_MOST];
    size_t at;
    memset(&answer, 0, sizeof answer);
    memcpy(before, state, state_octets);
    figure->call();
    for (at = 0; at < 2; at++) {
        size_t empty = changed(call_nothing, paints[at]), now;
        memcpy(state, before, state_octets);
        now = changed(figure->call, paints[at]) - empty;
        figure->deepest = now > figure->deepest ? now : figure->deepest;
    }
    if (answer.refusal != LAHZAVAR_ACCEPTED) {
        fprintf(stderr, "%s was refused with %u\n", figure->name, (unsigned)answer.refusal);
        exit(1);
    }
}

/* The same call on the state as it is now, which is then as before. */
static inline void measure_aside(struct figure *figure)
{
    uint8_t before[STATE_MOST];
    memcpy(before, state, state_octets);
    measure(figure);
    memcpy(state, before, state_octets);
}

/* The last call must have given so many frames. */
static inline void has_frames(const struct figure *figure, uint32_t frames)
{
    if (answer.frames != frames) {
        fprintf(stderr, "%s gave %u frames, not %u\n", figure->name, (unsigned)answer.frames, (unsigned)frames);
        exit(1);
    }
}

static inline void print_figures(const struct figure *figures, size_t count)
{
    size_t at;
    for (at = 0; at < count; at++) {
        printf("stack: %s\t%lu\n", figures[at].name, (unsigned long)figures[at].deepest);
    }
}

#endif
