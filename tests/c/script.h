/*
 * What the scripts of both ends share: a script on standard input, the answers on standard output, numbers in four octets,
 * low octet first.
 */
#ifndef SCRIPT_H
#define SCRIPT_H

#include "lahzavar.h"

#include <stdio.h>
#include <stdlib.h>

#define SCRIPT_MOST 4096u

struct event {
    uint32_t kind, reading, room, length;
    uint8_t octets[SCRIPT_MOST];
};

static uint8_t out[SCRIPT_MOST];

static inline void fail(const char *what)
{
    fprintf(stderr, "script: %s\n", what);
    exit(1);
}

static inline void take(uint8_t *place, size_t count)
{
    if (fread(place, 1, count, stdin) != count) {
        fail("the input ends early");
    }
}

static inline uint32_t number_in(const uint8_t four[4])
{
    return (uint32_t)four[0] | (uint32_t)four[1] << 8 | (uint32_t)four[2] << 16 | (uint32_t)four[3] << 24;
}

static inline uint32_t take_number(void)
{
    uint8_t four[4];
    take(four, 4);
    return number_in(four);
}

/* A setting of the head: 1 for yes, 0 for no; of the edition, 1 for SAE, 0 for ISO. */
static inline bool take_setting(void)
{
    uint32_t number = take_number();
    if (number > 1) {
        fail("a setting that is neither 0 nor 1");
    }
    return number == 1;
}

static inline void take_event(struct event *event)
{
    event->kind = take_number();
    event->reading = take_number();
    event->room = take_number();
    event->length = take_number();
    if (event->room > SCRIPT_MOST || event->length > SCRIPT_MOST) {
        fail("a room or length over 4,096");
    }
    take(event->octets, event->length);
}

static inline void store_number(uint8_t four[4], uint32_t number)
{
    int at;
    for (at = 0; at < 4; at++) {
        four[at] = (uint8_t)(number >> 8 * at & 0xFF);
    }
}

static inline void put_number(uint32_t number)
{
    uint8_t four[4];
    store_number(four, number);
    fwrite(four, 1, 4, stdout);
}

/* A refusal or 0, an indication, and the octets that were answered. */
static inline void put_reply(uint32_t refusal, uint32_t indication, const uint8_t *octets, uint32_t length)
{
    put_number(refusal);
    put_number(indication);
    put_number(length);
    fwrite(octets, 1, length, stdout);
}

/* The reply to a call whose frames stand in `out`. */
static inline void put_answer(struct lahzavar_answer answer)
{
    put_reply(answer.refusal, answer.indication, out, answer.octets);
}

/* The script of one end: what configures it, and what one event does to it. Gives the program's exit status. */
static inline int run_script(void (*configure)(void), void (*happen)(const struct event *event))
{
    static struct event event;
    uint32_t events;
    configure();
    for (events = take_number(); events > 0; events--) {
        take_event(&event);
        happen(&event);
    }
    return fflush(stdout) == 0 ? 0 : 1;
}

#endif
