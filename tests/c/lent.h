/*
 * Memory lent to the library's calls, and what every call promises of it, for stations and cars with changed words.
 *
 * Everything lent stands between pages that can't be touched, at their first or their last octet; what a call may only
 * read is lent through a second view of the same pages that can't be written. With "heap" each piece is a block of its
 * own, for valgrind. A program that includes this defines _GNU_SOURCE first.
 */
#ifndef LENT_H
#define LENT_H

#include "car_frames.h"
#include "lahzavar.h"
#include "random.h"

#include <signal.h>
#include <stdio.h>
#include <stdlib.h>
#include <sys/mman.h>
#include <unistd.h>

#define PAGE ((size_t)4096)
#define SPAN (2 * PAGE)
#define ROOM_MOST (SPAN / 2)
#define SECONDS 30

/* A piece of memory to lend, with a copy of what stood there before the call. */
struct zone {
    uint8_t *view;    /* can be written */
    uint8_t *reading; /* the same octets, can't be written */
    size_t span;      /* octets of the view */
    size_t at, size;  /* the part that is lent */
    uint8_t before[SPAN];
};

/* What an answer of one end can be. */
struct limits {
    uint32_t indication; /* the highest number */
    uint32_t frames;     /* the most frames of a call */
    /* The octets of a frame that it sends, of which so many are there, 60 or more; 0 for one that it never does. */
    size_t (*octets_of)(const uint8_t *frame, size_t there);
};

static struct zone words, sums, spread, octets, out;
static int on_heap;
static int wiped; /* every call is to answer 16 */
static const char *calling = "setting up";
static unsigned long round_now, calls, accepted;

static inline void fail(const char *what)
{
    fprintf(stderr, "faults: round %lu, %s: %s\n", round_now, calling, what);
    exit(1);
}

static inline void on_signal(int number)
{
    fail(number == SIGALRM ? "no end" : "a crash");
}

/* Maps the file's pages between two that can't be touched. */
static inline uint8_t *map_between(int file, int protection)
{
    uint8_t *all = mmap(NULL, SPAN + 2 * PAGE, PROT_NONE, MAP_PRIVATE | MAP_ANONYMOUS, -1, 0);
    uint8_t *view = all == MAP_FAILED ? MAP_FAILED
                                      : mmap(all + PAGE, SPAN, protection, MAP_SHARED | MAP_FIXED, file, 0);
    if (view == MAP_FAILED) {
        fail("no memory");
    }
    return view;
}

static inline void make_zone(struct zone *zone)
{
    int file = on_heap ? -1 : memfd_create("zone", 0);
    if (on_heap) {
        return;
    }
    if (file < 0 || ftruncate(file, (off_t)SPAN) != 0) {
        fail("no memory");
    }
    zone->view = map_between(file, PROT_READ | PROT_WRITE);
    zone->reading = map_between(file, PROT_READ);
    zone->span = SPAN;
    close(file);
}

/* Takes so many octets of the zone: the first ones or the last, at random. */
static inline uint8_t *take(struct zone *zone, size_t size)
{
    if (on_heap) {
        free(zone->view);
        zone->view = zone->reading = malloc(size == 0 ? 1 : size);
        if (zone->view == NULL) {
            fail("no memory");
        }
        zone->span = size;
    }
    zone->size = size;
    zone->at = below(2) == 0 ? 0 : zone->span - size;
    memset(zone->view, (int)below(256), zone->span);
    return zone->view + zone->at;
}

static inline void keep(struct zone *zone)
{
    memcpy(zone->before, zone->view, zone->span);
}

/* Fails if an octet changed outside the first `allowed` of the lent part. */
static inline void check_zone(const struct zone *zone, size_t allowed, const char *what)
{
    size_t end = zone->at + allowed;
    if (memcmp(zone->view, zone->before, zone->at) != 0 ||
        memcmp(zone->view + end, zone->before + end, zone->span - end) != 0) {
        fail(what);
    }
}

/* The same after a wipe, which may change no octet outside the lent part and leaves zeros there. */
static inline void check_wiped(const struct zone *zone)
{
    size_t at;
    check_zone(zone, zone->size, "a wipe changed octets that it may not");
    for (at = 0; at < zone->size; at++) {
        if (zone->view[zone->at + at] != 0) {
            fail("a wipe left something");
        }
    }
}

static inline uint64_t *lent_words(void)
{
    return (uint64_t *)(void *)(words.view + words.at);
}

static inline uint16_t *lent_sums(void)
{
    return (uint16_t *)(void *)(sums.view + sums.at);
}

static inline uint8_t *lent_spread(void)
{
    return spread.view + spread.at;
}

/* The words through the view that can't be written. */
static inline const uint64_t *read_words(void)
{
    return (const uint64_t *)(const void *)(words.reading + words.at);
}

/* Before each call: what it was called for messages, and what stands in the lent memory. */
static inline void begin(const char *call)
{
    calling = call;
    keep(&words);
    keep(&sums);
    keep(&spread);
    keep(&octets);
    keep(&out);
    calls++;
}

/* Each reported frame has the head and the length of a message that this end sends. */
static inline void check_frames(struct lahzavar_answer answer, const struct limits *limits)
{
    static const uint8_t head[3] = {0x88, 0xE1, 0x01};
    uint32_t frames = 0;
    size_t at, length;
    for (at = 0; at < answer.octets; at += length) {
        const uint8_t *frame = out.view + out.at + at;
        length = lahzavar_frame_octets(frame, answer.octets - at);
        if (length < FRAME_LEAST || memcmp(frame + 12, head, 3) != 0 ||
            length != limits->octets_of(frame, length)) {
            fail("a frame that this end never sends");
        }
        frames++;
    }
    if (frames != answer.frames) {
        fail("another number of frames than there are");
    }
}

/* A refusal's number, or 0. */
static inline void check_refusal(uint32_t refusal)
{
    if (refusal > LAHZAVAR_LAST_REFUSAL) {
        fail("a number out of range");
    }
    if (wiped && refusal != LAHZAVAR_BAD_CONFIGURATION) {
        fail("another answer than 16 after a wipe");
    }
}

/* What every answer promises. */
static inline void check_answer(struct lahzavar_answer answer, const struct limits *limits)
{
    int refused = answer.refusal != LAHZAVAR_ACCEPTED;
    accepted += !refused;
    check_refusal(answer.refusal);
    if (answer.indication > limits->indication) {
        fail("a number out of range");
    }
    if (refused && (answer.indication | answer.frames | answer.octets) != 0) {
        fail("a refusal with an answer");
    }
    if (answer.octets > out.size || answer.frames > limits->frames || (answer.frames == 0) != (answer.octets == 0)) {
        fail("more frames than there can be");
    }
    check_frames(answer, limits);
    check_zone(&words, refused ? 0 : words.size, "words changed that may not");
    check_zone(&sums, refused ? 0 : sums.size, "sums changed that may not");
    check_zone(&spread, refused ? 0 : spread.size, "a spread changed that may not");
    check_zone(&octets, 0, "the frame was changed");
    check_zone(&out, answer.octets, "output changed that may not");
}

/* What configuring promises: words, sums and spread change, whether it is refused or not. */
static inline void check_configured(struct lahzavar_answer answer)
{
    if (answer.refusal != LAHZAVAR_ACCEPTED && answer.refusal != LAHZAVAR_BAD_CONFIGURATION) {
        fail("a number out of range");
    }
    if ((answer.indication | answer.frames | answer.octets) != 0) {
        fail("more than a refusal");
    }
    check_zone(&words, words.size, "words changed that may not");
    check_zone(&sums, sums.size, "sums changed that may not");
    check_zone(&spread, spread.size, "a spread changed that may not");
}

/* One word, changed in one of several ways; the address is one that the end knows. */
static inline uint64_t changed(uint64_t word, uint64_t address)
{
    static const uint64_t limits[] = {0,          1,          4,          7,          10,     13,         16,
                                      40,         58,         100,        200,        256,    400,        600,
                                      1000,       1155,       1200,       10000,      12000,  14790,      25600,
                                      50000,      0xFFFF,     0xFFFFFFFF, 1ull << 32, 1ull << 47, 1ull << 48,
                                      1ull << 54, 1ull << 63, ~0ull};
    switch (below(5)) {
    case 0:
        return next_random();
    case 1:
        return below(16);
    case 2:
        return word ^ 1ull << below(64);
    case 3:
        return address;
    default:
        return limits[below(sizeof limits / sizeof *limits)] + below(3) - 1;
    }
}

static inline size_t write_random(uint8_t *frame)
{
    size_t at, length = below(FRAME_MOST + 1);
    for (at = 0; at < length; at++) {
        frame[at] = (uint8_t)next_random();
    }
    return length;
}

/* Lends a frame, now and then with a bit changed or cut short. */
static inline void lend_frame(uint8_t *frame, size_t length)
{
    if (length > 0 && below(8) == 0) {
        frame[below(length)] ^= (uint8_t)(1u << below(8));
    }
    if (below(16) == 0) {
        length = below(length + 1);
    }
    memcpy(take(&octets, length), frame, length);
}

/* Lends an output: mostly enough room, now and then too little. */
static inline void lend_output(size_t least)
{
    switch (below(8)) {
    case 0:
        (void)take(&out, below(least));
        break;
    case 1:
        (void)take(&out, least + below(ROOM_MOST - least));
        break;
    default:
        (void)take(&out, least);
        break;
    }
}

/* The clock as it may stand, and a little later: most ticks are taken. */
static inline uint32_t some_reading(void)
{
    switch (below(4)) {
    case 0:
        return (uint32_t)next_random();
    case 1:
        return (uint32_t)below(60002);
    default:
        return 1000 + (uint32_t)below(700);
    }
}

/* The whole program of one end; gives its exit status. Usage: ROUNDS SEED [heap] */
static inline int run_rounds(int count, char **arguments, void (*set_up)(void), void (*round_of_calls)(void))
{
    static const int signals[] = {SIGSEGV, SIGBUS, SIGILL, SIGFPE, SIGABRT, SIGALRM};
    struct zone *zones[] = {&words, &sums, &spread, &octets, &out};
    unsigned long rounds = count > 1 ? strtoul(arguments[1], NULL, 10) : 10000;
    size_t at;
    random_state = count > 2 ? strtoull(arguments[2], NULL, 10) : 1;
    on_heap = count > 3;
    for (at = 0; at < sizeof signals / sizeof *signals; at++) {
        signal(signals[at], on_signal);
    }
    for (at = 0; at < sizeof zones / sizeof *zones; at++) {
        make_zone(zones[at]);
        (void)take(zones[at], 0);
    }
    set_up();
    for (round_now = 1; round_now <= rounds; round_now++) {
        alarm(SECONDS);
        round_of_calls();
    }
    printf("%lu rounds, %lu calls, %lu accepted\n", rounds, calls, accepted);
    return 0;
}

#endif
