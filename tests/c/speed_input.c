/*
 * The inputs of the speed measurement, on standard output: speed_input INPUT FRAMES SEED [sae]
 *
 * Of every ten frames one is the next of our own car's matching, and nine are foreign. With the input `foreign` each is of
 * one of ten kinds with the same chance, and refused. With `neighbours` they are what is heard of twenty-four cars that
 * begin to match with stations of their own when our car does: each asks and is answered in turn, and from then on the next
 * frame is one of any of them. With our car, the first of them hold every record, and the requests of the others are
 * refused.
 *
 * Each frame is preceded by its length in two octets, low one first. Length 0 stands for the end of our car's matching: link
 * up, then the pilot goes to A and to B again. With `sae` the frames are those of the SAE edition, else those of the ISO
 * one; all matchings are first tries.
 */
#include "random.h"
#include "speed_frames.h"

#include <stdio.h>
#include <stdlib.h>

#define NEIGHBOURS 24u

static enum lahzavar_edition edition = LAHZAVAR_ISO;
static uint8_t frame[FRAME_MOST];
static struct told ours;
static struct told neighbours[NEIGHBOURS];
static unsigned heard[NEIGHBOURS]; /* how many frames of each, */
static unsigned asking;            /* and of the requests and their answers */

static void fill(uint8_t *octets, size_t count)
{
    size_t at;
    for (at = 0; at < count; at++) {
        octets[at] = (uint8_t)next_random();
    }
}

static void put(size_t length)
{
    putchar((int)(length & 0xFF));
    putchar((int)(length >> 8));
    if (fwrite(frame, 1, length, stdout) != length) {
        perror("standard output");
        exit(1);
    }
}

static void put_kind(enum kind kind, const struct told *told)
{
    put(write_kind(frame, edition, kind, told));
}

/* A car and its station, with a new run and all that its frames tell. */
static void tell(struct told *told, unsigned place, unsigned car, const uint8_t station[6])
{
    memset(told, 0, sizeof *told);
    told->car.address[0] = 2;
    told->car.address[4] = (uint8_t)place;
    told->car.address[5] = (uint8_t)car;
    fill(told->car.run, 8);
    told->car.run[0] |= 1;
    memcpy(told->station, station, 6);
    told->value = (unsigned)below(256);
    told->groups = LAHZAVAR_GROUPS;
    told->values = first_try;
    fill(told->ids, SAE_IDS);
}

/* One foreign frame; the comments give the refusal's number. In SAE it is of any try and any number of groups. */
static void put_foreign(void)
{
    static const enum kind kinds[10] = {
        RSP,           MATCH_REQ,            /* to another station: 7 */
        PARM_CNF,      REPORT,    MATCH_CNF, /* to its car: 17 */
        START,         SOUND,     PROFILE,   /* of a car without a record: 11 */
        OTHER_TYPE,                          /* 3 */
        OTHER_PROTOCOL                       /* 2 */
    };
    enum kind kind = kinds[below(10)];
    uint8_t other[6] = {2, 0, 0, 0, 2, (uint8_t)below(256)};
    struct told told;
    tell(&told, 1, (unsigned)below(256), kind == PROFILE ? us : other);
    told.count = (unsigned)below(8);
    told.groups = 1 + (unsigned)below(LAHZAVAR_GROUPS);
    told.values = below(2) == 0 ? first_try : later_try;
    put_kind(kind, &told);
}

/* A request, three starts, a sound and a profile for each of the try's, response and match request. */
static unsigned matching_frames(void)
{
    return 6u + 2u * (edition == LAHZAVAR_SAE ? 8u : 10u);
}

/* The frame of a car's matching at a place. */
static void put_matching(struct told *told, unsigned at)
{
    unsigned last = matching_frames() - 1;
    told->count = at < 4 ? 0 : (at - 4) / 2;
    told->value = (unsigned)below(256);
    put_kind(at == 0          ? PARM_REQ
             : at < 4         ? START
             : at == last - 1 ? RSP
             : at == last     ? MATCH_REQ
             : at % 2 == 0    ? SOUND
                              : PROFILE,
             told);
}

/* What is heard of a neighbour's matching: its frames, and what its own station sends between them. */
static void put_heard(struct told *told, unsigned at)
{
    unsigned frames = matching_frames();
    struct told measured = *told;
    if (at == 1 || at == frames - 1 || at == frames + 2) {
        put_kind(at == 1 ? PARM_CNF : at == frames - 1 ? REPORT : MATCH_CNF, told);
        return;
    }
    at = at == 0 ? 0 : at < frames ? at - 1 : at - 2;
    memcpy(measured.station, us, 6);
    put_matching(4 <= at && at < frames - 2 ? &measured : told, at);
}

/* Our car and all neighbours begin a matching, each with its own station. */
static void begin(void)
{
    unsigned place;
    tell(&ours, 0, 1, us);
    for (place = 0; place < NEIGHBOURS; place++) {
        uint8_t other[6] = {2, 0, 0, 0, 2, (uint8_t)place};
        tell(&neighbours[place], 1, place, other);
        heard[place] = 0;
    }
    asking = 0;
}

/* The next frame of a neighbour: first the request of each and its answer. */
static void put_neighbour(void)
{
    unsigned place = asking < 2 * NEIGHBOURS ? asking++ / 2 : (unsigned)below(NEIGHBOURS);
    put_heard(&neighbours[place], heard[place]);
    heard[place] = (heard[place] + 1) % (matching_frames() + 3);
}

/* The next frame of our car's matching; behind its last, the next plug-in. */
static void put_own(void)
{
    static unsigned own;
    put_matching(&ours, own);
    own = (own + 1) % matching_frames();
    if (own == 0) {
        put(0);
        begin();
    }
}

int main(int count, char **arguments)
{
    int among_neighbours = count > 1 && strcmp(arguments[1], "neighbours") == 0;
    unsigned long frames = count > 2 ? strtoul(arguments[2], NULL, 10) : 1000000, at;
    size_t place = 0;
    random_state = count > 3 ? strtoull(arguments[3], NULL, 10) : 1;
    edition = count > 4 && strcmp(arguments[4], "sae") == 0 ? LAHZAVAR_SAE : LAHZAVAR_ISO;
    begin();
    for (at = 0; at < frames; at++) {
        place = at % 10 == 0 ? below(10) : place;
        if (at % 10 == place) {
            put_own();
        } else if (among_neighbours) {
            put_neighbour();
        } else {
            put_foreign();
        }
    }
    return fflush(stdout) == 0 ? 0 : 1;
}
