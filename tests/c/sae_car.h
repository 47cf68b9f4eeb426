/*
 * A car of the SAE edition for the tests, which the library does not have. It asks, sounds by the first confirmation that it
 * gets, answers every report, and asks the station with the least mean for its key, each time with other identifiers. In
 * every second start it asks twice, as if the confirmations came too late, so that its try is a later one; a station that was
 * plugged in meanwhile is of a first try. A start has the values of one try, and is refused by the stations of the other.
 * Whoever drives the car calls sae_car_turn() in every millisecond, hands it each frame, and sends what it writes.
 */
#ifndef SAE_CAR_H
#define SAE_CAR_H

#include "random.h"
#include "sae_frames.h"

/* How long it waits for a confirmation, for reports behind the time of its sounds, and for a key. */
#define SAE_PATIENCE 300u
#define SAE_STARTS 3u
#define SAE_REQUESTS 4u /* then it gives up */

enum sae_step { SAE_IDLE, SAE_ASKING, SAE_SOUNDING, SAE_LISTENING, SAE_REQUESTING, SAE_FAILED, SAE_JOINED };

struct sae_car {
    struct car car;
    enum sae_step step;
    uint32_t due;                /* when it does something next */
    uint32_t listens_until, gap; /* to reports, and from one sound to the next */
    uint8_t values[2];           /* of its try */
    bool tries_differed;         /* whether stations have ever been of different tries */
    unsigned asks_left, starts_left, sounds_left, requests_left;
    unsigned limit;       /* it asks no station whose mean is as high */
    unsigned mean;        /* the least one so far, */
    uint8_t chosen[6];    /* and its station */
    uint8_t ids[SAE_IDS]; /* of its last match request */
};

static inline void sae_car_fill(uint8_t *octets, size_t count)
{
    size_t at;
    for (at = 0; at < count; at++) {
        octets[at] = (uint8_t)next_random();
    }
}

/* Starts a matching with a new RunID, which is not empty. Gives the length of the request that it writes. */
static inline size_t sae_car_start(struct sae_car *own, uint32_t now, uint8_t *frame)
{
    sae_car_fill(own->car.run, 8);
    own->car.run[0] |= 1;
    own->step = SAE_ASKING;
    own->due = now + SAE_PATIENCE;
    own->mean = own->limit;
    own->asks_left = (unsigned)below(2);
    own->requests_left = SAE_REQUESTS;
    return write_parm_req(frame, &own->car);
}

/* Whether a frame is a confirmation that a car of this edition can read. */
static inline bool sae_car_is_confirmed(const uint8_t *payload)
{
    static const uint8_t zeros[7];
    return (memcmp(payload + 6, first_try, 2) == 0 || memcmp(payload + 6, later_try, 2) == 0) &&
           memcmp(payload + 8, zeros, 7) == 0;
}

/* The first confirmation tells the try: its sounds, and the time that they have. */
static inline void sae_car_take_try(struct sae_car *own, const uint8_t *payload, uint32_t now)
{
    if (!sae_car_is_confirmed(payload) || own->asks_left > 0) {
        return;
    }
    if (own->step != SAE_ASKING) {
        own->tries_differed = own->tries_differed || memcmp(own->values, payload + 6, 2) != 0;
        return;
    }
    memcpy(own->values, payload + 6, 2);
    own->step = SAE_SOUNDING;
    own->due = now + 100;
    own->starts_left = SAE_STARTS;
    own->sounds_left = own->values[0];
    own->gap = 10 + (uint32_t)below(own->values[0] == first_try[0] ? 11 : 41);
    own->listens_until = own->due + 100u * own->values[1] + SAE_PATIENCE;
}

/* A report, which it answers; keeps the station with the least mean. */
static inline size_t sae_car_take_report(struct sae_car *own, const uint8_t *report, uint8_t *frame)
{
    unsigned groups = report[FRAME_HEAD + 51], total = 0, group;
    uint8_t ids[SAE_IDS];
    for (group = 0; group < groups; group++) {
        total += report[FRAME_HEAD + 52 + group];
    }
    if (total / groups < own->mean && own->step <= SAE_LISTENING) {
        own->mean = total / groups;
        memcpy(own->chosen, report + 6, 6);
    }
    sae_car_fill(ids, SAE_IDS);
    return write_sae_rsp(frame, &own->car, report + 6, ids);
}

/* A frame of the line. Gives the length of the one that it writes, or 0; a key it leaves to its caller. */
static inline size_t sae_car_hear(struct sae_car *own, const uint8_t *octets, size_t length, uint32_t now, uint8_t *frame)
{
    const uint8_t *payload = octets + FRAME_HEAD;
    unsigned type = frame_type(octets, length);
    if (memcmp(octets, own->car.address, 6) != 0) {
        return 0;
    }
    if (type == CM_SLAC_PARM_CNF && memcmp(payload + 17, own->car.run, 8) == 0) {
        sae_car_take_try(own, payload, now);
    } else if (type == CM_ATTEN_CHAR_IND && memcmp(payload + 8, own->car.run, 8) == 0) {
        return sae_car_take_report(own, octets, frame);
    }
    return 0;
}

/* The next start or sound. */
static inline size_t sae_car_sound(struct sae_car *own, uint32_t now, uint8_t *frame)
{
    uint8_t sender[SAE_ID];
    if (own->starts_left > 0) {
        own->starts_left--;
        own->due = now + 5;
        return write_sae_start(frame, &own->car, own->values);
    }
    own->sounds_left--;
    own->due = now + own->gap;
    if (own->sounds_left == 0) {
        own->step = SAE_LISTENING;
        own->due = own->listens_until;
    }
    sae_car_fill(sender, SAE_ID);
    return write_sae_sound(frame, &own->car, own->sounds_left, sender);
}

/* Asks the chosen station for its key, or fails where there is none or it has asked often enough. */
static inline size_t sae_car_request(struct sae_car *own, uint32_t now, uint8_t *frame)
{
    if (own->mean == own->limit || own->requests_left == 0) {
        own->step = SAE_FAILED;
        return 0;
    }
    own->requests_left--;
    own->step = SAE_REQUESTING;
    own->due = now + SAE_PATIENCE;
    sae_car_fill(own->ids, SAE_IDS);
    return write_sae_match_req(frame, &own->car, own->chosen, own->ids);
}

/* Asks again, or fails where no confirmation has come. */
static inline size_t sae_car_ask_again(struct sae_car *own, uint32_t now, uint8_t *frame)
{
    if (own->asks_left == 0) {
        own->step = SAE_FAILED;
        return 0;
    }
    own->asks_left--;
    own->due = now + SAE_PATIENCE;
    return write_parm_req(frame, &own->car);
}

/* What is due in this millisecond. Gives the length of the frame that it writes, or 0. */
static inline size_t sae_car_turn(struct sae_car *own, uint32_t now, uint8_t *frame)
{
    if (own->step == SAE_IDLE || own->step >= SAE_FAILED || own->due != now) {
        return 0;
    }
    if (own->step == SAE_ASKING) {
        return sae_car_ask_again(own, now, frame);
    }
    return own->step == SAE_SOUNDING ? sae_car_sound(own, now, frame) : sae_car_request(own, now, frame);
}

#endif
