/* The frames that a station sends to a car, for the tests of the car's end. */
#ifndef STATION_FRAMES_H
#define STATION_FRAMES_H

#include "car_frames.h"

static inline size_t write_parm_cnf(uint8_t *frame, const struct car *car, const uint8_t *station)
{
    static const uint8_t fixed[9] = {0xFF, 0xFF, 0xFF, 0xFF, 0xFF, 0xFF, 0x0A, 0x06, 0x01};
    size_t length = write_head(frame, car->address, station, CM_SLAC_PARM_CNF, 25);
    memcpy(frame + FRAME_HEAD, fixed, 9);
    memcpy(frame + FRAME_HEAD + 9, car->address, 6);
    memcpy(frame + FRAME_HEAD + 17, car->run, 8);
    return length;
}

/* CM_ATTEN_CHAR.IND: so many sounds used, and group values with this sum. */
static inline size_t write_report(uint8_t *frame, const struct car *car, const uint8_t *station, unsigned sounds,
                                  unsigned total)
{
    size_t length = write_head(frame, car->address, station, CM_ATTEN_CHAR_IND, 52 + LAHZAVAR_GROUPS);
    unsigned group;
    memcpy(frame + FRAME_HEAD + 2, car->address, 6);
    memcpy(frame + FRAME_HEAD + 8, car->run, 8);
    frame[FRAME_HEAD + 50] = (uint8_t)sounds;
    frame[FRAME_HEAD + 51] = LAHZAVAR_GROUPS;
    for (group = 0; group < LAHZAVAR_GROUPS; group++) {
        frame[FRAME_HEAD + 52 + group] = (uint8_t)(total / LAHZAVAR_GROUPS + (group < total % LAHZAVAR_GROUPS));
    }
    return length;
}

/* What a station answers to a validate request: the toggles that it has counted, and a result. */
static inline size_t write_validate_cnf(uint8_t *frame, const struct car *car, const uint8_t *station, unsigned toggles,
                                        unsigned result)
{
    size_t length = write_head(frame, car->address, station, CM_VALIDATE_CNF, 3);
    frame[FRAME_HEAD + 1] = (uint8_t)toggles;
    frame[FRAME_HEAD + 2] = (uint8_t)result;
    return length;
}

/* What a station answers to an amplitude map: 0 for success, 1 for failure. */
static inline size_t write_map_cnf(uint8_t *frame, const struct car *car, const uint8_t *station, unsigned result)
{
    size_t length = write_head(frame, car->address, station, CM_AMP_MAP_CNF, 1);
    frame[FRAME_HEAD] = (uint8_t)result;
    return length;
}

static inline size_t write_match_cnf(uint8_t *frame, const struct car *car, const uint8_t *station, const uint8_t nid[7],
                                     const uint8_t nmk[16])
{
    size_t length = write_head(frame, car->address, station, CM_SLAC_MATCH_CNF, 90);
    frame[FRAME_HEAD + 2] = 0x56;
    memcpy(frame + FRAME_HEAD + 21, car->address, 6);
    memcpy(frame + FRAME_HEAD + 44, station, 6);
    memcpy(frame + FRAME_HEAD + 50, car->run, 8);
    memcpy(frame + FRAME_HEAD + 66, nid, 7);
    memcpy(frame + FRAME_HEAD + 74, nmk, 16);
    return length;
}

#endif
