/*
 * The frames that are written otherwise in the SAE edition, for the tests. An SAE car's request, and its response without
 * identifiers, are those of car_frames.h.
 */
#ifndef SAE_FRAMES_H
#define SAE_FRAMES_H

#include "car_frames.h"

/* The octets of an identifier; those of a frame stand back to back here, though not in each frame. */
#define SAE_ID 17u
#define SAE_IDS (2 * SAE_ID)

/* The values of a try as they stand in frames: how many sounds, and how many times 100 ms they have. */
static const uint8_t first_try[2] = {8, 2};
static const uint8_t later_try[2] = {16, 10};

static inline size_t write_sae_start(uint8_t *frame, const struct car *car, const uint8_t values[2])
{
    size_t length = write_head(frame, broadcast_address, car->address, CM_START_ATTEN_CHAR_IND, 19);
    memcpy(frame + FRAME_HEAD + 2, values, 2);
    memcpy(frame + FRAME_HEAD + 11, car->run, 8);
    return length;
}

static inline size_t write_sae_sound(uint8_t *frame, const struct car *car, unsigned count, const uint8_t sender[SAE_ID])
{
    size_t length = write_sound(frame, car, count);
    memcpy(frame + FRAME_HEAD + 2, sender, SAE_ID);
    return length;
}

/* What the modem measured of one sound, the same value in so many groups. */
static inline size_t write_sae_profile(uint8_t *frame, const uint8_t *modem, const uint8_t *station, const uint8_t *car,
                                       unsigned groups, unsigned value)
{
    size_t length = write_head(frame, station, modem, CM_ATTEN_PROFILE_IND, 8 + groups);
    memcpy(frame + FRAME_HEAD, car, 6);
    frame[FRAME_HEAD + 6] = (uint8_t)groups;
    memset(frame + FRAME_HEAD + 8, (int)value, groups);
    return length;
}

static inline size_t write_sae_rsp(uint8_t *frame, const struct car *car, const uint8_t *station, const uint8_t ids[SAE_IDS])
{
    size_t length = write_rsp(frame, car, station);
    memcpy(frame + FRAME_HEAD + 16, ids, SAE_IDS);
    return length;
}

static inline size_t write_sae_match_req(uint8_t *frame, const struct car *car, const uint8_t *station,
                                         const uint8_t ids[SAE_IDS])
{
    size_t length = write_match_req(frame, car, station);
    memcpy(frame + FRAME_HEAD + 4, ids, SAE_ID);
    memcpy(frame + FRAME_HEAD + 27, ids + SAE_ID, SAE_ID);
    return length;
}

/* From here on: what a station sends. */

static inline size_t write_sae_parm_cnf(uint8_t *frame, const struct car *car, const uint8_t *station,
                                        const uint8_t values[2])
{
    size_t length = write_head(frame, car->address, station, CM_SLAC_PARM_CNF, 25);
    memset(frame + FRAME_HEAD, 0xFF, 6);
    memcpy(frame + FRAME_HEAD + 6, values, 2);
    memcpy(frame + FRAME_HEAD + 17, car->run, 8);
    return length;
}

/* CM_ATTEN_CHAR.IND: so many sounds used, and the same value in so many groups. */
static inline size_t write_sae_report(uint8_t *frame, const struct car *car, const uint8_t *station, unsigned sounds,
                                      unsigned groups, unsigned value)
{
    size_t length = write_head(frame, car->address, station, CM_ATTEN_CHAR_IND, 52 + groups);
    memcpy(frame + FRAME_HEAD + 2, car->address, 6);
    memcpy(frame + FRAME_HEAD + 8, car->run, 8);
    frame[FRAME_HEAD + 50] = (uint8_t)sounds;
    frame[FRAME_HEAD + 51] = (uint8_t)groups;
    memset(frame + FRAME_HEAD + 52, (int)value, groups);
    return length;
}

static inline size_t write_sae_match_cnf(uint8_t *frame, const struct car *car, const uint8_t *station,
                                         const uint8_t ids[SAE_IDS], const uint8_t nid[7], const uint8_t nmk[16])
{
    size_t length = write_head(frame, car->address, station, CM_SLAC_MATCH_CNF, 90);
    frame[FRAME_HEAD + 2] = 0x56;
    memcpy(frame + FRAME_HEAD + 4, ids, SAE_ID);
    memcpy(frame + FRAME_HEAD + 21, car->address, 6);
    memcpy(frame + FRAME_HEAD + 27, ids + SAE_ID, SAE_ID);
    memcpy(frame + FRAME_HEAD + 44, station, 6);
    memcpy(frame + FRAME_HEAD + 50, car->run, 8);
    memcpy(frame + FRAME_HEAD + 66, nid, 7);
    memcpy(frame + FRAME_HEAD + 74, nmk, 16);
    return length;
}

#endif
