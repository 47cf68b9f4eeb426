/* The frames that cars and the modem send to a station, for the examples and the tests; a driver needs none of this. */
#ifndef CAR_FRAMES_H
#define CAR_FRAMES_H

#include "lahzavar.h"

#include <string.h>

#define FRAME_HEAD 19u
#define FRAME_LEAST 60u
#define FRAME_MOST LAHZAVAR_MAP_OCTETS

enum message_type {
    CM_SET_KEY_REQ = 0x6008,
    CM_SET_KEY_CNF = 0x6009,
    CM_AMP_MAP_REQ = 0x601C,
    CM_AMP_MAP_CNF = 0x601D,
    CM_SLAC_PARM_REQ = 0x6064,
    CM_SLAC_PARM_CNF = 0x6065,
    CM_START_ATTEN_CHAR_IND = 0x606A,
    CM_ATTEN_CHAR_IND = 0x606E,
    CM_ATTEN_CHAR_RSP = 0x606F,
    CM_MNBC_SOUND_IND = 0x6076,
    CM_VALIDATE_REQ = 0x6078,
    CM_VALIDATE_CNF = 0x6079,
    CM_SLAC_MATCH_REQ = 0x607C,
    CM_SLAC_MATCH_CNF = 0x607D,
    CM_ATTEN_PROFILE_IND = 0x6086
};

static const uint8_t broadcast_address[6] = {0xFF, 0xFF, 0xFF, 0xFF, 0xFF, 0xFF};

/* One car: its address and the RunID of its matching run. */
struct car {
    uint8_t address[6];
    uint8_t run[8];
};

/* Writes a frame's head and zeros behind it, and gives its length. */
static inline size_t write_head(uint8_t *frame, const uint8_t *to, const uint8_t *from, unsigned type, size_t payload)
{
    size_t length = FRAME_HEAD + payload < FRAME_LEAST ? FRAME_LEAST : FRAME_HEAD + payload;
    memset(frame, 0, length);
    memcpy(frame, to, 6);
    memcpy(frame + 6, from, 6);
    frame[12] = 0x88;
    frame[13] = 0xE1;
    frame[14] = 0x01;
    frame[15] = (uint8_t)(type & 0xFF);
    frame[16] = (uint8_t)(type >> 8);
    return length;
}

/* The message type of a frame, or 0 where it has none. */
static inline unsigned frame_type(const uint8_t *frame, size_t length)
{
    return length < FRAME_HEAD ? 0u : (unsigned)frame[15] | (unsigned)frame[16] << 8;
}

static inline size_t write_parm_req(uint8_t *frame, const struct car *car)
{
    size_t length = write_head(frame, broadcast_address, car->address, CM_SLAC_PARM_REQ, 10);
    memcpy(frame + FRAME_HEAD + 2, car->run, 8);
    return length;
}

static inline size_t write_start(uint8_t *frame, const struct car *car)
{
    static const uint8_t sounding[3] = {0x0A, 0x06, 0x01};
    size_t length = write_head(frame, broadcast_address, car->address, CM_START_ATTEN_CHAR_IND, 19);
    memcpy(frame + FRAME_HEAD + 2, sounding, 3);
    memcpy(frame + FRAME_HEAD + 5, car->address, 6);
    memcpy(frame + FRAME_HEAD + 11, car->run, 8);
    return length;
}

static inline size_t write_sound(uint8_t *frame, const struct car *car, unsigned count)
{
    size_t length = write_head(frame, broadcast_address, car->address, CM_MNBC_SOUND_IND, 52);
    frame[FRAME_HEAD + 19] = (uint8_t)count;
    memcpy(frame + FRAME_HEAD + 20, car->run, 8);
    memset(frame + FRAME_HEAD + 36, (int)(count + 1), 16);
    return length;
}

/* What the modem measured of one sound, the same value in every group. */
static inline size_t write_profile(uint8_t *frame, const uint8_t *modem, const uint8_t *station, const uint8_t *car,
                                   unsigned value)
{
    size_t length = write_head(frame, station, modem, CM_ATTEN_PROFILE_IND, 8 + LAHZAVAR_GROUPS);
    memcpy(frame + FRAME_HEAD, car, 6);
    frame[FRAME_HEAD + 6] = LAHZAVAR_GROUPS;
    memset(frame + FRAME_HEAD + 8, (int)value, LAHZAVAR_GROUPS);
    return length;
}

/* The same with a value for each group. */
static inline size_t write_profile_of(uint8_t *frame, const uint8_t *modem, const uint8_t *station, const uint8_t *car,
                                      const uint8_t values[LAHZAVAR_GROUPS])
{
    size_t length = write_profile(frame, modem, station, car, 0);
    memcpy(frame + FRAME_HEAD + 8, values, LAHZAVAR_GROUPS);
    return length;
}

static inline size_t write_rsp(uint8_t *frame, const struct car *car, const uint8_t *station)
{
    size_t length = write_head(frame, station, car->address, CM_ATTEN_CHAR_RSP, 51);
    memcpy(frame + FRAME_HEAD + 2, car->address, 6);
    memcpy(frame + FRAME_HEAD + 8, car->run, 8);
    return length;
}

/*
 * The first request of a validation, to its station, with the timer 0, or the second one, to broadcast_address: the station
 * then counts for 100 ms times the timer and one more.
 */
static inline size_t write_validate_req(uint8_t *frame, const struct car *car, const uint8_t *to, unsigned timer)
{
    size_t length = write_head(frame, to, car->address, CM_VALIDATE_REQ, 3);
    frame[FRAME_HEAD + 1] = (uint8_t)timer;
    frame[FRAME_HEAD + 2] = 1;
    return length;
}

static inline size_t write_match_req(uint8_t *frame, const struct car *car, const uint8_t *station)
{
    size_t length = write_head(frame, station, car->address, CM_SLAC_MATCH_REQ, 66);
    frame[FRAME_HEAD + 2] = 0x3E;
    memcpy(frame + FRAME_HEAD + 21, car->address, 6);
    memcpy(frame + FRAME_HEAD + 44, station, 6);
    memcpy(frame + FRAME_HEAD + 50, car->run, 8);
    return length;
}

/* The amplitude map of a car, the same value for each of so many carriers. */
static inline size_t write_map_req(uint8_t *frame, const struct car *car, const uint8_t *station, unsigned carriers,
                                   unsigned value)
{
    size_t length = write_head(frame, station, car->address, CM_AMP_MAP_REQ, 2 + (carriers + 1) / 2);
    frame[FRAME_HEAD] = (uint8_t)(carriers & 0xFF);
    frame[FRAME_HEAD + 1] = (uint8_t)(carriers >> 8);
    memset(frame + FRAME_HEAD + 2, (int)(value | value << 4), carriers / 2);
    if (carriers % 2 != 0) {
        frame[FRAME_HEAD + 2 + carriers / 2] = (uint8_t)value;
    }
    return length;
}

#endif
