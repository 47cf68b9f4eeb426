/* The frames of the speed measurement, by their kind, in either edition. */
#ifndef SPEED_FRAMES_H
#define SPEED_FRAMES_H

#include "sae_frames.h"
#include "station_frames.h"

/* What a station hears: what cars and its modem send, and what another station answers to its car. */
enum kind {
    PARM_REQ,
    START,
    SOUND,
    PROFILE,
    RSP,
    FIRST_VALIDATE_REQ,
    SECOND_VALIDATE_REQ,
    MATCH_REQ,
    PARM_CNF,
    REPORT,
    VALIDATE_CNF,
    MATCH_CNF,
    MAP_REQ,
    MAP_CNF,
    OTHER_TYPE,
    OTHER_PROTOCOL
};

/* What a frame tells: its car and station, and as far as its kind has them the sound's count, a value for all groups, their
   number, the try's values and identifiers, these three in the SAE edition alone, and the carriers of an amplitude map. */
struct told {
    struct car car;
    uint8_t station[6];
    unsigned count, value, groups;
    const uint8_t *values;
    uint8_t ids[SAE_IDS];
    unsigned carriers;
};

static const uint8_t us[6] = {2, 0, 0, 0, 0, 0xAA};
static const uint8_t our_modem[6] = {2, 0, 0, 0, 0, 0xBB};

static inline size_t write_iso_kind(uint8_t *frame, enum kind kind, const struct told *told)
{
    static const uint8_t nid[7] = {7, 6, 5, 4, 3, 2, 1}, nmk[16] = {0x6B};
    size_t length;
    switch (kind) {
    case PARM_REQ:
        return write_parm_req(frame, &told->car);
    case START:
        return write_start(frame, &told->car);
    case SOUND:
        return write_sound(frame, &told->car, told->count);
    case PROFILE:
        return write_profile(frame, our_modem, told->station, told->car.address, told->value);
    case RSP:
        return write_rsp(frame, &told->car, told->station);
    case FIRST_VALIDATE_REQ:
        return write_validate_req(frame, &told->car, told->station, 0);
    case SECOND_VALIDATE_REQ:
        return write_validate_req(frame, &told->car, broadcast_address, 9);
    case MATCH_REQ:
        return write_match_req(frame, &told->car, told->station);
    case PARM_CNF:
        return write_parm_cnf(frame, &told->car, told->station);
    case REPORT:
        return write_report(frame, &told->car, told->station, 10, told->value * LAHZAVAR_GROUPS);
    case VALIDATE_CNF:
        return write_validate_cnf(frame, &told->car, told->station, 0, 1);
    case MATCH_CNF:
        return write_match_cnf(frame, &told->car, told->station, nid, nmk);
    case OTHER_TYPE:
        return write_head(frame, told->station, told->car.address, CM_SET_KEY_REQ + told->value % 0x14, 38);
    default:
        length = write_head(frame, broadcast_address, told->car.address, CM_SLAC_PARM_REQ, 10);
        frame[12] = 0x86;
        frame[13] = 0xDD;
        return length;
    }
}

/* The kinds that are written otherwise in SAE. */
static inline size_t write_sae_kind(uint8_t *frame, enum kind kind, const struct told *told)
{
    static const uint8_t nid[7] = {7, 6, 5, 4, 3, 2, 1}, nmk[16] = {0x6B};
    switch (kind) {
    case START:
        return write_sae_start(frame, &told->car, told->values);
    case SOUND:
        return write_sae_sound(frame, &told->car, told->count, told->ids);
    case PROFILE:
        return write_sae_profile(frame, our_modem, told->station, told->car.address, told->groups, told->value);
    case RSP:
        return write_sae_rsp(frame, &told->car, told->station, told->ids);
    case MATCH_REQ:
        return write_sae_match_req(frame, &told->car, told->station, told->ids);
    case PARM_CNF:
        return write_sae_parm_cnf(frame, &told->car, told->station, told->values);
    case REPORT:
        return write_sae_report(frame, &told->car, told->station, told->values[0], told->groups, told->value);
    case MATCH_CNF:
        return write_sae_match_cnf(frame, &told->car, told->station, told->ids, nid, nmk);
    default:
        return write_iso_kind(frame, kind, told);
    }
}

/* Amplitude maps are the same in both. */
static inline size_t write_kind(uint8_t *frame, enum lahzavar_edition edition, enum kind kind, const struct told *told)
{
    if (kind == MAP_REQ) {
        return write_map_req(frame, &told->car, told->station, told->carriers, told->value % 16);
    }
    if (kind == MAP_CNF) {
        return write_map_cnf(frame, &told->car, told->station, 0);
    }
    return edition == LAHZAVAR_SAE ? write_sae_kind(frame, kind, told) : write_iso_kind(frame, kind, told);
}

#endif
