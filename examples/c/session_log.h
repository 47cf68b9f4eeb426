/*
 * The log of a station's session, which a driver writes while it runs: the configuration, every event, and what the station
 * answered. The program `replay` runs a station by it and names the first answer that differs. docs/INTEGRATION.md, "The log
 * of a session", says when to begin one and what to send. A driver takes this file as it is, and calls
 *
 *     session_log_begin(&log, room, sizeof room, address, modem, nid, nmk, validation_not_required, edition, carriers);
 *     answer = lahzavar_station_frame(&station, frame, length, out, sizeof out);
 *     session_log_frame(&log, frame, length, answer, out);        -- at once, since the next call writes over `out`
 *     length = session_log_end(&log);                             -- the log is room[0] to room[length - 1]
 *
 * Nothing here allocates or blocks. An event that does not fit whole is left out, and so is every later one: the log then
 * ends with the last event that fits. The room holds the NMK: clear it once it is no longer needed.
 */
#ifndef SESSION_LOG_H
#define SESSION_LOG_H

#include "lahzavar.h"

#include <string.h>

/* The most octets of a log. A smaller room serves too; what is over this number is not used. */
#define SESSION_LOG_MOST 65536u
/* The octets before the first event: a head of five numbers, two addresses, NID, NMK, and a number for each setting. */
#define SESSION_LOG_HEAD (5u * 4u)
#define SESSION_LOG_LEAST (SESSION_LOG_HEAD + 6u + 6u + 7u + 16u + 3u * 4u)
/* The three numbers of an event or of a reply, before its octets. */
#define SESSION_LOG_ENTRY (3u * 4u)

enum session_log_kind {
    SESSION_LOG_FRAME = 0,
    SESSION_LOG_TICK = 1,
    SESSION_LOG_PILOT = 2,
    SESSION_LOG_TERMINATE = 3,
    SESSION_LOG_LINK_UP = 4
};

/* A log that is being written, kept by the caller beside its room. */
struct session_log {
    uint8_t *octets;
    size_t room;     /* 0 where no log was begun, and once it has ended */
    size_t front;    /* where the next event goes, behind those before */
    size_t back;     /* where the replies stand, from the room's last octet down, so that the end turns them round */
    uint32_t events; /* how many it has */
    bool full;       /* whether an event was left out, since it did not fit */
};

/* A number in four octets, low one first. */
static inline void session_log_number(uint8_t *place, uint32_t number)
{
    unsigned at;
    for (at = 0; at < 4; at++) {
        place[at] = (uint8_t)(number >> 8 * at & 0xFF);
    }
}

/* The numbers that an event or a reply begins with. */
static inline void session_log_entry(uint8_t entry[SESSION_LOG_ENTRY], uint32_t first, uint32_t second, uint32_t length)
{
    session_log_number(entry, first);
    session_log_number(entry + 4, second);
    session_log_number(entry + 8, length);
}

/* Puts octets of a reply below those before. */
static inline void session_log_put_back(struct session_log *log, const uint8_t *octets, size_t length)
{
    size_t at;
    for (at = 0; at < length; at++) {
        log->octets[--log->back] = octets[at];
    }
}

/*
 * Begins a log in a room of the caller, with what lahzavar_station_configure was given: at the same time, so that no event
 * is missing. False, and no log, where the room is shorter than SESSION_LOG_LEAST, or where a value can't be written: an
 * address of 2^48 or more, a NID of 2^56 or more, no NMK, an edition that is neither LAHZAVAR_ISO nor LAHZAVAR_SAE. The
 * station answers LAHZAVAR_BAD_CONFIGURATION to everything then.
 */
static inline bool session_log_begin(struct session_log *log, uint8_t *octets, size_t room, uint64_t address, uint64_t modem,
                                     uint64_t nid, const uint8_t nmk[16], bool validation_not_required,
                                     enum lahzavar_edition edition, uint32_t carriers)
{
    static const struct session_log none = {NULL, 0, 0, 0, 0, false};
    uint8_t *place;
    unsigned at;
    *log = none;
    if (octets == NULL || room < SESSION_LOG_LEAST || address >> 48 != 0 || modem >> 48 != 0 || nid >> 56 != 0 ||
        nmk == NULL || (uint32_t)edition > LAHZAVAR_SAE) {
        return false;
    }
    place = octets + SESSION_LOG_HEAD;
    for (at = 0; at < 6; at++) {
        place[at] = (uint8_t)(address >> (40 - 8 * at) & 0xFF);
        place[6 + at] = (uint8_t)(modem >> (40 - 8 * at) & 0xFF);
    }
    for (at = 0; at < 7; at++) {
        place[12 + at] = (uint8_t)(nid >> 8 * at & 0xFF);
    }
    memcpy(place + 19, nmk, 16);
    session_log_number(place + 35, validation_not_required ? 1 : 0);
    session_log_number(place + 39, (uint32_t)edition);
    session_log_number(place + 43, carriers);
    log->octets = octets;
    log->room = room < SESSION_LOG_MOST ? room : SESSION_LOG_MOST;
    log->front = SESSION_LOG_LEAST;
    log->back = log->room;
    return true;
}

/* An event and its answer, whose frames stand in `out`. False where the log is full: neither of them was put. */
static inline bool session_log_event(struct session_log *log, enum session_log_kind kind, uint32_t reading,
                                     const uint8_t *octets, size_t length, struct lahzavar_answer answer, const uint8_t *out)
{
    uint8_t entry[SESSION_LOG_ENTRY];
    size_t left = log->back - log->front;
    if (log->full || left < 2 * SESSION_LOG_ENTRY || left - 2 * SESSION_LOG_ENTRY < length ||
        left - 2 * SESSION_LOG_ENTRY - length < answer.octets) {
        log->full = true;
        return false;
    }
    session_log_entry(log->octets + log->front, (uint32_t)kind, reading, (uint32_t)length);
    if (length != 0) {
        memcpy(log->octets + log->front + SESSION_LOG_ENTRY, octets, length);
    }
    log->front += SESSION_LOG_ENTRY + length;
    session_log_entry(entry, answer.refusal, answer.indication, answer.octets);
    session_log_put_back(log, entry, sizeof entry);
    session_log_put_back(log, out, answer.octets);
    log->events++;
    return true;
}

/* A frame, as it was handed to lahzavar_station_frame, and its answer; `out` is the output that was lent to the call. */
static inline bool session_log_frame(struct session_log *log, const uint8_t *octets, size_t length,
                                     struct lahzavar_answer answer, const uint8_t *out)
{
    return session_log_event(log, SESSION_LOG_FRAME, 0, octets, octets != NULL ? length : 0, answer, out);
}

/*
 * A clock reading and its answer. Where no time runs, before the call, a tick may be left out: that is where the state is
 * LAHZAVAR_UNMATCHED or LAHZAVAR_MATCHED. Else a log is full after half a minute of ticks.
 */
static inline bool session_log_tick(struct session_log *log, uint32_t reading, struct lahzavar_answer answer,
                                    const uint8_t *out)
{
    return session_log_event(log, SESSION_LOG_TICK, reading, NULL, 0, answer, out);
}

/* A pilot state with its reading, and the answer. A state that is none is left out: the call has changed nothing. */
static inline bool session_log_pilot(struct session_log *log, enum lahzavar_pilot_state pilot, uint32_t reading,
                                     struct lahzavar_answer answer)
{
    uint8_t octet = (uint8_t)pilot;
    if ((uint32_t)pilot > LAHZAVAR_PILOT_F) {
        return !log->full;
    }
    return session_log_event(log, SESSION_LOG_PILOT, reading, &octet, 1, answer, NULL);
}

static inline bool session_log_terminate(struct session_log *log, struct lahzavar_answer answer)
{
    return session_log_event(log, SESSION_LOG_TERMINATE, 0, NULL, 0, answer, NULL);
}

static inline bool session_log_link_up(struct session_log *log, struct lahzavar_answer answer)
{
    return session_log_event(log, SESSION_LOG_LINK_UP, 0, NULL, 0, answer, NULL);
}

/*
 * Ends the log: the replies go behind the events, and the head gets its numbers. Gives the log's length, 0 where none was
 * begun; the log stands from the room's first octet on. It takes no event afterwards; a full one still says that it is.
 */
static inline size_t session_log_end(struct session_log *log)
{
    size_t replies = log->room - log->back, length = log->front + replies, low, high;
    if (log->room == 0) {
        return 0;
    }
    for (low = log->back, high = log->room; low < high; low++) {
        uint8_t octet = log->octets[--high];
        log->octets[high] = log->octets[low];
        log->octets[low] = octet;
    }
    memmove(log->octets + log->front, log->octets + log->back, replies);
    session_log_number(log->octets, log->events);
    session_log_number(log->octets + 4, log->events);
    session_log_number(log->octets + 8, SESSION_LOG_LEAST);
    session_log_number(log->octets + 12, (uint32_t)log->front);
    session_log_number(log->octets + 16, (uint32_t)length);
    log->room = log->front = log->back = 0;
    return length;
}

#endif
