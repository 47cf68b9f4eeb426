/*
 * Plays the events of a log to the library's station, and writes the log of that session by examples/c/session_log.h: a log
 * that keeps to its layout on standard input, the new one on standard output. With ROOM the new one is written in so many
 * octets, and what does not fit is left out; with `timed` as well, so is each tick while no time runs.
 * Usage: session_log [ROOM [timed]]
 */
#include "session_log.h"

#include <stdio.h>
#include <stdlib.h>

static uint8_t given[SESSION_LOG_MOST];
static uint8_t out[LAHZAVAR_LEAST_OUTPUT];
static struct lahzavar_station station;
static struct session_log session;

static void fail(const char *what)
{
    fprintf(stderr, "session_log: %s\n", what);
    exit(1);
}

static uint32_t number_at(size_t at)
{
    if (at > sizeof given - 4) {
        fail("the log that is given breaks its layout");
    }
    return (uint32_t)given[at] | (uint32_t)given[at + 1] << 8 | (uint32_t)given[at + 2] << 16 | (uint32_t)given[at + 3] << 24;
}

static bool is_timed(void)
{
    uint32_t state = lahzavar_station_state(&station);
    return state == LAHZAVAR_MATCHING || state == LAHZAVAR_JOINING;
}

/* The configuration that stands at this place, to the station and to its log. */
static bool begin(const uint8_t *place, uint8_t *room, size_t octets)
{
    uint64_t address = lahzavar_address(place), modem = lahzavar_address(place + 6), nid = lahzavar_nid(place + 12);
    bool validation_not_required = place[35] == 1;
    enum lahzavar_edition edition = place[39] == 1 ? LAHZAVAR_SAE : LAHZAVAR_ISO;
    uint32_t carriers = number_at(SESSION_LOG_HEAD + 43);
    (void)lahzavar_station_configure(&station, address, modem, nid, place + 19, validation_not_required, edition, carriers);
    return session_log_begin(&session, room, octets, address, modem, nid, place + 19, validation_not_required, edition,
                             carriers);
}

/* The event at this place, to the station and, unless a tick is left out, to its log. Gives whether it was put there. */
static bool happen(size_t at, bool with_all, struct lahzavar_answer *answer)
{
    uint32_t kind = number_at(at), reading = number_at(at + 4), length = number_at(at + 8);
    const uint8_t *octets = given + at + SESSION_LOG_ENTRY;
    enum lahzavar_pilot_state pilot = (enum lahzavar_pilot_state)octets[0];
    bool is_left_out = kind == SESSION_LOG_TICK && !with_all && !is_timed();
    switch (kind) {
    case SESSION_LOG_FRAME:
        *answer = lahzavar_station_frame(&station, octets, length, out, sizeof out);
        return session_log_frame(&session, octets, length, *answer, out);
    case SESSION_LOG_TICK:
        *answer = lahzavar_station_tick(&station, reading, out, sizeof out);
        return !is_left_out && session_log_tick(&session, reading, *answer, out);
    case SESSION_LOG_PILOT:
        *answer = lahzavar_station_pilot(&station, pilot, reading);
        return session_log_pilot(&session, pilot, reading, *answer);
    case SESSION_LOG_TERMINATE:
        *answer = lahzavar_station_terminate(&station);
        return session_log_terminate(&session, *answer);
    default:
        *answer = lahzavar_station_link_up(&station);
        return session_log_link_up(&session, *answer);
    }
}

/* Every event that is given; what fits is put, up to the first event that does not. */
static size_t play(size_t room, bool with_all)
{
    size_t at = SESSION_LOG_LEAST, used = SESSION_LOG_LEAST;
    uint32_t events = number_at(0);
    bool full = room < SESSION_LOG_LEAST;
    for (; events > 0; events--) {
        struct lahzavar_answer answer;
        uint32_t before = session.events, length = number_at(at + 8);
        bool put = happen(at, with_all, &answer);
        size_t more = 2 * SESSION_LOG_ENTRY + length + answer.octets;
        if (put || session.full) {
            full = full || used + more > room;
            used += full ? 0 : more;
        }
        if (put != (session.events == before + 1) || session.full != full) {
            fail(full ? "an event was put that does not fit" : "an event was left out that fits");
        }
        at += SESSION_LOG_ENTRY + length;
    }
    return room < SESSION_LOG_LEAST ? 0 : used;
}

int main(int argc, char **argv)
{
    size_t given_octets = fread(given, 1, sizeof given, stdin), used;
    size_t room = argc > 1 ? strtoul(argv[1], NULL, 10) : SESSION_LOG_MOST;
    uint8_t *octets = malloc(room == 0 ? 1 : room); /* no longer, so that a sanitizer sees what is written behind it */
    if (octets == NULL || given_octets < SESSION_LOG_LEAST || number_at(16) != given_octets) {
        fail("no memory, or no log is given");
    }
    if (begin(given + SESSION_LOG_HEAD, octets, room) != (room >= SESSION_LOG_LEAST)) {
        fail("a log is begun without room, or none with room");
    }
    used = play(room < SESSION_LOG_MOST ? room : SESSION_LOG_MOST, argc < 3);
    if (session_log_end(&session) != used || session_log_end(&session) != 0) {
        fail("the log has another length than its events and replies");
    }
    if (session_log_pilot(&session, LAHZAVAR_PILOT_A, 0, lahzavar_station_pilot(&station, LAHZAVAR_PILOT_A, 0))) {
        fail("a log that has ended takes an event");
    }
    fwrite(octets, 1, used, stdout);
    free(octets);
    return fflush(stdout) == 0 ? 0 : 1;
}
