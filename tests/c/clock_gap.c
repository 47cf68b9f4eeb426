/*
 * Gaps in the clock. A tick more than 60,000 ms past the last reading that was taken is refused, and so is every further
 * one, until a pilot event takes a reading; a fresh station has taken 0. What a driver does about it, and that it helps for
 * every reading, near the wrap too; and that without it ticks are refused.
 */
#include "car_frames.h"
#include "lahzavar.h"

#include <stdio.h>

#define LONGEST 60000u /* the longest gap that a tick may have */
#define ADMISSION 50000u

static const uint8_t us[6] = {2, 0, 0, 0, 0, 0xAA};
static const uint8_t modem[6] = {2, 0, 0, 0, 0, 0xBB};
static const uint8_t nid[7] = {1, 2, 3, 4, 5, 6, 7};
static const uint8_t nmk[16] = {0x4B};
static const struct car car = {{2, 0, 0, 0, 0, 1}, {1, 2, 3, 4, 5, 6, 7, 8}};

static const enum lahzavar_pilot_state unplugged[] = {LAHZAVAR_PILOT_A, LAHZAVAR_PILOT_E, LAHZAVAR_PILOT_F};
static const enum lahzavar_pilot_state plugged[] = {LAHZAVAR_PILOT_B, LAHZAVAR_PILOT_C, LAHZAVAR_PILOT_D};

/* Readings at which a station is configured, or at which its clock stands before a gap. */
static const uint32_t readings[] = {0,           1,           59999,       60000,       60001,       1000000,    0x7FFFFFFFu,
                                    0x80000000u, 0xFFFF159Fu, 0xFFFF15A0u, 0xFFFFFFF0u, 0xFFFFFFFFu};
static const uint32_t gaps[] = {60001, 60010, 3600000, 0x7FFFFFFFu, 0x80000000u, 0xFFFFFF00u, 0xFFFFFFFFu};

#define COUNT(array) (sizeof(array) / sizeof *(array))

static struct lahzavar_station station;
static uint8_t out[LAHZAVAR_LEAST_OUTPUT];
static uint8_t frame[FRAME_MOST];
static unsigned faults, checks;

/* Counts a number that is not the expected one, and says which, and at which reading. */
static void same(const char *what, uint32_t reading, uint32_t found, uint32_t expected)
{
    checks++;
    if (found != expected) {
        fprintf(stderr, "clock_gap: at %lu %s is %lu, not %lu\n", (unsigned long)reading, what, (unsigned long)found,
                (unsigned long)expected);
        faults++;
    }
}

static struct lahzavar_answer tick(uint32_t reading)
{
    return lahzavar_station_tick(&station, reading, out, sizeof out);
}

static void taken(uint32_t reading)
{
    same("a tick", reading, tick(reading).refusal, LAHZAVAR_ACCEPTED);
}

/* Ticks every 10 ms from a reading on, so many of them, are refused, and leave station and output as they were. */
static void refused(uint32_t reading, uint32_t count)
{
    static const uint8_t zeros[sizeof out];
    struct lahzavar_station before = station;
    uint32_t at;
    memset(out, 0, sizeof out);
    for (at = 0; at < count; at++) {
        same("a tick", reading + 10 * at, tick(reading + 10 * at).refusal, LAHZAVAR_TICK_GAP);
    }
    same("the words", reading, memcmp(station.private_words, before.private_words, sizeof before.private_words) != 0, 0);
    same("the sums", reading, memcmp(station.private_sums, before.private_sums, sizeof before.private_sums) != 0, 0);
    same("the spread", reading, memcmp(station.private_spread, before.private_spread, sizeof before.private_spread) != 0, 0);
    same("the output", reading, memcmp(out, zeros, sizeof out) != 0, 0);
}

static void configure(void)
{
    struct lahzavar_answer answer =
        lahzavar_station_configure(&station, lahzavar_address(us), lahzavar_address(modem), lahzavar_nid(nid), nmk, false,
                                   LAHZAVAR_ISO, LAHZAVAR_CARRIERS);
    same("configuring", 0, answer.refusal, LAHZAVAR_ACCEPTED);
}

/* The recipe's first half: after configuring, the pilot's state with the clock's reading at once. */
static void start(enum lahzavar_pilot_state pilot, uint32_t reading)
{
    configure();
    same("the first pilot", reading, lahzavar_station_pilot(&station, pilot, reading).refusal, LAHZAVAR_ACCEPTED);
}

/*
 * The recipe's second half, after a tick in Matching or Joining that was refused for its gap: A, which ends the matching,
 * and then the pilot's state, with the clock's reading.
 */
static void recover(enum lahzavar_pilot_state pilot, uint32_t reading)
{
    struct lahzavar_answer ended = lahzavar_station_pilot(&station, LAHZAVAR_PILOT_A, reading);
    struct lahzavar_answer again = lahzavar_station_pilot(&station, pilot, reading);
    same("the pilot again", reading, ended.refusal | again.refusal, LAHZAVAR_ACCEPTED);
    same("the end's indication", reading, ended.indication, LAHZAVAR_NO_LINK);
    same("the pilot's indication", reading, again.indication, LAHZAVAR_NO_INDICATION);
}

/* Without the recipe: 60,000 is the last reading that a fresh station takes, until the clock wraps. */
static void fresh_station(uint32_t reading)
{
    configure();
    if (reading <= LONGEST) {
        taken(reading);
        return;
    }
    refused(reading, reading > UINT32_MAX - 100 ? 1 : 10);
    refused(UINT32_MAX, 1);
    taken(0);
}

/* With it: the first tick and the next ones are taken, whatever the clock reads. */
static void started_station(uint32_t reading)
{
    uint32_t pilot;
    for (pilot = LAHZAVAR_PILOT_A; pilot <= LAHZAVAR_PILOT_F; pilot++) {
        start((enum lahzavar_pilot_state)pilot, reading);
        taken(reading);
        taken(reading + 10);
        taken(reading + 10 + LONGEST);
        start((enum lahzavar_pilot_state)pilot, reading);
        refused(reading + LONGEST + 1, 1);
        taken(reading + LONGEST);
    }
}

static void hear(size_t length)
{
    struct lahzavar_answer answer = lahzavar_station_frame(&station, frame, length, out, sizeof out);
    same("a frame", 0, answer.refusal, LAHZAVAR_ACCEPTED);
}

/* A car's matching, as far as a state asks for. */
static void match_until(uint32_t state)
{
    unsigned profile;
    hear(write_parm_req(frame, &car));
    if (state == LAHZAVAR_MATCHING) {
        return;
    }
    hear(write_start(frame, &car));
    for (profile = 0; profile < 10; profile++) {
        hear(write_profile(frame, modem, us, car.address, 40));
    }
    hear(write_rsp(frame, &car, us));
    hear(write_match_req(frame, &car, us));
    if (state == LAHZAVAR_MATCHED) {
        (void)lahzavar_station_link_up(&station);
    }
    same("the state", 0, lahzavar_station_state(&station), state);
}

/* The matching that a recovered station is in is a new one, with all its time. */
static void new_matching(uint32_t reading)
{
    same("the state", reading, lahzavar_station_state(&station), LAHZAVAR_MATCHING);
    same("records held", reading, lahzavar_station_records_held(&station), 0);
    taken(reading);
    taken(reading + ADMISSION - 1);
    same("the state", reading, lahzavar_station_state(&station), LAHZAVAR_MATCHING);
    same("the end of admission", reading, tick(reading + ADMISSION).indication, LAHZAVAR_NO_LINK);
}

/* A gap without a car does no harm: the next plug-in takes the reading. */
static void gap_unplugged(uint32_t reading, uint32_t gap)
{
    size_t at;
    for (at = 0; at < COUNT(unplugged); at++) {
        start(unplugged[at], reading);
        taken(reading);
        refused(reading + gap, gap > UINT32_MAX - 100 ? 1 : 10);
        same("the state", reading, lahzavar_station_state(&station), LAHZAVAR_UNMATCHED);
        same("a plug-in", reading, lahzavar_station_pilot(&station, plugged[at], reading + gap).refusal, LAHZAVAR_ACCEPTED);
        new_matching(reading + gap);
    }
}

/* Nor does one while a car is joined: the loss of the pilot takes the reading. */
static void gap_matched(uint32_t reading, uint32_t gap)
{
    size_t at;
    for (at = 0; at < COUNT(plugged); at++) {
        start(plugged[at], reading);
        match_until(LAHZAVAR_MATCHED);
        refused(reading + gap, gap > UINT32_MAX - 100 ? 1 : 10);
        same("the state", reading, lahzavar_station_state(&station), LAHZAVAR_MATCHED);
        same("a loss", reading, lahzavar_station_pilot(&station, unplugged[at], reading + gap).refusal, LAHZAVAR_ACCEPTED);
        taken(reading + gap);
        taken(reading + gap + 10);
    }
}

/* A gap in Matching or Joining: a change among B, C and D takes no reading; A and the pilot's state begin anew. */
static void gap_plugged(uint32_t reading, uint32_t gap, uint32_t state)
{
    size_t at;
    for (at = 0; at < COUNT(plugged); at++) {
        enum lahzavar_pilot_state now = plugged[(at + 1) % COUNT(plugged)];
        start(plugged[at], reading);
        taken(reading);
        match_until(state);
        refused(reading + gap, gap > UINT32_MAX - 100 ? 1 : 10);
        same("a change", reading, lahzavar_station_pilot(&station, now, reading + gap).refusal, LAHZAVAR_ACCEPTED);
        refused(reading + gap, 1);
        recover(now, reading + gap);
        new_matching(reading + gap);
    }
}

int main(void)
{
    size_t at, gap;
    uint32_t state;
    for (at = 0; at < COUNT(readings); at++) {
        fresh_station(readings[at]);
        started_station(readings[at]);
        for (gap = 0; gap < COUNT(gaps); gap++) {
            gap_unplugged(readings[at], gaps[gap]);
            gap_matched(readings[at], gaps[gap]);
            for (state = LAHZAVAR_MATCHING; state <= LAHZAVAR_JOINING; state++) {
                gap_plugged(readings[at], gaps[gap], state);
            }
        }
    }
    printf("%u checks, %u faults\n", checks, faults);
    return faults == 0 ? 0 : 1;
}
