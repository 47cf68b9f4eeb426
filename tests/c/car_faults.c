/*
 * Cars with words changed at random, then every call: no crash, no endless loop, no write outside the lent memory, and an
 * answer that keeps the header's promises; then wiped ones. Usage: car_faults ROUNDS SEED [heap]
 */
#define _GNU_SOURCE
#include "lent.h"
#include "station_frames.h"

#define STAGES 9
#define PLACES (LAHZAVAR_STATIONS + 1)
#define FRAMES 10
#define KINDS (FRAMES + 5)

static struct lahzavar_car stages[STAGES];
static uint8_t stations[PLACES][6];
static const struct car us = {{2, 0, 0, 0, 0, 1}, {7, 7, 7, 7, 7, 7, 7, 7}};
static const uint8_t random_value[16] = {1, 2, 3};
static const uint8_t nid[7] = {1, 2, 3, 4, 5, 6, 7};
static const uint8_t nmk[16] = {1, 2, 3};

/* The frames that a car sends. */
static size_t octets_of(const uint8_t *frame, size_t there)
{
    switch (frame_type(frame, there)) {
    case CM_SLAC_PARM_REQ:
    case CM_START_ATTEN_CHAR_IND:
        return FRAME_LEAST;
    case CM_MNBC_SOUND_IND:
        return FRAME_HEAD + 52;
    case CM_ATTEN_CHAR_RSP:
        return FRAME_HEAD + 51;
    case CM_SLAC_MATCH_REQ:
        return LAHZAVAR_CAR_LEAST_OUTPUT;
    default:
        return 0;
    }
}

static const struct limits car_limits = {LAHZAVAR_KEY_GIVEN, 1, octets_of};

static void check(struct lahzavar_answer answer)
{
    check_answer(answer, &car_limits);
}

static const uint8_t *some_station(void)
{
    return stations[below(PLACES)];
}

static uint64_t some_address(void)
{
    return lahzavar_address(below(8) == 0 ? us.address : some_station());
}

/* Lends one of the stages with every word changed, or only some: a car whose configuration is bad refuses all. */
static void lend_changed(void)
{
    const struct lahzavar_car *stage = &stages[below(STAGES)];
    size_t chance = below(8) == 0 ? 1 : 8 + below(100);
    uint64_t *word = (uint64_t *)(void *)take(&words, sizeof stage->private_words);
    size_t at;
    for (at = 0; at < LAHZAVAR_CAR_WORDS; at++) {
        uint64_t now = stage->private_words[at];
        word[at] = below(chance) == 0 ? changed(now, some_address()) : now;
    }
}

/* A frame of each message that a car takes, some that it does not, and random octets. */
static size_t write_frame(uint8_t *frame, size_t which, const uint8_t *station)
{
    switch (which) {
    case 0:
        return write_parm_cnf(frame, &us, station);
    case 1:
        return write_report(frame, &us, station, (unsigned)below(12), (unsigned)below(255 * LAHZAVAR_GROUPS + 1));
    case 2:
        return write_match_cnf(frame, &us, station, nid, nmk);
    case 3:
        return write_parm_req(frame, &us);
    case 4:
        return write_profile(frame, station, stations[0], us.address, (unsigned)below(256));
    case 5:
        return write_validate_req(frame, &us, station, 0);
    case 6:
        return write_validate_cnf(frame, &us, station, (unsigned)below(256), (unsigned)below(5));
    case 7:
        return write_map_req(frame, &us, station, (unsigned)below(LAHZAVAR_CARRIERS + 2), (unsigned)below(16));
    case 8:
        return write_map_cnf(frame, &us, station, (unsigned)below(3));
    default:
        return write_random(frame);
    }
}

static void call_frame(size_t which)
{
    uint8_t frame[FRAME_MOST];
    lend_frame(frame, write_frame(frame, which, some_station()));
    lend_output(LAHZAVAR_CAR_LEAST_OUTPUT);
    begin("frame");
    check(lahzavar_frame_car(lent_words(), octets.reading + octets.at, octets.size, out.view + out.at, out.size));
}

static void call_tick(void)
{
    lend_output(LAHZAVAR_CAR_LEAST_OUTPUT);
    begin("tick");
    check(lahzavar_tick_car(lent_words(), some_reading(), out.view + out.at, out.size));
}

static void call_start(void)
{
    lend_output(LAHZAVAR_CAR_LEAST_OUTPUT);
    begin("start");
    check(lahzavar_start_car(lent_words(), next_random(), next_random(), next_random(), some_reading(), out.view + out.at,
                             out.size));
}

static void call_terminate(void)
{
    begin("terminate");
    check(lahzavar_terminate_car(lent_words()));
}

static void call_link_up(void)
{
    begin("link up");
    check(lahzavar_link_up_car(lent_words()));
}

/* The calls that read: their array is lent through the view that can't be written. */
static void call_readers(void)
{
    struct lahzavar_key_numbers key;
    uint32_t state;
    begin("key or state");
    key = lahzavar_key_of_car(read_words());
    state = lahzavar_state_of_car(read_words());
    check_refusal(key.refusal);
    if (state > (wiped ? LAHZAVAR_CAR_IDLE : LAHZAVAR_CAR_MATCHED)) {
        fail("a number out of range");
    }
    if (key.refusal == LAHZAVAR_ACCEPTED ? state < LAHZAVAR_CAR_JOINING
                                         : (key.station | key.nid | key.nmk_first | key.nmk_last) != 0) {
        fail("a key that may not be given");
    }
    check_zone(&words, 0, "words changed that may not");
}

static void call_configure(void)
{
    begin("configure");
    check_configured(lahzavar_configure_car(lent_words(), changed(0, some_address()), (uint32_t)changed(1, 255)));
}

/* One call of a kind: frames 0 to 7, tick, start, terminate, link up, readers. */
static void call(size_t kind)
{
    static void (*const others[])(void) = {call_tick, call_start, call_terminate, call_link_up, call_readers};
    if (kind < FRAMES) {
        call_frame(kind);
    } else {
        others[kind - FRAMES]();
    }
}

/* Wipes the lent car through the header. */
static void call_wipe(void)
{
    begin("wipe");
    lahzavar_car_wipe((struct lahzavar_car *)(void *)lent_words());
    check_wiped(&words);
}

/* Every call, each on a car changed anew, and then a few on what it left; then on a wiped one. */
static void round_of_calls(void)
{
    size_t kind, more;
    for (kind = 0; kind <= KINDS; kind++) {
        lend_changed();
        if (kind == KINDS) {
            call_configure();
        } else {
            call(kind);
        }
        for (more = below(4); more > 0; more--) {
            call(below(KINDS));
        }
    }
    lend_changed();
    call_wipe();
    wiped = 1;
    for (kind = 0; kind < KINDS; kind++) {
        call(kind);
    }
    wiped = 0;
}

/* Plays one frame to a car that is being set up. */
static void play(struct lahzavar_car *car, size_t length, const uint8_t *frame)
{
    uint8_t room[LAHZAVAR_CAR_LEAST_OUTPUT];
    (void)lahzavar_car_frame(car, frame, length, room, sizeof room);
}

/* Ticks every 5 ms from one reading to another. */
static void pass(struct lahzavar_car *car, uint32_t from, uint32_t to)
{
    uint8_t room[LAHZAVAR_CAR_LEAST_OUTPUT];
    uint32_t reading;
    for (reading = from; reading <= to; reading += 5) {
        (void)lahzavar_car_tick(car, reading, room, sizeof room);
    }
}

/* A car as far as a stage says: 1 asking, 2 confirmed, 3 sounding, 4 all sounds, 5 requesting, 6 joining, 7 matched. */
static void play_until(struct lahzavar_car *car, size_t stage)
{
    uint8_t frame[FRAME_MOST], room[LAHZAVAR_CAR_LEAST_OUTPUT];
    size_t reports = stage == 3 ? 3 : LAHZAVAR_STATIONS, at;
    unsigned total = stage == 3 ? 1300 : stage == 4 ? 1000 : 500; /* not found, potentially found, found */
    if (stage >= 1) {
        (void)lahzavar_car_start(car, us.run, random_value, 0, room, sizeof room);
    }
    if (stage >= 2) {
        play(car, write_parm_cnf(frame, &us, stations[0]), frame);
    }
    if (stage >= 3) {
        pass(car, 5, stage == 3 ? 300 : 1000);
    }
    for (at = 0; stage >= 3 && at < reports; at++) {
        play(car, write_report(frame, &us, stations[at], 10, total--), frame);
    }
    if (stage >= 5) {
        pass(car, 1005, 1300);
    }
    if (stage >= 6) {
        play(car, write_match_cnf(frame, &us, stations[LAHZAVAR_STATIONS - 1], nid, nmk), frame);
    }
    if (stage >= 7) {
        (void)lahzavar_car_link_up(car);
    }
}

/* The stages: fresh, asking, confirmed, sounding twice, requesting, joining, matched, badly configured. */
static void set_up(void)
{
    static const uint32_t states[STAGES] = {
        LAHZAVAR_CAR_IDLE,       LAHZAVAR_CAR_ASKING,  LAHZAVAR_CAR_CONFIRMED, LAHZAVAR_CAR_SOUNDING, LAHZAVAR_CAR_SOUNDING,
        LAHZAVAR_CAR_REQUESTING, LAHZAVAR_CAR_JOINING, LAHZAVAR_CAR_MATCHED,   LAHZAVAR_CAR_IDLE,
    };
    size_t at;
    for (at = 0; at < PLACES; at++) {
        stations[at][0] = 2;
        stations[at][5] = (uint8_t)(0xA0 + at);
    }
    for (at = 0; at < STAGES; at++) {
        (void)lahzavar_car_configure(&stages[at], lahzavar_address(us.address), at == STAGES - 1 ? 256 : 0);
        play_until(&stages[at], at);
        if (lahzavar_car_state(&stages[at]) != states[at]) {
            fail("a stage in another state");
        }
    }
}

int main(int count, char **arguments)
{
    return run_rounds(count, arguments, set_up, round_of_calls);
}
