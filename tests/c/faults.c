/*
 * Stations with words changed at random, then every call: no crash, no endless loop, no write outside the lent memory, and
 * an answer that keeps the header's promises; then wiped ones. Usage: faults ROUNDS SEED [heap]
 */
#define _GNU_SOURCE
#include "lent.h"
#include "sae_frames.h"
#include "station_frames.h"

#define EDITIONS 2
#define STAGES 11
#define CARS (LAHZAVAR_RECORDS + 1)
#define MATCHED_CAR 4 /* the one that matches in the stages with a match */
#define CARRIERS 6u

static struct lahzavar_station stages[EDITIONS][STAGES];
static struct car cars[CARS];
static struct zone whole;           /* a station as one piece */
static struct zone least, greatest; /* what the query fills */
static struct zone values, levels;  /* what the calls for amplitude maps read besides a frame */
static const uint8_t us[6] = {2, 0, 0, 0, 0, 0xAA};
static const uint8_t modem[6] = {2, 0, 0, 0, 0, 0xBB};
static const uint8_t nid[7] = {1, 2, 3, 4, 5, 6, 7};
static const uint8_t nmk[16] = {1, 2, 3};

/* A report has as many groups as it says, from 1 to 58; 0 where it has not. */
static size_t octets_of_report(const uint8_t *frame, size_t there)
{
    size_t groups = there > FRAME_HEAD + 51 ? frame[FRAME_HEAD + 51] : 0;
    return groups == 0 || groups > LAHZAVAR_GROUPS ? 0 : 71 + groups;
}

/* The frames that a station sends. */
static size_t octets_of(const uint8_t *frame, size_t there)
{
    switch (frame_type(frame, there)) {
    case CM_SLAC_PARM_CNF:
        return FRAME_LEAST;
    case CM_ATTEN_CHAR_IND:
        return octets_of_report(frame, there);
    case CM_VALIDATE_CNF:
    case CM_AMP_MAP_CNF:
        return LAHZAVAR_CONFIRMATION_OCTETS;
    case CM_SLAC_MATCH_CNF:
        return FRAME_HEAD + 90;
    default:
        return 0;
    }
}

static const struct limits station_limits = {LAHZAVAR_LINK_ESTABLISHED, LAHZAVAR_RECORDS, octets_of};

static void check(struct lahzavar_answer answer)
{
    check_answer(answer, &station_limits);
}

static uint64_t some_car(void)
{
    return lahzavar_address(cars[below(CARS)].address);
}

/* Lends one of the stages with every word changed, or only some: a station whose configuration is bad refuses all. */
static void lend_changed(void)
{
    const struct lahzavar_station *stage = &stages[below(EDITIONS)][below(STAGES)];
    size_t chance = below(8) == 0 ? 1 : 8 + below(100);
    uint64_t *word = (uint64_t *)(void *)take(&words, sizeof stage->private_words);
    uint16_t *sum = (uint16_t *)(void *)take(&sums, sizeof stage->private_sums);
    uint8_t *bound = take(&spread, sizeof stage->private_spread);
    size_t at;
    for (at = 0; at < LAHZAVAR_WORDS; at++) {
        uint64_t now = stage->private_words[at];
        word[at] = below(chance) == 0 ? changed(now, some_car()) : now;
    }
    for (at = 0; at < LAHZAVAR_SUMS; at++) {
        uint16_t now = stage->private_sums[at];
        sum[at] = below(chance) == 0 ? (uint16_t)changed(now, some_car()) : now;
    }
    for (at = 0; at < LAHZAVAR_SPREAD; at++) {
        uint8_t now = stage->private_spread[at];
        bound[at] = below(chance) == 0 ? (uint8_t)changed(now, some_car()) : now;
    }
}

#define FRAMES 16
#define KINDS (FRAMES + 8)

/* A frame that is written otherwise in SAE: 10 a start, 11 a profile, 12 a response, 13 a match request. */
static size_t write_sae_frame(uint8_t *frame, size_t which, const struct car *car)
{
    uint8_t ids[SAE_IDS];
    size_t at;
    for (at = 0; at < SAE_IDS; at++) {
        ids[at] = (uint8_t)next_random();
    }
    switch (which) {
    case 10:
        return write_sae_start(frame, car, below(2) == 0 ? first_try : later_try);
    case 11:
        return write_sae_profile(frame, modem, us, car->address, (unsigned)(below(2) == 0 ? 20 : below(60)),
                                 (unsigned)below(256));
    case 12:
        return write_sae_rsp(frame, car, us, ids);
    default:
        return write_sae_match_req(frame, car, us, ids);
    }
}

/* A frame of amplitude maps: 14 a request, half of them of the matched car and half of them with our carriers, 15 a
   confirmation. */
static size_t write_map_frame(uint8_t *frame, size_t which, const struct car *car)
{
    unsigned carriers = below(2) == 0 ? CARRIERS : (unsigned)below(LAHZAVAR_CARRIERS + 2);
    if (which == 15) {
        return write_map_cnf(frame, car, us, (unsigned)below(3));
    }
    return write_map_req(frame, below(2) == 0 ? &cars[MATCHED_CAR] : car, us, carriers, (unsigned)below(16));
}

/* A frame of each message that a station takes, some that it does not, and random octets. */
static size_t write_frame(uint8_t *frame, size_t which, const struct car *car)
{
    if (which >= 14) {
        return write_map_frame(frame, which, car);
    }
    if (which >= 10) {
        return write_sae_frame(frame, which, car);
    }
    switch (which) {
    case 0:
        return write_parm_req(frame, car);
    case 1:
        return write_start(frame, car);
    case 2:
        return write_sound(frame, car, (unsigned)below(12));
    case 3:
        return write_profile(frame, modem, us, car->address, (unsigned)below(256));
    case 4:
        return write_rsp(frame, car, us);
    case 5:
        return write_match_req(frame, car, us);
    case 6:
        return write_validate_req(frame, car, us, 0);
    case 7:
        return write_validate_req(frame, car, broadcast_address, (unsigned)below(256));
    case 8:
        return write_parm_cnf(frame, car, us);
    default:
        return write_random(frame);
    }
}

static void call_frame(size_t which)
{
    uint8_t frame[FRAME_MOST];
    lend_frame(frame, write_frame(frame, which, &cars[below(CARS)]));
    lend_output(LAHZAVAR_LEAST_OUTPUT);
    begin("frame");
    check(lahzavar_frame(lent_words(), lent_sums(), lent_spread(), octets.reading + octets.at, octets.size, out.view + out.at,
                         out.size));
}

static void call_tick(void)
{
    lend_output(LAHZAVAR_LEAST_OUTPUT);
    begin("tick");
    check(lahzavar_tick(lent_words(), lent_sums(), lent_spread(), some_reading(), out.view + out.at, out.size));
}

static void call_pilot(void)
{
    begin("pilot");
    check(lahzavar_pilot(lent_words(), lent_sums(), lent_spread(), (uint32_t)(below(8) == 0 ? next_random() : below(8)),
                         (uint32_t)next_random()));
}

static void call_terminate(void)
{
    begin("terminate");
    check(lahzavar_terminate(lent_words(), lent_sums(), lent_spread()));
}

static void call_link_up(void)
{
    begin("link up");
    check(lahzavar_link_up(lent_words(), lent_sums(), lent_spread()));
}

/* A call that reads leaves the station as it was. */
static void check_read(void)
{
    check_zone(&words, 0, "words changed that may not");
    check_zone(&sums, 0, "sums changed that may not");
    check_zone(&spread, 0, "a spread changed that may not");
}

/* The query: a refused one tells nothing, and leaves the arrays that it would fill. */
static void call_query(void)
{
    const uint16_t *sum = (const uint16_t *)(const void *)(sums.reading + sums.at);
    uint8_t *low = take(&least, LAHZAVAR_GROUPS), *high = take(&greatest, LAHZAVAR_GROUPS);
    struct lahzavar_heard heard;
    size_t filled;
    begin("query");
    keep(&least);
    keep(&greatest);
    heard = lahzavar_query(read_words(), sum, spread.reading + spread.at, below(4) == 0 ? next_random() : some_car(), low, high);
    check_read();
    check_refusal(heard.refusal);
    if (heard.sounds > 16 || (heard.refusal != LAHZAVAR_ACCEPTED && heard.sounds != 0)) {
        fail("a number out of range");
    }
    filled = heard.refusal == LAHZAVAR_ACCEPTED ? LAHZAVAR_GROUPS : 0;
    check_zone(&least, filled, "least values changed that may not");
    check_zone(&greatest, filled, "greatest values changed that may not");
    accepted += filled != 0;
}

/* The inspection: a refused one tells nothing, and a car is told in Joining and Matched alone. */
static void call_inspect(void)
{
    struct lahzavar_inspection told;
    begin("inspect");
    told = lahzavar_inspect(read_words());
    check_read();
    check_refusal(told.refusal);
    if (told.state > LAHZAVAR_MATCHED || (told.refusal != LAHZAVAR_ACCEPTED && told.state != 0) ||
        (told.state < LAHZAVAR_JOINING && told.car != 0)) {
        fail("a number out of range");
    }
    accepted += told.refusal == LAHZAVAR_ACCEPTED;
}

/* The calls that read: their arrays are lent through the view that can't be written. */
static void call_readers(void)
{
    call_query();
    call_inspect();
    begin("records held");
    if (lahzavar_records_held(read_words()) > (wiped ? 0 : LAHZAVAR_RECORDS)) {
        fail("a number out of range");
    }
    check_read();
}

/* Lends an amplitude map's frame, whatever it becomes, and an output that may be too short. */
static void lend_map(void)
{
    uint8_t frame[FRAME_MOST];
    lend_frame(frame, write_map_frame(frame, 14 + below(2), &cars[below(CARS)]));
    (void)take(&out, below(LAHZAVAR_CARRIERS + 2));
}

/* Lends so many values, and levels that are mostly as many; now and then one is out of range. */
static void lend_values(void)
{
    size_t count = below(4) == 0 ? below(8) : below(LAHZAVAR_CARRIERS + 2), at;
    size_t level_count = below(8) == 0 ? below(LAHZAVAR_CARRIERS + 2) : count;
    uint8_t *value = take(&values, count);
    int16_t *level = (int16_t *)(void *)take(&levels, level_count * sizeof *level);
    for (at = 0; at < count; at++) {
        value[at] = (uint8_t)below(16);
    }
    for (at = 0; at < level_count; at++) {
        level[at] = (int16_t)-(int)below(129);
    }
    if (count > 0 && below(8) == 0) {
        value[below(count)] = (uint8_t)next_random();
    }
    if (level_count > 0 && below(8) == 0) {
        level[below(level_count)] = (int16_t)((int)below(65536) - 32768);
    }
    lend_map();
}

static void begin_map(const char *call)
{
    begin(call);
    keep(&values);
    keep(&levels);
}

/* What a call for amplitude maps promises: it fills as many places as it tells, and changes nothing else. */
static void check_filled(struct lahzavar_filled filled)
{
    int refused = filled.refusal != LAHZAVAR_ACCEPTED;
    if (filled.refusal > LAHZAVAR_LAST_REFUSAL || filled.count > out.size || refused != (filled.count == 0)) {
        fail("a number out of range");
    }
    accepted += !refused;
    check_read();
    check_zone(&octets, 0, "the frame was changed");
    check_zone(&values, 0, "values changed that may not");
    check_zone(&levels, 0, "levels changed that may not");
    check_zone(&out, filled.count, "output changed that may not");
}

static void call_map_readers(void)
{
    struct lahzavar_map map;
    lend_map();
    begin_map("read a map");
    map = lahzavar_read_map(octets.reading + octets.at, octets.size);
    if (map.carriers > LAHZAVAR_CARRIERS || map.result > 1 || (map.refusal == LAHZAVAR_ACCEPTED) != (map.kind != 0)) {
        fail("a number out of range");
    }
    begin_map("the values of a map");
    check_filled(lahzavar_values_of_map(octets.reading + octets.at, octets.size, out.view + out.at, out.size));
}

static void call_map_writers(void)
{
    uint64_t receiver = changed(1, some_car()), sender = changed(2, some_car());
    lend_values();
    begin_map("write a map");
    check_filled(lahzavar_request_map(below(2) == 0 ? some_car() : receiver, below(2) == 0 ? some_car() : sender,
                                      values.reading + values.at, values.size, out.view + out.at, out.size));
    lend_values();
    begin_map("confirm a map");
    check_filled(lahzavar_confirm_map(below(2) == 0 ? some_car() : receiver, below(2) == 0 ? some_car() : sender,
                                      (uint32_t)below(3), out.view + out.at, out.size));
}

static void call_reduce(void)
{
    lend_values();
    begin_map("reduce");
    check_filled(lahzavar_reduce_map(values.reading + values.at, values.size,
                                     (const int16_t *)(const void *)(levels.reading + levels.at),
                                     levels.size / sizeof(int16_t), out.view + out.at, out.size));
}

static void call_configure(void)
{
    begin("configure");
    check_configured(lahzavar_configure(lent_words(), lent_sums(), lent_spread(), changed(0, some_car()),
                                        changed(1, some_car()), changed(2, 3), next_random(), next_random(),
                                        (uint32_t)changed(0, 1), (uint32_t)(below(2) == 0 ? below(3) : changed(0, 1)),
                                        (uint32_t)(below(2) == 0 ? CARRIERS : changed(CARRIERS, 1))));
}

/* One call of a kind: frames 0 to 15, tick, pilot, terminate, link up, readers, and the calls for amplitude maps. */
static void call(size_t kind)
{
    static void (*const others[])(void) = {call_tick,    call_pilot,       call_terminate,   call_link_up,
                                           call_readers, call_map_readers, call_map_writers, call_reduce};
    if (kind < FRAMES) {
        call_frame(kind);
    } else {
        others[kind - FRAMES]();
    }
}

/* Wipes the station that is lent as three pieces, and the same as one piece through the header. */
static void call_wipes(void)
{
    struct lahzavar_station *station = (struct lahzavar_station *)(void *)take(&whole, sizeof *station);
    memset(station, 0, sizeof *station);
    memcpy(station->private_words, lent_words(), words.size);
    memcpy(station->private_sums, lent_sums(), sums.size);
    memcpy(station->private_spread, lent_spread(), spread.size);
    keep(&whole);
    begin("wipe");
    lahzavar_station_wipe(station);
    check_wiped(&whole);
    lahzavar_wipe(lent_words(), lent_sums(), lent_spread());
    check_wiped(&words);
    check_wiped(&sums);
    check_wiped(&spread);
}

/* Every call, each on a station changed anew, and then a few on what it left; then on a wiped one. */
static void round_of_calls(void)
{
    size_t kind, more;
    for (kind = 0; kind <= KINDS; kind++) {
        lend_changed();
        if (kind == KINDS) {
            call_configure();
        } else {
            call(kind);
        }
        for (more = below(4); more > 0; more--) {
            call(below(KINDS));
        }
    }
    lend_changed();
    call_wipes();
    wiped = 1;
    for (kind = 0; kind < KINDS; kind++) {
        call(kind);
    }
    wiped = 0;
}

/* The frames of a matching as `play` takes them. */
enum played { PLAY_REQUEST = 0, PLAY_START = 1, PLAY_SOUND = 2, PLAY_PROFILE = 3, PLAY_RESPONSE = 4, PLAY_MATCH = 5 };

/* Plays one frame of its edition to a station that is being set up; in SAE each car has another number of groups. */
static void play(struct lahzavar_station *station, size_t edition, enum played which, const struct car *car)
{
    uint8_t frame[FRAME_MOST], room[LAHZAVAR_LEAST_OUTPUT];
    size_t length;
    if (which == PLAY_SOUND) {
        length = write_sound(frame, car, 3);
    } else if (edition == LAHZAVAR_SAE && which == PLAY_START) {
        length = write_sae_start(frame, car, first_try);
    } else if (edition == LAHZAVAR_SAE && which == PLAY_PROFILE) {
        length = write_sae_profile(frame, modem, us, car->address, car->address[5] * 3u, (unsigned)below(256));
    } else {
        length = write_frame(frame, which, car);
    }
    (void)lahzavar_station_frame(station, frame, length, room, sizeof room);
}

/* A station in Matching, its records as far as they come: asked, sounding, reported, awaiting. */
static void set_up_records(struct lahzavar_station *station, size_t edition, size_t count)
{
    size_t car, profile;
    for (car = 0; car < count; car++) {
        play(station, edition, PLAY_REQUEST, &cars[car]);
        for (profile = 0; profile < 3 * car; profile++) {
            play(station, edition, profile == 0 ? PLAY_START : profile == 1 ? PLAY_SOUND : PLAY_PROFILE, &cars[car]);
        }
        if (car >= 4) {
            play(station, edition, PLAY_RESPONSE, &cars[car]);
        }
    }
}

/* A car's validation, as far as a stage says: 7 ready, 8 counting, with a toggle begun, 9 success. */
static void set_up_validation(struct lahzavar_station *station, size_t stage)
{
    uint8_t frame[FRAME_MOST], room[LAHZAVAR_LEAST_OUTPUT];
    size_t length = write_validate_req(frame, &cars[MATCHED_CAR], us, 0);
    uint32_t confirmed = lahzavar_station_frame(station, frame, length, room, sizeof room).frames;
    if (stage >= 8) {
        length = write_validate_req(frame, &cars[MATCHED_CAR], broadcast_address, 0);
        confirmed += lahzavar_station_frame(station, frame, length, room, sizeof room).refusal == LAHZAVAR_ACCEPTED;
        (void)lahzavar_station_pilot(station, LAHZAVAR_PILOT_C, 1000);
    }
    if (stage >= 9) {
        (void)lahzavar_station_pilot(station, LAHZAVAR_PILOT_B, 1000);
        confirmed += lahzavar_station_tick(station, 1100, room, sizeof room).frames;
    }
    if (confirmed != stage - 6) {
        fail("a stage in another phase");
    }
}

/* The stages: fresh, plugged in with some records or all, reported, joining, matched, validating, badly configured. */
static void set_up_stage(struct lahzavar_station *station, size_t edition, size_t at)
{
    uint8_t room[LAHZAVAR_LEAST_OUTPUT];
    uint64_t other = lahzavar_address(at == STAGES - 1 ? us : modem);
    (void)lahzavar_station_configure(station, lahzavar_address(us), other, lahzavar_nid(nid), nmk, at == 3,
                                     (enum lahzavar_edition)edition, CARRIERS);
    if (at > 0) {
        (void)lahzavar_station_pilot(station, LAHZAVAR_PILOT_B, 1000);
    }
    set_up_records(station, edition, at == 2 ? 2 : at == 3 ? 4 : LAHZAVAR_RECORDS);
    if (at == 4) {
        (void)lahzavar_station_tick(station, 1600, room, sizeof room);
    } else if (at == 5 || at == 6) {
        play(station, edition, PLAY_MATCH, &cars[MATCHED_CAR]);
    } else if (at >= 7 && at < STAGES - 1) {
        set_up_validation(station, at);
    }
    if (at == 6 && lahzavar_station_link_up(station).indication != LAHZAVAR_LINK_ESTABLISHED) {
        fail("a stage that is not matched");
    }
}

static void set_up(void)
{
    size_t at;
    make_zone(&whole);
    make_zone(&least);
    make_zone(&greatest);
    make_zone(&values);
    make_zone(&levels);
    (void)take(&values, 0);
    (void)take(&levels, 0);
    for (at = 0; at < CARS; at++) {
        static const struct car model = {{2, 0, 0, 0, 0, 0}, {7, 7, 7, 7, 7, 7, 7, 7}};
        cars[at] = model;
        cars[at].address[5] = (uint8_t)(at + 1);
    }
    for (at = 0; at < EDITIONS * STAGES; at++) {
        set_up_stage(&stages[at / STAGES][at % STAGES], at / STAGES, at % STAGES);
    }
}

int main(int count, char **arguments)
{
    return run_rounds(count, arguments, set_up, round_of_calls);
}
