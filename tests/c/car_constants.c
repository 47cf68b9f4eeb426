/*
 * The numbers of lahzavar.h against the library, those of a car: each refusal, indication and state by what it does, the
 * frames that a car sends, and its key; and what the header adds: NULL, and wiped cars.
 */
#include "checks.h"
#include "lahzavar.h"
#include "station_frames.h"

#define SPACING 40u
#define GATHERING 1200u

static const struct car us = {{2, 0, 0, 0, 0, 1}, {1, 2, 3, 4, 5, 6, 7, 8}};
static const struct car other = {{2, 0, 0, 0, 0, 2}, {8, 7, 6, 5, 4, 3, 2, 1}};
static const uint8_t random_value[16] = {0xA0, 1, 2, 3, 4, 5, 6, 7, 8, 9, 10, 11, 12, 13, 14, 0xAF};
static const uint8_t modem[6] = {2, 0, 0, 0, 0, 0xBB};
static const uint8_t nid[7] = {1, 2, 3, 4, 5, 6, 7};
static const uint8_t nmk[16] = {0x80, 1, 2, 3, 4, 5, 6, 7, 8, 9, 10, 11, 12, 13, 14, 0x8F};

static struct lahzavar_car car;
static uint8_t out[LAHZAVAR_CAR_LEAST_OUTPUT + 1];
static uint8_t frame[FRAME_MOST];
static uint32_t reading;

/* The address of one of many stations; good until the next call. */
static const uint8_t *station(unsigned place)
{
    static uint8_t address[6] = {2, 0, 0, 0, 1, 0};
    address[5] = (uint8_t)place;
    return address;
}

static struct lahzavar_answer hear(size_t length)
{
    return lahzavar_car_frame(&car, frame, length, out, LAHZAVAR_CAR_LEAST_OUTPUT);
}

static struct lahzavar_answer hear_report(unsigned place, unsigned total)
{
    return hear(write_report(frame, &us, station(place), 10, total));
}

static struct lahzavar_answer tick_after(uint32_t time)
{
    reading += time;
    return lahzavar_car_tick(&car, reading, out, LAHZAVAR_CAR_LEAST_OUTPUT);
}

static void state_is(enum lahzavar_car_state_number state)
{
    same("the state", lahzavar_car_state(&car), state);
}

/* The answer has one frame, the one that `frame` now holds, and no octet behind it was written. */
static void sent(struct lahzavar_answer answer, size_t length)
{
    same("refusal", answer.refusal, LAHZAVAR_ACCEPTED);
    same("frames", answer.frames, 1);
    same("octets", answer.octets, length);
    same("octets of its frame", lahzavar_frame_octets(out, answer.octets), length);
    same("the frame", (size_t)memcmp(out, frame, length), 0);
    all_octets("an octet behind the frame", out + length, sizeof out - length, 0xEE);
    memset(out, 0xEE, sizeof out);
}

static void quiet(struct lahzavar_answer answer)
{
    same("refusal, indication, frames and octets", answer.refusal | answer.indication | answer.frames | answer.octets, 0);
}

static void configure(uint32_t reference)
{
    quiet(lahzavar_car_configure(&car, lahzavar_address(us.address), reference));
    state_is(LAHZAVAR_CAR_IDLE);
    memset(out, 0xEE, sizeof out);
}

static struct lahzavar_answer start(void)
{
    return lahzavar_car_start(&car, us.run, random_value, reading, out, LAHZAVAR_CAR_LEAST_OUTPUT);
}

static void asking(uint32_t reference)
{
    configure(reference);
    same("start", start().refusal, LAHZAVAR_ACCEPTED);
    state_is(LAHZAVAR_CAR_ASKING);
}

static void sounding(uint32_t reference)
{
    asking(reference);
    same("confirmation", hear(write_parm_cnf(frame, &us, station(1))).refusal, LAHZAVAR_ACCEPTED);
    state_is(LAHZAVAR_CAR_CONFIRMED);
    same("the first of the 13 frames", tick_after(100).frames, 1);
    state_is(LAHZAVAR_CAR_SOUNDING);
}

/* The car has chosen the first station. */
static void requesting(void)
{
    sounding(0);
    same("report", hear_report(1, 0).refusal, LAHZAVAR_ACCEPTED);
    same("the choice", tick_after(GATHERING).indication, LAHZAVAR_FOUND);
    state_is(LAHZAVAR_CAR_REQUESTING);
}

static void joining(void)
{
    requesting();
    same("key given", hear(write_match_cnf(frame, &us, station(1), nid, nmk)).indication, LAHZAVAR_KEY_GIVEN);
    state_is(LAHZAVAR_CAR_JOINING);
}

/* P1 of the bench cases, and the 13 frames. */
static void first_frames(void)
{
    unsigned left;
    size_t length;
    configure(0);
    length = write_parm_req(frame, &us);
    sent(start(), length);
    length = write_parm_req(frame, &us);
    sent(tick_after(200), length);
    quiet(hear(write_parm_cnf(frame, &us, station(1))));
    quiet(tick_after(99));
    length = write_start(frame, &us);
    sent(tick_after(1), length);
    sent(tick_after(SPACING), length);
    sent(tick_after(SPACING), length);
    for (left = 10; left > 0; left--) {
        length = write_sound(frame, &us, left - 1);
        memcpy(frame + FRAME_HEAD + 36, random_value, sizeof random_value);
        quiet(tick_after(SPACING - 1));
        sent(tick_after(1), length);
    }
    quiet(tick_after(GATHERING - 12 * SPACING - 1));
    same("no report", tick_after(1).indication, LAHZAVAR_NO_LINK);
    state_is(LAHZAVAR_CAR_IDLE);
}

/* The response, and the match request with its retries. */
static void later_frames(void)
{
    struct lahzavar_answer answer, choice;
    size_t length;
    sounding(0);
    memset(out, 0xEE, sizeof out);
    answer = hear_report(1, 0);
    length = write_rsp(frame, &us, station(1));
    sent(answer, length);
    choice = tick_after(GATHERING);
    same("found", choice.indication, LAHZAVAR_FOUND);
    length = write_match_req(frame, &us, station(1));
    same("the least output", length, LAHZAVAR_CAR_LEAST_OUTPUT);
    sent(choice, length);
    sent(tick_after(200), length);
    sent(tick_after(200), length);
    same("no match", tick_after(200).indication, LAHZAVAR_NO_LINK);
    state_is(LAHZAVAR_CAR_IDLE);
}

/* What a total gives, for a reference. */
static void choice(uint32_t reference, unsigned total, uint32_t indication)
{
    uint32_t after = indication == LAHZAVAR_NOT_FOUND ? LAHZAVAR_CAR_IDLE : LAHZAVAR_CAR_REQUESTING;
    sounding(reference);
    same("report", hear_report(1, total).refusal, LAHZAVAR_ACCEPTED);
    same("the choice", tick_after(GATHERING).indication, indication);
    same("the state after it", lahzavar_car_state(&car), after);
}

static void choices(void)
{
    const unsigned groups = LAHZAVAR_GROUPS;
    choice(0, 0, LAHZAVAR_FOUND);
    choice(0, 10 * groups - 1, LAHZAVAR_FOUND);
    choice(0, 10 * groups, LAHZAVAR_POTENTIALLY_FOUND);
    choice(0, 20 * groups - 1, LAHZAVAR_POTENTIALLY_FOUND);
    choice(0, 20 * groups, LAHZAVAR_NOT_FOUND);
    choice(26, 36 * groups - 1, LAHZAVAR_FOUND);
    choice(26, 36 * groups, LAHZAVAR_POTENTIALLY_FOUND);
    choice(255, 255 * groups, LAHZAVAR_FOUND);
}

/* The octets of the key are those of the CM_SLAC_MATCH.CNF. */
static void key_is_given(void)
{
    struct lahzavar_key key = lahzavar_car_key(&car);
    same("the key's refusal", key.refusal, LAHZAVAR_ACCEPTED);
    same("the key's station", (size_t)memcmp(key.station, station(1), 6), 0);
    same("the NID", (size_t)memcmp(key.nid, nid, 7), 0);
    same("the NMK", (size_t)memcmp(key.nmk, nmk, 16), 0);
}

/* A refused key query gives zeros. */
static void no_key(const struct lahzavar_car *whose, uint32_t refusal)
{
    struct lahzavar_key key = lahzavar_car_key(whose);
    same("the key's refusal", key.refusal, refusal);
    all_octets("an octet of the key's station", key.station, sizeof key.station, 0);
    all_octets("an octet of the NID", key.nid, sizeof key.nid, 0);
    all_octets("an octet of the NMK", key.nmk, sizeof key.nmk, 0);
}

static void joining_and_matched(void)
{
    joining();
    key_is_given();
    same("link established", lahzavar_car_link_up(&car).indication, LAHZAVAR_LINK_ESTABLISHED);
    state_is(LAHZAVAR_CAR_MATCHED);
    key_is_given();
    quiet(lahzavar_car_terminate(&car));
    state_is(LAHZAVAR_CAR_IDLE);
    no_key(&car, LAHZAVAR_WRONG_STATE);
    joining();
    same("terminate", lahzavar_car_terminate(&car).indication, LAHZAVAR_NO_LINK);
    no_key(&car, LAHZAVAR_WRONG_STATE);
    joining();
    quiet(tick_after(11999));
    same("no link up", tick_after(1).indication, LAHZAVAR_NO_LINK);
    no_key(&car, LAHZAVAR_WRONG_STATE);
}

static void refusals_of_reading(void)
{
    asking(0);
    same("too short", lahzavar_car_frame(&car, NULL, 60, out, sizeof out).refusal, LAHZAVAR_TOO_SHORT);
    (void)write_parm_cnf(frame, &us, station(1));
    same("too long", hear(61).refusal, LAHZAVAR_TOO_LONG);
    frame[FRAME_HEAD] = 0;
    same("bad octet", hear(60).refusal, LAHZAVAR_BAD_OCTET);
    frame[6] = 1;
    same("bad address", hear(60).refusal, LAHZAVAR_BAD_ADDRESS);
    frame[15] = 0;
    same("unknown type", hear(60).refusal, LAHZAVAR_UNKNOWN_TYPE);
    frame[12] = 0;
    same("bad head", hear(60).refusal, LAHZAVAR_BAD_HEAD);
    same("to another car", hear(write_parm_cnf(frame, &other, station(1))).refusal, LAHZAVAR_NOT_FOR_US);
    same("from ourselves", hear(write_parm_cnf(frame, &us, us.address)).refusal, LAHZAVAR_NOT_FOR_US);
}

static void only_for_stations(void)
{
    const uint8_t *to = station(1);
    sounding(0);
    same("a request", hear(write_parm_req(frame, &other)).refusal, LAHZAVAR_ONLY_FOR_STATIONS);
    same("our own request", hear(write_parm_req(frame, &us)).refusal, LAHZAVAR_ONLY_FOR_STATIONS);
    same("a start", hear(write_start(frame, &other)).refusal, LAHZAVAR_ONLY_FOR_STATIONS);
    same("a sound", hear(write_sound(frame, &other, 9)).refusal, LAHZAVAR_ONLY_FOR_STATIONS);
    same("a response", hear(write_rsp(frame, &other, to)).refusal, LAHZAVAR_ONLY_FOR_STATIONS);
    same("a validate request", hear(write_validate_req(frame, &other, to, 0)).refusal, LAHZAVAR_ONLY_FOR_STATIONS);
    same("the second one", hear(write_validate_req(frame, &other, broadcast_address, 9)).refusal,
         LAHZAVAR_ONLY_FOR_STATIONS);
    same("a match request", hear(write_match_req(frame, &other, to)).refusal, LAHZAVAR_ONLY_FOR_STATIONS);
    same("a profile", hear(write_profile(frame, modem, to, us.address, 0)).refusal, LAHZAVAR_ONLY_FOR_STATIONS);
}

static void refusals_of_matching(void)
{
    struct car another_run = us;
    unsigned place;
    another_run.run[7]++;
    sounding(0);
    same("start", start().refusal, LAHZAVAR_WRONG_STATE);
    same("link up", lahzavar_car_link_up(&car).refusal, LAHZAVAR_WRONG_STATE);
    same("match", hear(write_match_cnf(frame, &us, station(1), nid, nmk)).refusal, LAHZAVAR_WRONG_STATE);
    same("validation", hear(write_validate_cnf(frame, &us, station(1), 1, 2)).refusal, LAHZAVAR_WRONG_STATE);
    no_key(&car, LAHZAVAR_WRONG_STATE);
    same("another run", hear(write_report(frame, &another_run, station(1), 10, 0)).refusal, LAHZAVAR_NO_RECORD);
    same("no sounds", hear(write_report(frame, &us, station(1), 0, 0)).refusal, LAHZAVAR_NO_SOUNDS);
    for (place = 1; place <= LAHZAVAR_STATIONS; place++) {
        same("a report", hear_report(place, 1160 - place).refusal, LAHZAVAR_ACCEPTED);
    }
    same("reports full", hear_report(place, 0).refusal, LAHZAVAR_REPORTS_FULL);
    same("a kept station's report", hear_report(1, 0).refusal, LAHZAVAR_ACCEPTED);
    same("the choice", tick_after(GATHERING).indication, LAHZAVAR_POTENTIALLY_FOUND);
    same("the last one is chosen", (size_t)memcmp(out, station(LAHZAVAR_STATIONS), 6), 0);
    same("another station", hear(write_match_cnf(frame, &us, station(1), nid, nmk)).refusal, LAHZAVAR_NO_RECORD);
    same("another station's report", hear_report(1, 0).refusal, LAHZAVAR_NO_RECORD);
    same("the chosen one's report", hear_report(LAHZAVAR_STATIONS, 0).frames, 1);
}

/* No state of a car takes an amplitude map or its confirmation. */
static void no_map(void)
{
    struct car from = other;
    memcpy(from.address, station(1), 6);
    same("a map", hear(write_map_req(frame, &from, us.address, 6, 3)).refusal, LAHZAVAR_WRONG_STATE);
    same("a map's confirmation", hear(write_map_cnf(frame, &us, station(1), 0)).refusal, LAHZAVAR_WRONG_STATE);
    same("a map to another car", hear(write_map_req(frame, &from, other.address, 6, 3)).refusal, LAHZAVAR_NOT_FOR_US);
    same("a map without carriers", hear(write_map_req(frame, &from, us.address, 0, 0)).refusal, LAHZAVAR_BAD_OCTET);
}

static void maps(void)
{
    configure(0);
    no_map();
    asking(0);
    no_map();
    sounding(0);
    no_map();
    requesting();
    no_map();
    joining();
    no_map();
    same("link established", lahzavar_car_link_up(&car).indication, LAHZAVAR_LINK_ESTABLISHED);
    no_map();
}

/* After a gap in the clock ticks are refused; terminate and start take a reading. */
static void clock_gap(void)
{
    asking(0);
    same("tick gap", tick_after(60001).refusal, LAHZAVAR_TICK_GAP);
    same("the next tick", tick_after(5).refusal, LAHZAVAR_TICK_GAP);
    same("terminate", lahzavar_car_terminate(&car).indication, LAHZAVAR_NO_LINK);
    same("a tick in Idle", tick_after(5).refusal, LAHZAVAR_TICK_GAP);
    same("start", start().refusal, LAHZAVAR_ACCEPTED);
    quiet(tick_after(5));
    same("the longest gap", tick_after(60000).frames, 1);
}

/* A refused call leaves the car and the output as they were. */
static void refused(struct lahzavar_answer answer, uint32_t refusal, const struct lahzavar_car *before)
{
    same("refusal", answer.refusal, refusal);
    same("its indication, frames and octets", answer.indication | answer.frames | answer.octets, 0);
    same("the car", (size_t)memcmp(&car, before, sizeof car), 0);
    all_octets("an octet of the output", out, sizeof out, 0xEE);
}

/* Each pointer that may be NULL, and an output that is too short by one. */
static void missing_arguments(void)
{
    const size_t room = LAHZAVAR_CAR_LEAST_OUTPUT, less = room - 1;
    struct lahzavar_car before;
    size_t length = write_parm_cnf(frame, &us, station(1));
    configure(0);
    before = car;
    refused(lahzavar_car_start(&car, NULL, random_value, 0, out, room), LAHZAVAR_BAD_CONFIGURATION, &before);
    refused(lahzavar_car_start(&car, us.run, NULL, 0, out, room), LAHZAVAR_BAD_CONFIGURATION, &before);
    refused(lahzavar_car_start(&car, us.run, random_value, 0, NULL, room), LAHZAVAR_OUTPUT_TOO_SHORT, &before);
    refused(lahzavar_car_start(&car, us.run, random_value, 0, out, less), LAHZAVAR_OUTPUT_TOO_SHORT, &before);
    asking(0);
    memset(out, 0xEE, sizeof out);
    before = car;
    refused(lahzavar_car_frame(&car, NULL, length, out, room), LAHZAVAR_TOO_SHORT, &before);
    refused(lahzavar_car_frame(&car, frame, length, NULL, room), LAHZAVAR_OUTPUT_TOO_SHORT, &before);
    refused(lahzavar_car_frame(&car, frame, length, out, less), LAHZAVAR_OUTPUT_TOO_SHORT, &before);
    refused(lahzavar_car_tick(&car, reading + 200, NULL, room), LAHZAVAR_OUTPUT_TOO_SHORT, &before);
    refused(lahzavar_car_tick(&car, reading + 200, out, less), LAHZAVAR_OUTPUT_TOO_SHORT, &before);
}

/* A car that was badly configured or wiped, or NULL: every call answers 16, and no output is written. */
static void answers_nothing(struct lahzavar_car *whose)
{
    size_t length = write_parm_cnf(frame, &us, station(1));
    memset(out, 0xEE, sizeof out);
    same("start", lahzavar_car_start(whose, us.run, random_value, 0, out, sizeof out).refusal, LAHZAVAR_BAD_CONFIGURATION);
    same("no start", lahzavar_car_start(whose, NULL, NULL, 0, NULL, 0).refusal, LAHZAVAR_BAD_CONFIGURATION);
    same("frame", lahzavar_car_frame(whose, frame, length, out, sizeof out).refusal, LAHZAVAR_BAD_CONFIGURATION);
    same("no frame", lahzavar_car_frame(whose, NULL, 0, NULL, 0).refusal, LAHZAVAR_BAD_CONFIGURATION);
    same("tick", lahzavar_car_tick(whose, 0, out, sizeof out).refusal, LAHZAVAR_BAD_CONFIGURATION);
    same("tick without output", lahzavar_car_tick(whose, 0, NULL, 0).refusal, LAHZAVAR_BAD_CONFIGURATION);
    same("terminate", lahzavar_car_terminate(whose).refusal, LAHZAVAR_BAD_CONFIGURATION);
    same("link up", lahzavar_car_link_up(whose).refusal, LAHZAVAR_BAD_CONFIGURATION);
    no_key(whose, LAHZAVAR_BAD_CONFIGURATION);
    same("state", lahzavar_car_state(whose), LAHZAVAR_CAR_IDLE);
    all_octets("an octet of the output", out, sizeof out, 0xEE);
}

/* Configures a car badly, where one before it was good. */
static void configure_badly(uint64_t address, uint32_t reference)
{
    struct lahzavar_answer answer;
    joining();
    answer = lahzavar_car_configure(&car, address, reference);
    same("bad configuration", answer.refusal, LAHZAVAR_BAD_CONFIGURATION);
    same("its indication, frames and octets", answer.indication | answer.frames | answer.octets, 0);
    answers_nothing(&car);
}

static void bad_configurations(void)
{
    uint64_t address = lahzavar_address(us.address);
    configure_badly(address, 256);
    configure_badly(address, UINT32_MAX);
    configure_badly(lahzavar_address(NULL), 0);
    configure_badly(lahzavar_address(broadcast_address), 0);
    configure_badly(address | (uint64_t)1 << 48, 0);
    configure(255);
}

static void no_car(void)
{
    struct lahzavar_answer answer = lahzavar_car_configure(NULL, lahzavar_address(us.address), 0);
    same("configuring no car", answer.refusal, LAHZAVAR_BAD_CONFIGURATION);
    lahzavar_car_wipe(NULL);
    answers_nothing(NULL);
}

/* A wiped car keeps nothing of what it held, and no octet beside it changes. */
static void wiped_car(void)
{
    static struct {
        uint8_t before[64];
        struct lahzavar_car car;
        uint8_t after[64];
    } room;
    size_t at;
    joining();
    memset(&room, 0xEE, sizeof room);
    room.car = car;
    lahzavar_car_wipe(&room.car);
    for (at = 0; at < LAHZAVAR_CAR_WORDS; at++) {
        same("a wiped word", (size_t)room.car.private_words[at], 0);
    }
    all_octets("an octet before a wiped car", room.before, sizeof room.before, 0xEE);
    all_octets("an octet behind a wiped car", room.after, sizeof room.after, 0xEE);
    answers_nothing(&room.car);
    joining();
    key_is_given();
}

int main(void)
{
    first_frames();
    later_frames();
    choices();
    joining_and_matched();
    refusals_of_reading();
    only_for_stations();
    refusals_of_matching();
    maps();
    clock_gap();
    missing_arguments();
    bad_configurations();
    no_car();
    wiped_car();
    return faults == 0 ? 0 : 1;
}
