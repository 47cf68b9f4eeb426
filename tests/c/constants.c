/*
 * The numbers of lahzavar.h against the library: sizes, and each refusal, indication, state and pilot of a station by what
 * it does; and what the header adds: sentences, NULL, and wiped stations. car_constants.c has those of a car, and
 * map_constants.c the calls for amplitude maps.
 */
#include "checks.h"
#include "lahzavar.h"
#include "sae_frames.h"
#include "station_frames.h"

#define CARRIERS 6u

static const uint8_t us[6] = {2, 0, 0, 0, 0, 0xAA};
static const uint8_t modem[6] = {2, 0, 0, 0, 0, 0xBB};
static const uint8_t nid[7] = {1, 2, 3, 4, 5, 6, 7};
static const uint8_t nmk[16] = {0, 1, 2, 3, 4, 5, 6, 7, 8, 9, 10, 11, 12, 13, 14, 15};
static const enum lahzavar_pilot_state no_pilot = (enum lahzavar_pilot_state)6;
static const enum lahzavar_edition no_edition = (enum lahzavar_edition)2;
static const struct car first = {{2, 0, 0, 0, 0, 1}, {1, 2, 3, 4, 5, 6, 7, 8}};

static struct lahzavar_station station;
static uint8_t out[LAHZAVAR_LEAST_OUTPUT + 1];
static uint8_t frame[FRAME_MOST];
static uint8_t least[LAHZAVAR_GROUPS + 1], greatest[LAHZAVAR_GROUPS + 1]; /* what the query fills, and an octet more */

static struct car car_at(unsigned last)
{
    struct car car = first;
    car.address[5] = (uint8_t)last;
    return car;
}

static struct lahzavar_answer hear(size_t length)
{
    return lahzavar_station_frame(&station, frame, length, out, LAHZAVAR_LEAST_OUTPUT);
}

static struct lahzavar_answer tick(uint32_t reading)
{
    return lahzavar_station_tick(&station, reading, out, LAHZAVAR_LEAST_OUTPUT);
}

static void pilot(enum lahzavar_pilot_state now)
{
    same("a pilot", lahzavar_station_pilot(&station, now, 0).refusal, LAHZAVAR_ACCEPTED);
}

static void configure_as(bool validation_not_required, enum lahzavar_edition edition)
{
    struct lahzavar_answer answer =
        lahzavar_station_configure(&station, lahzavar_address(us), lahzavar_address(modem), lahzavar_nid(nid), nmk,
                                   validation_not_required, edition, CARRIERS);
    same("configuring", answer.refusal, LAHZAVAR_ACCEPTED);
}

static void configure(void)
{
    configure_as(false, LAHZAVAR_ISO);
}

static void plug_in(void)
{
    configure();
    pilot(LAHZAVAR_PILOT_B);
}

/* The same with the SAE edition, as a site of it does. */
static void plug_in_sae(void)
{
    configure_as(true, LAHZAVAR_SAE);
    pilot(LAHZAVAR_PILOT_B);
}

static void sizes(void)
{
    same("version", lahzavar_version(), LAHZAVAR_VERSION);
    same("major", lahzavar_version() >> 16, LAHZAVAR_MAJOR);
    same("minor", lahzavar_version() >> 8 & 0xFF, LAHZAVAR_MINOR);
    same("patch", lahzavar_version() & 0xFF, LAHZAVAR_PATCH);
    same("words", lahzavar_words(), LAHZAVAR_WORDS);
    same("sums", lahzavar_sums(), LAHZAVAR_SUMS);
    same("spread", lahzavar_spread(), LAHZAVAR_SPREAD);
    same("least output", lahzavar_least_output(), LAHZAVAR_LEAST_OUTPUT);
    same("words of a car", lahzavar_words_of_car(), LAHZAVAR_CAR_WORDS);
    same("least output of a car", lahzavar_least_output_of_car(), LAHZAVAR_CAR_LEAST_OUTPUT);
    same("library fits", (size_t)lahzavar_library_fits(), 1);
    same("answer", sizeof(struct lahzavar_answer), 16);
    same("heard", sizeof(struct lahzavar_heard), 8);
    same("inspection", sizeof(struct lahzavar_inspection), 16);
    same("key in numbers", sizeof(struct lahzavar_key_numbers), 40);
    same("a car", sizeof(struct lahzavar_car), 8 * LAHZAVAR_CAR_WORDS);
    same("sums in the station", offsetof(struct lahzavar_station, private_sums), 8 * LAHZAVAR_WORDS);
    same("spread in the station", offsetof(struct lahzavar_station, private_spread), 8 * LAHZAVAR_WORDS + 2 * LAHZAVAR_SUMS);
    same("a station", sizeof(struct lahzavar_station), 8 * LAHZAVAR_WORDS + 2 * LAHZAVAR_SUMS + LAHZAVAR_SPREAD);
    same("address", (size_t)lahzavar_address(us), 0x0200000000AAu);
    same("NID", (size_t)lahzavar_nid(nid), 0x07060504030201u);
}

/* P1 of the bench cases, and its reply P2. */
static void first_case(void)
{
    static const uint8_t reply[] = {2,    0,    0,    0,    0,    1,    2, 0, 0, 0, 0, 0xAA, 0x88, 0xE1, 1, 0x65, 0x60, 0, 0,
                                    0xFF, 0xFF, 0xFF, 0xFF, 0xFF, 0xFF, 10, 6, 1, 2, 0, 0, 0, 0, 1, 0, 0,
                                    1,    2,    3,    4,    5,    6,    7,  8};
    struct lahzavar_answer answer;
    plug_in();
    memset(out, 0xEE, sizeof out);
    answer = hear(write_parm_req(frame, &first));
    same("frames of P2", answer.frames, 1);
    same("octets of P2", answer.octets, 60);
    same("octets of its frame", lahzavar_frame_octets(out, answer.octets), 60);
    same("P2", (size_t)memcmp(out, reply, sizeof reply), 0);
    same("octet behind P2", out[60], 0xEE);
    same("records held", lahzavar_station_records_held(&station), 1);
}

static void refusals_of_reading(void)
{
    plug_in();
    same("too short", lahzavar_station_frame(&station, NULL, 60, out, sizeof out).refusal, LAHZAVAR_TOO_SHORT);
    (void)write_parm_req(frame, &first);
    same("too long", hear(61).refusal, LAHZAVAR_TOO_LONG);
    frame[19] = 1;
    same("bad octet", hear(60).refusal, LAHZAVAR_BAD_OCTET);
    frame[6] = 1;
    same("bad address", hear(60).refusal, LAHZAVAR_BAD_ADDRESS);
    frame[15] = 0;
    same("unknown type", hear(60).refusal, LAHZAVAR_UNKNOWN_TYPE);
    frame[12] = 0;
    same("bad head", hear(60).refusal, LAHZAVAR_BAD_HEAD);
    same("output too short", lahzavar_station_frame(&station, frame, 60, out, LAHZAVAR_LEAST_OUTPUT - 1).refusal,
         LAHZAVAR_OUTPUT_TOO_SHORT);
    same("no output", lahzavar_station_frame(&station, frame, 60, NULL, sizeof out).refusal, LAHZAVAR_OUTPUT_TOO_SHORT);
    same("no output of a tick", lahzavar_station_tick(&station, 1, NULL, sizeof out).refusal, LAHZAVAR_OUTPUT_TOO_SHORT);
    same("only for cars", hear(write_parm_cnf(frame, &first, us)).refusal, LAHZAVAR_ONLY_FOR_CARS);
    same("only for cars", hear(write_report(frame, &first, us, 10, 0)).refusal, LAHZAVAR_ONLY_FOR_CARS);
    same("only for cars", hear(write_match_cnf(frame, &first, us, nid, nmk)).refusal, LAHZAVAR_ONLY_FOR_CARS);
    same("only for cars", hear(write_validate_cnf(frame, &first, us, 1, 2)).refusal, LAHZAVAR_ONLY_FOR_CARS);
    same("only for cars", hear(write_map_cnf(frame, &first, us, 0)).refusal, LAHZAVAR_ONLY_FOR_CARS);
    same("not for us", hear(write_rsp(frame, &first, modem)).refusal, LAHZAVAR_NOT_FOR_US);
}

static void refusals_of_matching(void)
{
    unsigned last;
    struct car car = car_at(LAHZAVAR_RECORDS + 1);
    struct car empty = first;
    memset(empty.run, 0, sizeof empty.run);
    plug_in();
    same("empty run", hear(write_parm_req(frame, &empty)).refusal, LAHZAVAR_EMPTY_RUN);
    same("no record", hear(write_start(frame, &first)).refusal, LAHZAVAR_NO_RECORD);
    for (last = 1; last <= LAHZAVAR_RECORDS; last++) {
        struct car held = car_at(last);
        same("a record", hear(write_parm_req(frame, &held)).refusal, LAHZAVAR_ACCEPTED);
    }
    same("records full", hear(write_parm_req(frame, &car)).refusal, LAHZAVAR_RECORDS_FULL);
    same("empty run of a car with a record", hear(write_parm_req(frame, &empty)).refusal, LAHZAVAR_EMPTY_RUN);
    memset(car.run, 0, sizeof car.run);
    same("empty run, records full", hear(write_parm_req(frame, &car)).refusal, LAHZAVAR_EMPTY_RUN);
    same("wrong phase", hear(write_match_req(frame, &first, us)).refusal, LAHZAVAR_WRONG_PHASE);
    same("start", hear(write_start(frame, &first)).refusal, LAHZAVAR_ACCEPTED);
    same("sound 9", hear(write_sound(frame, &first, 9)).refusal, LAHZAVAR_ACCEPTED);
    same("sound 10", hear(write_sound(frame, &first, 10)).refusal, LAHZAVAR_BAD_SOUND_COUNT);
    same("link up", lahzavar_station_link_up(&station).refusal, LAHZAVAR_WRONG_STATE);
    same("pilot 6", lahzavar_station_pilot(&station, no_pilot, 0).refusal, LAHZAVAR_WRONG_STATE);
    same("tick gap", tick(60001).refusal, LAHZAVAR_TICK_GAP);
    same("records held", lahzavar_station_records_held(&station), LAHZAVAR_RECORDS);
    same("tick", tick(399).refusal, LAHZAVAR_ACCEPTED);
    same("restart", hear(write_parm_req(frame, &first)).refusal, LAHZAVAR_ACCEPTED);
    same("late tick", tick(400).refusal, LAHZAVAR_ACCEPTED);
    same("records left", lahzavar_station_records_held(&station), 1);
}

/* A record keeps Matching open past the end of admission, and no new car comes in. */
static void end_of_admission(void)
{
    struct car late = car_at(2);
    plug_in();
    same("tick", tick(49999).refusal, LAHZAVAR_ACCEPTED);
    same("request", hear(write_parm_req(frame, &first)).refusal, LAHZAVAR_ACCEPTED);
    same("tick", tick(50000).refusal, LAHZAVAR_ACCEPTED);
    same("admission closed", hear(write_parm_req(frame, &late)).refusal, LAHZAVAR_ADMISSION_CLOSED);
    same("no link", tick(51000).indication, LAHZAVAR_NO_LINK);
    same("unmatched", lahzavar_station_state(&station), LAHZAVAR_UNMATCHED);
}

/* The query, which leaves the station as it was. */
static struct lahzavar_heard query(const struct lahzavar_station *other, const uint8_t *address)
{
    struct lahzavar_station before = station;
    struct lahzavar_heard heard;
    memset(least, 0xEE, sizeof least);
    memset(greatest, 0xEE, sizeof greatest);
    heard = lahzavar_station_query(other, lahzavar_address(address), least, greatest);
    same("the station behind a query", (size_t)memcmp(&station, &before, sizeof before), 0);
    same("the octet behind the least values", least[LAHZAVAR_GROUPS], 0xEE);
    same("the octet behind the greatest values", greatest[LAHZAVAR_GROUPS], 0xEE);
    return heard;
}

/* A refused query tells nothing, and leaves both arrays as they were. */
static void query_refused(const struct lahzavar_station *other, const uint8_t *address, uint32_t refusal)
{
    struct lahzavar_heard heard = query(other, address);
    same("the query's refusal", heard.refusal, refusal);
    same("its sounds", heard.sounds, 0);
    all_octets("an octet of the least values", least, sizeof least, 0xEE);
    all_octets("an octet of the greatest values", greatest, sizeof greatest, 0xEE);
}

/* The query gives so many sounds, and in every group these values. */
static void query_gives(const struct car *car, uint32_t sounds, unsigned low, unsigned high)
{
    struct lahzavar_heard heard = query(&station, car->address);
    same("the query's refusal", heard.refusal, LAHZAVAR_ACCEPTED);
    same("sounds heard", heard.sounds, sounds);
    all_octets("a least value", least, LAHZAVAR_GROUPS, (uint8_t)low);
    all_octets("a greatest value", greatest, LAHZAVAR_GROUPS, (uint8_t)high);
}

/* The inspection, which leaves the station as it was, tells this state and car. */
static void inspected(uint32_t state, uint64_t car)
{
    struct lahzavar_station before = station;
    struct lahzavar_inspection told = lahzavar_station_inspect(&station);
    same("the station behind an inspection", (size_t)memcmp(&station, &before, sizeof before), 0);
    same("the inspection's refusal", told.refusal, LAHZAVAR_ACCEPTED);
    same("its state", told.state, state);
    same("its car", (size_t)told.car, (size_t)car);
    same("the state alone", lahzavar_station_state(&station), state);
}

/* A station that was badly configured or wiped, or NULL: every call answers 16, and no output is written. */
static void answers_nothing(struct lahzavar_station *other)
{
    struct lahzavar_inspection told = lahzavar_station_inspect(other);
    size_t length = write_parm_req(frame, &first);
    same("inspection", told.refusal, LAHZAVAR_BAD_CONFIGURATION);
    same("its state and car", told.state | (size_t)told.car, 0);
    memset(out, 0xEE, sizeof out);
    same("frame", lahzavar_station_frame(other, frame, length, out, sizeof out).refusal, LAHZAVAR_BAD_CONFIGURATION);
    same("no frame", lahzavar_station_frame(other, NULL, 0, NULL, 0).refusal, LAHZAVAR_BAD_CONFIGURATION);
    same("tick", lahzavar_station_tick(other, 0, out, sizeof out).refusal, LAHZAVAR_BAD_CONFIGURATION);
    same("tick without output", lahzavar_station_tick(other, 0, NULL, 0).refusal, LAHZAVAR_BAD_CONFIGURATION);
    same("pilot", lahzavar_station_pilot(other, LAHZAVAR_PILOT_B, 0).refusal, LAHZAVAR_BAD_CONFIGURATION);
    same("pilot 6", lahzavar_station_pilot(other, no_pilot, 0).refusal, LAHZAVAR_BAD_CONFIGURATION);
    same("terminate", lahzavar_station_terminate(other).refusal, LAHZAVAR_BAD_CONFIGURATION);
    same("link up", lahzavar_station_link_up(other).refusal, LAHZAVAR_BAD_CONFIGURATION);
    query_refused(other, first.address, LAHZAVAR_BAD_CONFIGURATION);
    same("query without arrays", lahzavar_station_query(other, 1, NULL, NULL).refusal, LAHZAVAR_BAD_CONFIGURATION);
    same("state", lahzavar_station_state(other), LAHZAVAR_UNMATCHED);
    same("records held", lahzavar_station_records_held(other), 0);
    all_octets("an octet of the output", out, sizeof out, 0xEE);
}

/* Configures a station badly, where one before it was good. */
static void configure_badly(uint64_t address, uint64_t other, uint64_t network, const uint8_t *key,
                            enum lahzavar_edition edition)
{
    struct lahzavar_answer answer;
    plug_in();
    answer = lahzavar_station_configure(&station, address, other, network, key, false, edition, CARRIERS);
    same("bad configuration", answer.refusal, LAHZAVAR_BAD_CONFIGURATION);
    same("its indication, frames and octets", answer.indication | answer.frames | answer.octets, 0);
    answers_nothing(&station);
}

static void bad_configurations(void)
{
    uint64_t ours = lahzavar_address(us), modems = lahzavar_address(modem), network = lahzavar_nid(nid);
    configure_badly(ours, ours, network, nmk, LAHZAVAR_ISO);
    configure_badly(ours, ours, network, nmk, LAHZAVAR_SAE);
    configure_badly(lahzavar_address(NULL), modems, network, nmk, LAHZAVAR_ISO);
    configure_badly(ours, lahzavar_address(NULL), network, nmk, LAHZAVAR_ISO);
    configure_badly(ours, modems, lahzavar_nid(NULL), nmk, LAHZAVAR_ISO);
    configure_badly(ours, modems, (uint64_t)1 << 54, nmk, LAHZAVAR_ISO);
    configure_badly(ours, modems, network, NULL, LAHZAVAR_ISO);
    configure_badly(ours, modems, network, nmk, no_edition);
    configure();
}

/* The library's own call takes 0 and 1 for an edition, and no other number. */
static void editions(void)
{
    static const uint32_t numbers[] = {0, 1, 2, 256, 257, 0x80000000u, UINT32_MAX};
    size_t at;
    same("ISO", LAHZAVAR_ISO, 0);
    same("SAE", LAHZAVAR_SAE, 1);
    for (at = 0; at < sizeof numbers / sizeof *numbers; at++) {
        struct lahzavar_answer answer =
            lahzavar_configure(station.private_words, station.private_sums, station.private_spread, lahzavar_address(us),
                               lahzavar_address(modem), lahzavar_nid(nid), 1, 2, 0, numbers[at], CARRIERS);
        if (numbers[at] > 1) {
            same("a bad edition", answer.refusal, LAHZAVAR_BAD_CONFIGURATION);
            answers_nothing(&station);
            continue;
        }
        same("an edition", answer.refusal, LAHZAVAR_ACCEPTED);
        pilot(LAHZAVAR_PILOT_B);
        same("its confirmation", hear(write_parm_req(frame, &first)).frames, 1);
        same("its sounds", out[FRAME_HEAD + 6], numbers[at] == LAHZAVAR_ISO ? 10 : 8);
    }
}

/* A station has 1 to 1155 carriers. */
static void numbers_of_carriers(void)
{
    static const uint32_t good[] = {1, 2, 6, 917, 1154, 1155};
    static const uint32_t bad[] = {0, 1156, 2310, 65536, 65536 + 6, 0x80000001u, UINT32_MAX};
    uint64_t ours = lahzavar_address(us), modems = lahzavar_address(modem), network = lahzavar_nid(nid);
    size_t at;
    same("the most carriers", LAHZAVAR_CARRIERS, 1155);
    for (at = 0; at < sizeof good / sizeof *good; at++) {
        struct lahzavar_answer answer =
            lahzavar_station_configure(&station, ours, modems, network, nmk, false, LAHZAVAR_ISO, good[at]);
        same("a number of carriers", answer.refusal, LAHZAVAR_ACCEPTED);
        same("a tick", tick(0).refusal, LAHZAVAR_ACCEPTED);
        inspected(LAHZAVAR_UNMATCHED, 0);
    }
    for (at = 0; at < sizeof bad / sizeof *bad; at++) {
        struct lahzavar_answer answer;
        plug_in();
        answer = lahzavar_station_configure(&station, ours, modems, network, nmk, false, LAHZAVAR_ISO, bad[at]);
        same("a bad number of carriers", answer.refusal, LAHZAVAR_BAD_CONFIGURATION);
        answers_nothing(&station);
    }
}

static void no_station(void)
{
    struct lahzavar_answer answer =
        lahzavar_station_configure(NULL, lahzavar_address(us), lahzavar_address(modem), lahzavar_nid(nid), nmk, false,
                                   LAHZAVAR_ISO, CARRIERS);
    same("configuring no station", answer.refusal, LAHZAVAR_BAD_CONFIGURATION);
    answer = lahzavar_station_configure(NULL, 1, 2, 3, NULL, true, LAHZAVAR_SAE, 0);
    same("the same without an NMK", answer.refusal, LAHZAVAR_BAD_CONFIGURATION);
    lahzavar_station_wipe(NULL);
    answers_nothing(NULL);
}

/* A wiped station keeps nothing of what it held, and no octet beside it changes. */
static void wiped_station(void)
{
    static struct {
        uint8_t before[64];
        struct lahzavar_station station;
        uint8_t after[64];
    } room;
    size_t at;
    plug_in();
    (void)hear(write_parm_req(frame, &first));
    (void)hear(write_start(frame, &first));
    (void)hear(write_profile(frame, modem, us, first.address, 255));
    memset(&room, 0xEE, sizeof room);
    room.station = station;
    lahzavar_station_wipe(&room.station);
    for (at = 0; at < LAHZAVAR_WORDS; at++) {
        same("a wiped word", (size_t)room.station.private_words[at], 0);
    }
    for (at = 0; at < LAHZAVAR_SUMS; at++) {
        same("a wiped sum", room.station.private_sums[at], 0);
    }
    all_octets("an octet of a wiped spread", room.station.private_spread, LAHZAVAR_SPREAD, 0);
    all_octets("an octet before a wiped station", room.before, sizeof room.before, 0xEE);
    all_octets("an octet behind a wiped station", room.after, sizeof room.after, 0xEE);
    answers_nothing(&room.station);
    lahzavar_station_wipe(&station);
    answers_nothing(&station);
    plug_in();
    same("a new matching", lahzavar_station_state(&station), LAHZAVAR_MATCHING);
}

/* Each number has a sentence of its own; those of a later library share one. */
static void sentences(void)
{
    const char *later = lahzavar_refusal_text(LAHZAVAR_LAST_REFUSAL + 1);
    uint32_t number, other;
    same("the sentence of the greatest number", (size_t)strcmp(lahzavar_refusal_text(UINT32_MAX), later), 0);
    for (number = 0; number <= LAHZAVAR_LAST_REFUSAL; number++) {
        const char *text = lahzavar_refusal_text(number);
        same("an empty sentence", *text == '\0', 0);
        same("a sentence as of a later library", strcmp(text, later) == 0, 0);
        for (other = 0; other < number; other++) {
            same("a sentence of two numbers", strcmp(text, lahzavar_refusal_text(other)) == 0, 0);
        }
    }
}

/* A car's matching until its report. */
static void reported(const struct car *car)
{
    unsigned left;
    (void)hear(write_parm_req(frame, car));
    (void)hear(write_start(frame, car));
    for (left = 10; left > 1; left--) {
        same("profile", hear(write_profile(frame, modem, us, car->address, left)).frames, 0);
    }
    same("report", hear(write_profile(frame, modem, us, car->address, 1)).octets, LAHZAVAR_REPORT_OCTETS);
}

/* And until the station awaits its match request, or a first validate request. */
static void awaited(const struct car *car)
{
    reported(car);
    same("response", hear(write_rsp(frame, car, us)).refusal, LAHZAVAR_ACCEPTED);
}

/* The answer is one CM_VALIDATE.CNF, and no octet behind it was written. */
static void confirmed(struct lahzavar_answer answer, const struct car *car, unsigned toggles, unsigned result)
{
    size_t length = write_validate_cnf(frame, car, us, toggles, result);
    same("the frames of a confirmation", answer.frames, 1);
    same("its octets", answer.octets, LAHZAVAR_CONFIRMATION_OCTETS);
    same("its indication", answer.indication, LAHZAVAR_NO_INDICATION);
    same("the confirmation", (size_t)memcmp(out, frame, length), 0);
    all_octets("an octet behind the confirmation", out + length, sizeof out - length, 0xEE);
}

/* The answer to a first validate request, which goes to the station alone. */
static void asked_to_validate(const struct car *car, unsigned result)
{
    memset(out, 0xEE, sizeof out);
    confirmed(hear(write_validate_req(frame, car, us, 0)), car, 0, result);
}

/* A second validate request, which goes to all. */
static uint32_t second_request(const struct car *car, unsigned timer)
{
    return hear(write_validate_req(frame, car, broadcast_address, timer)).refusal;
}

/* Two toggles within a second, while another car is told that the station is busy. */
static void validation(void)
{
    struct car second = car_at(2);
    unsigned toggle;
    plug_in();
    awaited(&first);
    awaited(&second);
    same("a second request too early", second_request(&first, 9), LAHZAVAR_WRONG_PHASE);
    asked_to_validate(&first, 1);
    asked_to_validate(&second, 3);
    same("the first one again", hear(write_validate_req(frame, &first, us, 0)).refusal, LAHZAVAR_WRONG_PHASE);
    same("a second request", second_request(&first, 9), LAHZAVAR_ACCEPTED);
    for (toggle = 0; toggle < 2; toggle++) {
        pilot(LAHZAVAR_PILOT_C);
        pilot(LAHZAVAR_PILOT_B);
    }
    same("match while counting", hear(write_match_req(frame, &first, us)).refusal, LAHZAVAR_WRONG_PHASE);
    same("the window", tick(999).frames, 0);
    memset(out, 0xEE, sizeof out);
    confirmed(tick(1000), &first, 2, 2);
    same("match", hear(write_match_req(frame, &first, us)).frames, 1);
    same("joining", lahzavar_station_state(&station), LAHZAVAR_JOINING);
}

/* The pilot at C when the window ends; no second request; a station that requires none. */
static void other_validations(void)
{
    plug_in();
    awaited(&first);
    asked_to_validate(&first, 1);
    same("a second request", second_request(&first, 0), LAHZAVAR_ACCEPTED);
    pilot(LAHZAVAR_PILOT_C);
    memset(out, 0xEE, sizeof out);
    confirmed(tick(100), &first, 0, 3);
    same("records left", lahzavar_station_records_held(&station), 0);
    plug_in();
    awaited(&first);
    asked_to_validate(&first, 1);
    same("ready", tick(399).refusal, LAHZAVAR_ACCEPTED);
    same("still ready", lahzavar_station_records_held(&station), 1);
    same("ready no longer", tick(400).frames, 0);
    same("records left", lahzavar_station_records_held(&station), 0);
    configure_as(true, LAHZAVAR_ISO);
    pilot(LAHZAVAR_PILOT_B);
    awaited(&first);
    asked_to_validate(&first, 4);
    same("a second request all the same", second_request(&first, 9), LAHZAVAR_WRONG_PHASE);
    same("match", hear(write_match_req(frame, &first, us)).frames, 1);
}

/* The library's own call takes every number but 0 for "not required". */
static void exemptions(void)
{
    static const uint32_t numbers[] = {0, 1, 2, 256, 0x80000000u, UINT32_MAX};
    size_t at;
    for (at = 0; at < sizeof numbers / sizeof *numbers; at++) {
        struct lahzavar_answer answer =
            lahzavar_configure(station.private_words, station.private_sums, station.private_spread, lahzavar_address(us),
                               lahzavar_address(modem), lahzavar_nid(nid), 1, 2, numbers[at], LAHZAVAR_ISO, CARRIERS);
        same("configuring", answer.refusal, LAHZAVAR_ACCEPTED);
        pilot(LAHZAVAR_PILOT_B);
        awaited(&first);
        asked_to_validate(&first, numbers[at] == 0 ? 1 : 4);
    }
}

/* A profile of our modem about a car, the same value in every group. */
static void measured(const struct car *car, unsigned value)
{
    same("a profile", hear(write_profile(frame, modem, us, car->address, value)).refusal, LAHZAVAR_ACCEPTED);
}

/* The query from a car's request until its match: 11 before the first profile, then the spread of those counted so far. */
static void spread_of_a_session(void)
{
    struct car second = car_at(2);
    unsigned profile;
    plug_in();
    query_refused(&station, first.address, LAHZAVAR_NO_RECORD);
    (void)hear(write_parm_req(frame, &first));
    query_refused(&station, first.address, LAHZAVAR_NO_RECORD);
    (void)hear(write_start(frame, &first));
    same("a sound", hear(write_sound(frame, &first, 9)).refusal, LAHZAVAR_ACCEPTED);
    query_refused(&station, first.address, LAHZAVAR_NO_RECORD);
    measured(&first, 30);
    query_gives(&first, 1, 30, 30);
    measured(&first, 255);
    query_gives(&first, 1, 30, 255);
    measured(&first, 0);
    query_gives(&first, 1, 0, 255);
    same("a profile of no record", hear(write_profile(frame, modem, us, second.address, 7)).refusal, LAHZAVAR_NO_RECORD);
    query_refused(&station, second.address, LAHZAVAR_NO_RECORD);
    same("a request again", hear(write_parm_req(frame, &first)).refusal, LAHZAVAR_ACCEPTED);
    query_refused(&station, first.address, LAHZAVAR_NO_RECORD);
    (void)hear(write_start(frame, &first));
    for (profile = 0; profile < 9; profile++) {
        measured(&first, 40);
    }
    query_gives(&first, 0, 40, 40);
    measured(&first, 41);
    query_gives(&first, 0, 40, 41);
    same("a profile too many", hear(write_profile(frame, modem, us, first.address, 90)).refusal, LAHZAVAR_WRONG_PHASE);
    query_gives(&first, 0, 40, 41);
    (void)hear(write_rsp(frame, &first, us));
    query_gives(&first, 0, 40, 41);
    (void)hear(write_match_req(frame, &first, us));
    query_refused(&station, first.address, LAHZAVAR_NO_RECORD);
}

/* Each car and each group has values of its own. */
static void spread_of_cars(void)
{
    uint8_t low[LAHZAVAR_GROUPS], high[LAHZAVAR_GROUPS];
    unsigned last, group;
    for (group = 0; group < LAHZAVAR_GROUPS; group++) {
        low[group] = (uint8_t)group;
        high[group] = (uint8_t)(255 - group);
    }
    plug_in();
    for (last = 1; last <= LAHZAVAR_RECORDS; last++) {
        struct car car = car_at(last);
        (void)hear(write_parm_req(frame, &car));
        (void)hear(write_start(frame, &car));
        measured(&car, 100 + last);
    }
    same("low values", hear(write_profile_of(frame, modem, us, first.address, low)).refusal, LAHZAVAR_ACCEPTED);
    same("a query", query(&station, first.address).refusal, LAHZAVAR_ACCEPTED);
    same("the least values", (size_t)memcmp(least, low, sizeof low), 0);
    all_octets("a greatest value", greatest, LAHZAVAR_GROUPS, 101);
    same("high values", hear(write_profile_of(frame, modem, us, first.address, high)).refusal, LAHZAVAR_ACCEPTED);
    same("a query", query(&station, first.address).refusal, LAHZAVAR_ACCEPTED);
    same("the least values", (size_t)memcmp(least, low, sizeof low), 0);
    same("the greatest values", (size_t)memcmp(greatest, high, sizeof high), 0);
    for (last = 2; last <= LAHZAVAR_RECORDS; last++) {
        struct car car = car_at(last);
        query_gives(&car, 0, 100 + last, 100 + last);
    }
    query_refused(&station, us, LAHZAVAR_NO_RECORD);
}

/* An array that is NULL is left out, the other one is filled. */
static void missing_arrays(void)
{
    uint64_t car = lahzavar_address(first.address);
    plug_in();
    (void)hear(write_parm_req(frame, &first));
    (void)hear(write_start(frame, &first));
    same("no arrays, too early", lahzavar_station_query(&station, car, NULL, NULL).refusal, LAHZAVAR_NO_RECORD);
    (void)hear(write_sound(frame, &first, 0));
    measured(&first, 20);
    measured(&first, 23);
    query_gives(&first, 1, 20, 23);
    same("no arrays", lahzavar_station_query(&station, car, NULL, NULL).sounds, 1);
    memset(least, 0xEE, sizeof least);
    same("the least values alone", lahzavar_station_query(&station, car, least, NULL).sounds, 1);
    all_octets("a least value", least, LAHZAVAR_GROUPS, 20);
    memset(greatest, 0xEE, sizeof greatest);
    same("the greatest values alone", lahzavar_station_query(&station, car, NULL, greatest).sounds, 1);
    all_octets("a greatest value", greatest, LAHZAVAR_GROUPS, 23);
}

/* The frames of one tick: reports, and behind them a confirmation, each at its own length. */
static void frames_of_a_tick(void)
{
    struct car second = car_at(2), third = car_at(3);
    struct lahzavar_answer answer;
    size_t at, length, frames = 0;
    plug_in();
    awaited(&first);
    reported(&second);
    reported(&third);
    asked_to_validate(&first, 1);
    same("a second request", second_request(&first, 1), LAHZAVAR_ACCEPTED);
    answer = tick(200);
    same("frames", answer.frames, 3);
    same("octets", answer.octets, 2 * LAHZAVAR_REPORT_OCTETS + LAHZAVAR_CONFIRMATION_OCTETS);
    for (at = 0; at < answer.octets; at += length) {
        const struct car *car = frames == 0 ? &second : frames == 1 ? &third : &first;
        length = lahzavar_frame_octets(out + at, answer.octets - at);
        same("octets of a frame", length, frames < 2 ? LAHZAVAR_REPORT_OCTETS : LAHZAVAR_CONFIRMATION_OCTETS);
        same("its type", frame_type(out + at, length), frames < 2 ? CM_ATTEN_CHAR_IND : CM_VALIDATE_CNF);
        same("its car", (size_t)memcmp(out + at, car->address, 6), 0);
        frames++;
    }
    same("frames by their lengths", frames, answer.frames);
    same("octets of no frame", lahzavar_frame_octets(out, 0), 0);
    same("octets of NULL", lahzavar_frame_octets(NULL, sizeof out), 0);
    same("octets of a frame that is cut", lahzavar_frame_octets(out, 100), 100);
}

/* The answer is one frame with the octets that stand in `frame`, and no octet behind it was written. */
static void answered(const char *what, struct lahzavar_answer answer, size_t length)
{
    same(what, (size_t)memcmp(out, frame, length), 0);
    same("its frames", answer.frames, 1);
    same("its octets", answer.octets, length);
    same("octets by its frame", lahzavar_frame_octets(out, answer.octets), length);
    all_octets("an octet behind it", out + length, sizeof out - length, 0xEE);
}

/* A request in SAE, and a confirmation with the values of a try. */
static void sae_asks(const struct car *car, const uint8_t values[2])
{
    struct lahzavar_answer answer;
    memset(out, 0xEE, sizeof out);
    answer = hear(write_parm_req(frame, car));
    answered("the confirmation of a try", answer, write_sae_parm_cnf(frame, car, us, values));
}

/* A car's first try in SAE until its report: eight profiles of so many groups. */
static void sae_reported(const struct car *car, unsigned groups)
{
    struct lahzavar_answer answer;
    unsigned left;
    sae_asks(car, first_try);
    same("start", hear(write_sae_start(frame, car, first_try)).refusal, LAHZAVAR_ACCEPTED);
    for (left = 8; left > 1; left--) {
        same("profile", hear(write_sae_profile(frame, modem, us, car->address, groups, 40)).frames, 0);
    }
    memset(out, 0xEE, sizeof out);
    answer = hear(write_sae_profile(frame, modem, us, car->address, groups, 48));
    answered("the report of a first try", answer, write_sae_report(frame, car, us, 8, groups, 41));
}

/* Both tries in SAE: their values, their sounds and how many profiles close them. */
static void tries(void)
{
    static const uint8_t iso_values[2] = {10, 6}, mixed_values[2] = {8, 10}, sender[SAE_ID] = {1, 2, 3};
    struct lahzavar_answer answer;
    unsigned left;
    plug_in_sae();
    sae_asks(&first, first_try);
    same("a start of a later try", hear(write_sae_start(frame, &first, later_try)).refusal, LAHZAVAR_OTHER_TRY);
    same("a start of ISO's values", hear(write_sae_start(frame, &first, iso_values)).refusal, LAHZAVAR_BAD_OCTET);
    same("a start of both tries", hear(write_sae_start(frame, &first, mixed_values)).refusal, LAHZAVAR_BAD_OCTET);
    same("a start of ISO", hear(write_start(frame, &first)).refusal, LAHZAVAR_BAD_OCTET);
    same("a start", hear(write_sae_start(frame, &first, first_try)).refusal, LAHZAVAR_ACCEPTED);
    same("sound 7", hear(write_sound(frame, &first, 7)).refusal, LAHZAVAR_ACCEPTED);
    same("sound 7 again", hear(write_sound(frame, &first, 7)).refusal, LAHZAVAR_BAD_SOUND_COUNT);
    same("sound 8", hear(write_sound(frame, &first, 8)).refusal, LAHZAVAR_BAD_SOUND_COUNT);
    sae_asks(&first, later_try);
    same("a start of a first try", hear(write_sae_start(frame, &first, first_try)).refusal, LAHZAVAR_OTHER_TRY);
    same("a start", hear(write_sae_start(frame, &first, later_try)).refusal, LAHZAVAR_ACCEPTED);
    same("a start while sounding", hear(write_sae_start(frame, &first, first_try)).refusal, LAHZAVAR_OTHER_TRY);
    same("sound 15", hear(write_sae_sound(frame, &first, 15, sender)).refusal, LAHZAVAR_ACCEPTED);
    same("sound 16", hear(write_sound(frame, &first, 16)).refusal, LAHZAVAR_BAD_SOUND_COUNT);
    for (left = 16; left > 1; left--) {
        same("profile", hear(write_sae_profile(frame, modem, us, first.address, 58, 255)).frames, 0);
    }
    memset(out, 0xEE, sizeof out);
    answer = hear(write_sae_profile(frame, modem, us, first.address, 58, 240));
    answered("the report of a later try", answer, write_sae_report(frame, &first, us, 16, 58, 254));
}

/* The first profile since the request fixes the group count; the query gives zeros behind it. */
static void group_counts(void)
{
    plug_in_sae();
    sae_asks(&first, first_try);
    (void)hear(write_sae_start(frame, &first, first_try));
    same("no groups", hear(write_sae_profile(frame, modem, us, first.address, 0, 0)).refusal, LAHZAVAR_BAD_OCTET);
    (void)write_sae_profile(frame, modem, us, first.address, 58, 0);
    frame[FRAME_HEAD + 6] = 59;
    same("too many groups", hear(FRAME_HEAD + 8 + 58).refusal, LAHZAVAR_BAD_OCTET);
    same("20 groups", hear(write_sae_profile(frame, modem, us, first.address, 20, 30)).refusal, LAHZAVAR_ACCEPTED);
    same("21 groups", hear(write_sae_profile(frame, modem, us, first.address, 21, 30)).refusal, LAHZAVAR_OTHER_GROUP_COUNT);
    same("20 groups", hear(write_sae_profile(frame, modem, us, first.address, 20, 35)).refusal, LAHZAVAR_ACCEPTED);
    same("a query", query(&station, first.address).refusal, LAHZAVAR_ACCEPTED);
    all_octets("a least value", least, 20, 30);
    all_octets("a greatest value", greatest, 20, 35);
    all_octets("a least value of no group", least + 20, LAHZAVAR_GROUPS - 20, 0);
    all_octets("a greatest value of no group", greatest + 20, LAHZAVAR_GROUPS - 20, 0);
    sae_asks(&first, later_try);
    (void)hear(write_sae_start(frame, &first, later_try));
    same("21 groups", hear(write_sae_profile(frame, modem, us, first.address, 21, 30)).refusal, LAHZAVAR_ACCEPTED);
}

/* The reports of one tick in SAE, each at its own length, and behind them a confirmation. */
static void sae_frames_of_a_tick(void)
{
    static const unsigned groups[] = {20, 58, 1, 57};
    struct lahzavar_answer answer;
    size_t at = 0, length, place;
    configure_as(false, LAHZAVAR_SAE);
    pilot(LAHZAVAR_PILOT_B);
    sae_reported(&first, 7);
    same("response", hear(write_rsp(frame, &first, us)).refusal, LAHZAVAR_ACCEPTED);
    for (place = 0; place < 4; place++) {
        struct car car = car_at((unsigned)place + 2);
        sae_reported(&car, groups[place]);
    }
    asked_to_validate(&first, 1);
    same("a second request", second_request(&first, 1), LAHZAVAR_ACCEPTED);
    memset(out, 0xEE, sizeof out);
    answer = tick(200);
    same("frames", answer.frames, 5);
    for (place = 0; place < 5; place++) {
        struct car car = car_at(place < 4 ? (unsigned)place + 2 : 1);
        size_t expected =
            place < 4 ? write_sae_report(frame, &car, us, 8, groups[place], 41) : write_validate_cnf(frame, &car, us, 0, 2);
        length = lahzavar_frame_octets(out + at, answer.octets - at);
        same("octets of a frame", length, expected);
        same("a frame of the tick", (size_t)memcmp(out + at, frame, expected), 0);
        at += length;
    }
    same("octets", answer.octets, at);
    all_octets("an octet behind the frames", out + at, sizeof out - at, 0xEE);
}

/* Whatever stands there, a frame has at least one octet and none past the end, and a report the groups that it tells. */
static void frames_of_any_octets(void)
{
    size_t octets, groups;
    for (groups = 0; groups < 256; groups++) {
        (void)write_report(frame, &first, us, 8, 0);
        frame[FRAME_HEAD + 51] = (uint8_t)groups;
        memcpy(out, frame, FRAME_MOST);
        for (octets = 1; octets <= 400; octets++) {
            size_t length = octets <= 70 || octets < 71 + groups ? octets : 71 + groups;
            same("octets of a report", lahzavar_frame_octets(out, octets), length);
        }
    }
}

/* The match in SAE: the identifiers of each request come back, and the edition of a car and of its station are one. */
static void sae_match(void)
{
    uint8_t ids[SAE_IDS], others[SAE_IDS];
    struct lahzavar_answer answer;
    unsigned at;
    for (at = 0; at < SAE_IDS; at++) {
        ids[at] = (uint8_t)(at + 1);
        others[at] = (uint8_t)(255 - at);
    }
    plug_in_sae();
    sae_reported(&first, 20);
    same("response", hear(write_sae_rsp(frame, &first, us, others)).refusal, LAHZAVAR_ACCEPTED);
    asked_to_validate(&first, 4);
    memset(out, 0xEE, sizeof out);
    answer = hear(write_sae_match_req(frame, &first, us, ids));
    answered("the match", answer, write_sae_match_cnf(frame, &first, us, ids, nid, nmk));
    answer = hear(write_sae_match_req(frame, &first, us, others));
    answered("the match again", answer, write_sae_match_cnf(frame, &first, us, others, nid, nmk));
    same("link established", lahzavar_station_link_up(&station).indication, LAHZAVAR_LINK_ESTABLISHED);
    memset(out, 0xEE, sizeof out);
    answer = hear(write_map_req(frame, &first, us, CARRIERS, 15));
    answered("the confirmation of a map", answer, write_map_cnf(frame, &first, us, 0));
    plug_in();
    same("an ISO station's confirmation", hear(write_parm_req(frame, &first)).frames, 1);
    same("a start of SAE", hear(write_sae_start(frame, &first, first_try)).refusal, LAHZAVAR_BAD_OCTET);
    awaited(&first);
    same("identifiers", hear(write_sae_match_req(frame, &first, us, ids)).refusal, LAHZAVAR_BAD_OCTET);
}

/* A car that is matched at a station with so many carriers. */
static void matched(const struct car *car, uint32_t carriers)
{
    struct lahzavar_answer answer = lahzavar_station_configure(&station, lahzavar_address(us), lahzavar_address(modem),
                                                               lahzavar_nid(nid), nmk, false, LAHZAVAR_ISO, carriers);
    same("configuring", answer.refusal, LAHZAVAR_ACCEPTED);
    pilot(LAHZAVAR_PILOT_B);
    awaited(car);
    same("match", hear(write_match_req(frame, car, us)).frames, 1);
    same("link established", lahzavar_station_link_up(&station).indication, LAHZAVAR_LINK_ESTABLISHED);
}

/* The inspection in each state: the car in Joining and in Matched, also after changes among B, C and D; else none. */
static void inspections(void)
{
    uint64_t car = lahzavar_address(first.address);
    configure();
    inspected(LAHZAVAR_UNMATCHED, 0);
    pilot(LAHZAVAR_PILOT_B);
    awaited(&first);
    inspected(LAHZAVAR_MATCHING, 0);
    same("match", hear(write_match_req(frame, &first, us)).frames, 1);
    inspected(LAHZAVAR_JOINING, car);
    pilot(LAHZAVAR_PILOT_C);
    same("tick", tick(11999).indication, LAHZAVAR_NO_INDICATION);
    inspected(LAHZAVAR_JOINING, car);
    same("no link", tick(12000).indication, LAHZAVAR_NO_LINK);
    inspected(LAHZAVAR_UNMATCHED, 0);
    matched(&first, CARRIERS);
    inspected(LAHZAVAR_MATCHED, car);
    pilot(LAHZAVAR_PILOT_C);
    pilot(LAHZAVAR_PILOT_D);
    pilot(LAHZAVAR_PILOT_B);
    same("tick", tick(60000).refusal, LAHZAVAR_ACCEPTED);
    inspected(LAHZAVAR_MATCHED, car);
    pilot(LAHZAVAR_PILOT_A);
    inspected(LAHZAVAR_UNMATCHED, 0);
    matched(&first, CARRIERS);
    same("terminate", lahzavar_station_terminate(&station).refusal, LAHZAVAR_ACCEPTED);
    inspected(LAHZAVAR_UNMATCHED, 0);
}

/* An amplitude map of the matched car, as often as it comes, is confirmed by 60 octets, and changes nothing. */
static void map_confirmed(const struct car *car, unsigned carriers)
{
    struct lahzavar_station before = station;
    struct lahzavar_answer answer;
    unsigned again;
    for (again = 0; again < 2; again++) {
        memset(out, 0xEE, sizeof out);
        answer = hear(write_map_req(frame, car, us, carriers, again));
        same("a map's refusal", answer.refusal, LAHZAVAR_ACCEPTED);
        same("its indication", answer.indication, LAHZAVAR_NO_INDICATION);
        same("its octets", answer.octets, LAHZAVAR_CONFIRMATION_OCTETS);
        answered("the confirmation of a map", answer, write_map_cnf(frame, car, us, 0));
    }
    same("the station behind a map", (size_t)memcmp(&station, &before, sizeof before), 0);
}

/* A refused amplitude map leaves station and output. */
static void map_refused(const char *what, size_t length, uint32_t refusal)
{
    struct lahzavar_station before = station;
    struct lahzavar_answer answer;
    memset(out, 0xEE, sizeof out);
    answer = hear(length);
    same(what, answer.refusal, refusal);
    same("its indication, frames and octets", answer.indication | answer.frames | answer.octets, 0);
    same("the station behind a refused map", (size_t)memcmp(&station, &before, sizeof before), 0);
    all_octets("an octet of the output", out, sizeof out, 0xEE);
}

/* Amplitude maps before Matched, in it, and after it. */
static void maps(void)
{
    struct car second = car_at(2);
    size_t length;
    configure();
    map_refused("a map in unmatched", write_map_req(frame, &first, us, CARRIERS, 1), LAHZAVAR_WRONG_STATE);
    pilot(LAHZAVAR_PILOT_B);
    awaited(&first);
    map_refused("a map in matching", write_map_req(frame, &first, us, CARRIERS, 1), LAHZAVAR_WRONG_STATE);
    same("match", hear(write_match_req(frame, &first, us)).frames, 1);
    map_refused("a map in joining", write_map_req(frame, &first, us, CARRIERS, 1), LAHZAVAR_WRONG_STATE);
    same("link established", lahzavar_station_link_up(&station).indication, LAHZAVAR_LINK_ESTABLISHED);
    map_confirmed(&first, CARRIERS);
    map_refused("fewer carriers", write_map_req(frame, &first, us, CARRIERS - 1, 1), LAHZAVAR_OTHER_CARRIER_COUNT);
    map_refused("more carriers", write_map_req(frame, &first, us, CARRIERS + 1, 1), LAHZAVAR_OTHER_CARRIER_COUNT);
    map_refused("another car", write_map_req(frame, &second, us, CARRIERS, 1), LAHZAVAR_NO_RECORD);
    map_refused("another car, more carriers", write_map_req(frame, &second, us, CARRIERS + 1, 1), LAHZAVAR_NO_RECORD);
    map_refused("another station", write_map_req(frame, &first, modem, CARRIERS, 1), LAHZAVAR_NOT_FOR_US);
    map_refused("no carriers", write_map_req(frame, &first, us, 0, 1), LAHZAVAR_BAD_OCTET);
    length = write_map_req(frame, &first, us, CARRIERS + 1, 1);
    frame[FRAME_HEAD + 2 + CARRIERS / 2] = 0x11;
    map_refused("a last half that is not zero", length, LAHZAVAR_BAD_OCTET);
    map_refused("a confirmation", write_map_cnf(frame, &first, us, 0), LAHZAVAR_ONLY_FOR_CARS);
    map_refused("another message", write_parm_req(frame, &first), LAHZAVAR_WRONG_STATE);
    pilot(LAHZAVAR_PILOT_C);
    map_confirmed(&first, CARRIERS);
    same("terminate", lahzavar_station_terminate(&station).refusal, LAHZAVAR_ACCEPTED);
    map_refused("a map after the end", write_map_req(frame, &first, us, CARRIERS, 1), LAHZAVAR_WRONG_STATE);
    matched(&second, LAHZAVAR_CARRIERS);
    map_confirmed(&second, LAHZAVAR_CARRIERS);
    map_refused("the car before", write_map_req(frame, &first, us, LAHZAVAR_CARRIERS, 1), LAHZAVAR_NO_RECORD);
    matched(&first, 1);
    map_confirmed(&first, 1);
}

static void states_and_indications(void)
{
    plug_in();
    same("matching", lahzavar_station_state(&station), LAHZAVAR_MATCHING);
    awaited(&first);
    same("confirmation", hear(write_match_req(frame, &first, us)).octets, 109);
    same("joining", lahzavar_station_state(&station), LAHZAVAR_JOINING);
    same("link established", lahzavar_station_link_up(&station).indication, LAHZAVAR_LINK_ESTABLISHED);
    same("matched", lahzavar_station_state(&station), LAHZAVAR_MATCHED);
    same("wrong state", hear(write_parm_req(frame, &first)).refusal, LAHZAVAR_WRONG_STATE);
    same("terminate", lahzavar_station_terminate(&station).indication, LAHZAVAR_NO_INDICATION);
    plug_in();
    same("terminate in matching", lahzavar_station_terminate(&station).indication, LAHZAVAR_NO_LINK);
}

/* B, C and D are a plug-in; A, E and F a loss. */
static void pilots(void)
{
    static const enum lahzavar_pilot_state plugged[] = {LAHZAVAR_PILOT_B, LAHZAVAR_PILOT_C, LAHZAVAR_PILOT_D};
    static const enum lahzavar_pilot_state lost[] = {LAHZAVAR_PILOT_A, LAHZAVAR_PILOT_E, LAHZAVAR_PILOT_F};
    size_t at;
    for (at = 0; at < 3; at++) {
        configure();
        same("a plug-in", lahzavar_station_pilot(&station, plugged[at], 0).refusal, LAHZAVAR_ACCEPTED);
        same("matching", lahzavar_station_state(&station), LAHZAVAR_MATCHING);
        same("a loss", lahzavar_station_pilot(&station, lost[at], 0).indication, LAHZAVAR_NO_LINK);
        same("unmatched", lahzavar_station_state(&station), LAHZAVAR_UNMATCHED);
    }
}

int main(void)
{
    sizes();
    first_case();
    refusals_of_reading();
    refusals_of_matching();
    end_of_admission();
    bad_configurations();
    editions();
    numbers_of_carriers();
    no_station();
    wiped_station();
    sentences();
    states_and_indications();
    validation();
    other_validations();
    exemptions();
    spread_of_a_session();
    spread_of_cars();
    missing_arrays();
    frames_of_a_tick();
    tries();
    group_counts();
    sae_frames_of_a_tick();
    frames_of_any_octets();
    sae_match();
    inspections();
    maps();
    pilots();
    return faults == 0 ? 0 : 1;
}
