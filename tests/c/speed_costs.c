/*
 * What each refusal and each accepted call costs: speed_costs TABLE [sae], or speed_costs maps CARRIERS
 *
 * The tables are `calls`, `records`, `lengths` and `maps`, the last with so many carriers; `count` prints the number of
 * records instead. For each row the station is brought into a situation, and the call is made once, in run_call, whose
 * instructions whoever runs this counts. On standard output a line for each row, in that order: its refusal's number, or
 * "accepted", and what the row is. A row that is answered otherwise ends the program with 1.
 *
 * Where records matter, the first of them are held by other cars, and our car has the last: no other place takes longer.
 */
#include "speed_frames.h"

#include <stdio.h>
#include <stdlib.h>

#define LONGEST 1514u

/* How a station stands when the call comes. Those of our car follow one another. */
enum situation {
    WIPED,        /* never configured */
    UNMATCHED,    /* not plugged in */
    NO_RECORD,    /* plugged in, no car has asked */
    CLOSED,       /* admission is over, another car holds a record */
    FULL,         /* other cars hold every record, and sound */
    ONE_FREE,     /* other cars hold every record but the last, and sound */
    ASKED,        /* our car has asked, */
    SOUNDING,     /* started and sent its first sound, */
    LAST_PROFILE, /* and all profiles are counted but one; */
    REPORTED,     /* it has its report, */
    AWAITING,     /* and has answered it, */
    READY,        /* and asked for a validation, */
    JOINING,      /* or for the key; */
    MATCHED,      /* and there is a link */
    ALL_SOUNDING, /* every car has all its profiles but one */
};

/* What is wrong with a frame, or otherwise than the situation asks for. */
enum slip {
    NONE,
    CUT,        /* shorter than its head */
    LONGER,     /* by one octet than it may be */
    MULTICAST,  /* from an address that is none of a car */
    BAD_OCTET,  /* the last one that is fixed */
    TO_ANOTHER, /* station */
    OTHER_MODEM,
    EMPTY_RUN,
    OTHER_RUN,
    REPEATED,  /* sound */
    OTHER_TRY, /* this and the next two in SAE alone */
    TWENTY_GROUPS,
    ONE_GROUP,
    SHORT_OUTPUT,
    OTHER_CAR,
    FEWER_CARRIERS,
};

enum call {
    FRAME,
    TICK,
    PILOT_A,
    PILOT_C,
    TERMINATE,
    LINK_UP,
    QUERY,
    INSPECT,
    MAP_READ, /* this and the next ones need no station */
    MAP_VALUES,
    MAP_REQUEST,
    MAP_CONFIRM,
    MAP_REDUCE
};

struct row {
    const char *name;
    uint32_t refusal;
    enum situation situation;
    enum call call;
    enum kind kind;
    enum slip slip;
    size_t length; /* or reading of a tick; 0: the frame's own */
};

#define MESSAGE(name, refusal, situation, kind, slip)                                                                       \
    {                                                                                                                       \
        name, refusal, situation, FRAME, kind, slip, 0                                                                      \
    }
#define CALL(name, refusal, situation, call, reading)                                                                       \
    {                                                                                                                       \
        name, refusal, situation, call, PARM_REQ, NONE, reading                                                             \
    }
#define LONG(name, refusal, situation, kind, length)                                                                        \
    {                                                                                                                       \
        name, refusal, situation, FRAME, kind, NONE, length                                                                 \
    }
#define MAP(name, call)                                                                                                     \
    {                                                                                                                       \
        name, 0, WIPED, call, MAP_REQ, NONE, 0                                                                              \
    }

static const struct row calls[] = {
    MESSAGE("shorter than a head", 1, ONE_FREE, PARM_REQ, CUT),
    MESSAGE("another protocol", 2, ONE_FREE, OTHER_PROTOCOL, NONE),
    MESSAGE("another HomePlug message", 3, ONE_FREE, OTHER_TYPE, NONE),
    MESSAGE("CM_SLAC_PARM.REQ, an octet too long", 4, ONE_FREE, PARM_REQ, LONGER),
    MESSAGE("CM_SLAC_PARM.REQ from a multicast address", 5, ONE_FREE, PARM_REQ, MULTICAST),
    MESSAGE("CM_ATTEN_CHAR.RSP, its last octet wrong", 6, REPORTED, RSP, BAD_OCTET),
    MESSAGE("CM_SLAC_MATCH.REQ, another station in its payload", 6, AWAITING, MATCH_REQ, BAD_OCTET),
    MESSAGE("CM_ATTEN_CHAR.RSP to another station", 7, ONE_FREE, RSP, TO_ANOTHER),
    MESSAGE("CM_SLAC_MATCH.REQ to another station", 7, ONE_FREE, MATCH_REQ, TO_ANOTHER),
    MESSAGE("CM_VALIDATE.REQ to another station", 7, ONE_FREE, FIRST_VALIDATE_REQ, TO_ANOTHER),
    MESSAGE("CM_ATTEN_PROFILE.IND of another modem", 7, ONE_FREE, PROFILE, OTHER_MODEM),
    MESSAGE("CM_AMP_MAP.REQ to another station", 7, ONE_FREE, MAP_REQ, TO_ANOTHER),
    MESSAGE("CM_SLAC_PARM.REQ, not plugged in", 8, UNMATCHED, PARM_REQ, NONE),
    MESSAGE("CM_MNBC_SOUND.IND, not plugged in", 8, UNMATCHED, SOUND, NONE),
    MESSAGE("CM_SLAC_PARM.REQ, there is a link", 8, MATCHED, PARM_REQ, NONE),
    MESSAGE("CM_AMP_MAP.REQ, there is no link", 8, JOINING, MAP_REQ, NONE),
    MESSAGE("CM_SLAC_PARM.REQ, admission over", 9, CLOSED, PARM_REQ, NONE),
    MESSAGE("CM_SLAC_PARM.REQ, every record held", 10, FULL, PARM_REQ, NONE),
    MESSAGE("CM_START_ATTEN_CHAR.IND, no record", 11, ONE_FREE, START, NONE),
    MESSAGE("CM_MNBC_SOUND.IND, no record", 11, ONE_FREE, SOUND, NONE),
    MESSAGE("CM_ATTEN_PROFILE.IND, no record", 11, ONE_FREE, PROFILE, NONE),
    MESSAGE("CM_ATTEN_CHAR.RSP, no record", 11, ONE_FREE, RSP, NONE),
    MESSAGE("CM_VALIDATE.REQ, the first, no record", 11, ONE_FREE, FIRST_VALIDATE_REQ, NONE),
    MESSAGE("CM_VALIDATE.REQ, the second, no record", 11, ONE_FREE, SECOND_VALIDATE_REQ, NONE),
    MESSAGE("CM_SLAC_MATCH.REQ, no record", 11, ONE_FREE, MATCH_REQ, NONE),
    MESSAGE("CM_MNBC_SOUND.IND, another run", 11, SOUNDING, SOUND, OTHER_RUN),
    MESSAGE("CM_AMP_MAP.REQ of another car", 11, MATCHED, MAP_REQ, OTHER_CAR),
    MESSAGE("CM_MNBC_SOUND.IND, not started", 12, ASKED, SOUND, NONE),
    MESSAGE("CM_ATTEN_PROFILE.IND, not started", 12, ASKED, PROFILE, NONE),
    MESSAGE("CM_SLAC_MATCH.REQ, no report answered", 12, SOUNDING, MATCH_REQ, NONE),
    MESSAGE("CM_MNBC_SOUND.IND, a sound heard before", 13, SOUNDING, SOUND, REPEATED),
    MESSAGE("too short an output", 15, SOUNDING, SOUND, SHORT_OUTPUT),
    MESSAGE("no configuration", 16, WIPED, SOUND, NONE),
    MESSAGE("CM_SLAC_PARM.CNF of another station", 17, ONE_FREE, PARM_CNF, TO_ANOTHER),
    MESSAGE("CM_ATTEN_CHAR.IND of another station", 17, ONE_FREE, REPORT, TO_ANOTHER),
    MESSAGE("CM_VALIDATE.CNF of another station", 17, ONE_FREE, VALIDATE_CNF, TO_ANOTHER),
    MESSAGE("CM_SLAC_MATCH.CNF of another station", 17, ONE_FREE, MATCH_CNF, TO_ANOTHER),
    MESSAGE("CM_AMP_MAP.CNF of another station", 17, ONE_FREE, MAP_CNF, TO_ANOTHER),
    MESSAGE("CM_SLAC_PARM.REQ, an empty run", 21, ONE_FREE, PARM_REQ, EMPTY_RUN),
    MESSAGE("CM_START_ATTEN_CHAR.IND of the other try", 22, ASKED, START, OTHER_TRY),
    MESSAGE("CM_ATTEN_PROFILE.IND of another group count", 23, LAST_PROFILE, PROFILE, TWENTY_GROUPS),
    MESSAGE("CM_AMP_MAP.REQ of fewer carriers", 24, MATCHED, MAP_REQ, FEWER_CARRIERS),
    MESSAGE("CM_SLAC_PARM.REQ of a new car", 0, ONE_FREE, PARM_REQ, NONE),
    MESSAGE("CM_SLAC_PARM.REQ, the car asks again", 0, SOUNDING, PARM_REQ, NONE),
    MESSAGE("CM_START_ATTEN_CHAR.IND", 0, ASKED, START, NONE),
    MESSAGE("CM_START_ATTEN_CHAR.IND, repeated", 0, SOUNDING, START, NONE),
    MESSAGE("CM_MNBC_SOUND.IND", 0, SOUNDING, SOUND, NONE),
    MESSAGE("CM_ATTEN_PROFILE.IND", 0, SOUNDING, PROFILE, NONE),
    MESSAGE("CM_ATTEN_PROFILE.IND, the last: a report", 0, LAST_PROFILE, PROFILE, NONE),
    MESSAGE("CM_ATTEN_CHAR.RSP", 0, REPORTED, RSP, NONE),
    MESSAGE("CM_VALIDATE.REQ, the first", 0, AWAITING, FIRST_VALIDATE_REQ, NONE),
    MESSAGE("CM_VALIDATE.REQ, the second", 0, READY, SECOND_VALIDATE_REQ, NONE),
    MESSAGE("CM_SLAC_MATCH.REQ", 0, AWAITING, MATCH_REQ, NONE),
    MESSAGE("CM_AMP_MAP.REQ", 0, MATCHED, MAP_REQ, NONE),
    CALL("tick, not plugged in", 0, UNMATCHED, TICK, 10),
    CALL("tick, no record held", 0, NO_RECORD, TICK, 10),
    CALL("tick, every record held", 0, ALL_SOUNDING, TICK, 10),
    CALL("tick that reports to every car", 0, ALL_SOUNDING, TICK, 600),
    CALL("tick, too long after the last", 14, ALL_SOUNDING, TICK, 60001),
    CALL("pilot from B to C", 0, ALL_SOUNDING, PILOT_C, 0),
    CALL("pilot loss, every record held", 0, ALL_SOUNDING, PILOT_A, 0),
    CALL("terminate, every record held", 0, ALL_SOUNDING, TERMINATE, 0),
    CALL("link up", 0, JOINING, LINK_UP, 0),
    CALL("query", 0, LAST_PROFILE, QUERY, 0),
    CALL("inspection", 0, MATCHED, INSPECT, 0),
    {0},
};

static const struct row records[] = {
    MESSAGE("another protocol", 2, ONE_FREE, OTHER_PROTOCOL, NONE),
    MESSAGE("CM_SLAC_MATCH.REQ to another station", 7, ONE_FREE, MATCH_REQ, TO_ANOTHER),
    MESSAGE("CM_SLAC_PARM.REQ, every record held", 10, FULL, PARM_REQ, NONE),
    MESSAGE("CM_MNBC_SOUND.IND, no record", 11, ONE_FREE, SOUND, NONE),
    MESSAGE("CM_SLAC_PARM.REQ of a new car", 0, ONE_FREE, PARM_REQ, NONE),
    MESSAGE("CM_MNBC_SOUND.IND", 0, SOUNDING, SOUND, NONE),
    MESSAGE("CM_ATTEN_PROFILE.IND", 0, SOUNDING, PROFILE, NONE),
    MESSAGE("CM_ATTEN_PROFILE.IND, the last: a report", 0, LAST_PROFILE, PROFILE, NONE),
    MESSAGE("CM_VALIDATE.REQ, the first", 0, AWAITING, FIRST_VALIDATE_REQ, NONE),
    MESSAGE("CM_SLAC_MATCH.REQ", 0, AWAITING, MATCH_REQ, NONE),
    CALL("tick, not plugged in", 0, UNMATCHED, TICK, 10),
    CALL("tick, every record held", 0, ALL_SOUNDING, TICK, 10),
    CALL("tick that reports to every car", 0, ALL_SOUNDING, TICK, 600),
    CALL("pilot loss, every record held", 0, ALL_SOUNDING, PILOT_A, 0),
    {0},
};

static const struct row lengths[] = {
    LONG("another protocol, 60 octets", 2, ONE_FREE, OTHER_PROTOCOL, 60),
    LONG("another protocol, 300 octets", 2, ONE_FREE, OTHER_PROTOCOL, 300),
    LONG("another protocol, 1,514 octets", 2, ONE_FREE, OTHER_PROTOCOL, LONGEST),
    LONG("another HomePlug message, 60 octets", 3, ONE_FREE, OTHER_TYPE, 60),
    LONG("another HomePlug message, 1,514 octets", 3, ONE_FREE, OTHER_TYPE, LONGEST),
    LONG("CM_SLAC_PARM.REQ, 61 octets", 4, ONE_FREE, PARM_REQ, 61),
    LONG("CM_SLAC_PARM.REQ, 1,514 octets", 4, ONE_FREE, PARM_REQ, LONGEST),
    LONG("CM_SLAC_PARM.REQ, 29 octets", 0, ONE_FREE, PARM_REQ, 29),
    LONG("CM_SLAC_PARM.REQ, 60 octets", 0, ONE_FREE, PARM_REQ, 60),
    MESSAGE("CM_ATTEN_PROFILE.IND of 1 group", 0, SOUNDING, PROFILE, ONE_GROUP),
    MESSAGE("CM_ATTEN_PROFILE.IND of 20 groups", 0, SOUNDING, PROFILE, TWENTY_GROUPS),
    MESSAGE("CM_ATTEN_PROFILE.IND of 58 groups", 0, SOUNDING, PROFILE, NONE),
    {0},
};

static const struct row maps[] = {
    MESSAGE("CM_AMP_MAP.REQ, the frame call", 0, MATCHED, MAP_REQ, NONE),
    MAP("lahzavar_map_read", MAP_READ),
    MAP("lahzavar_map_values", MAP_VALUES),
    MAP("lahzavar_map_request", MAP_REQUEST),
    MAP("lahzavar_map_confirm", MAP_CONFIRM),
    MAP("lahzavar_map_reduce", MAP_REDUCE),
    {0},
};

static enum lahzavar_edition edition = LAHZAVAR_ISO;
static uint32_t carriers = LAHZAVAR_CARRIERS;
static struct lahzavar_station station;
static uint8_t frame[LONGEST];
static size_t frame_length;
static uint8_t out[LAHZAVAR_LEAST_OUTPUT];
static size_t room = sizeof out;
static uint8_t least[LAHZAVAR_GROUPS], greatest[LAHZAVAR_GROUPS];
static uint8_t values[LAHZAVAR_CARRIERS];
static int16_t levels[LAHZAVAR_CARRIERS];

/* Not inlined, so that its instructions can be counted by its name. */
uint32_t run_call(const struct row *row) __attribute__((noinline));
/* Not inlined, so that the other calls take no more instructions. */
static uint32_t call_map(enum call call) __attribute__((noinline));

static uint32_t call_map(enum call call)
{
    static const uint64_t car = 0x020000000100u, ours = 0x0200000000AAu;
    switch (call) {
    case MAP_READ:
        return lahzavar_map_read(frame, frame_length).refusal;
    case MAP_VALUES:
        return lahzavar_map_values(frame, frame_length, values, sizeof values).refusal;
    case MAP_REQUEST:
        return lahzavar_map_request(car, ours, values, carriers, out, sizeof out).refusal;
    case MAP_CONFIRM:
        return lahzavar_map_confirm(car, ours, true, out, sizeof out).refusal;
    default:
        return lahzavar_map_reduce(values, carriers, levels, carriers, out, sizeof out).refusal;
    }
}

uint32_t run_call(const struct row *row)
{
    static const uint8_t our_car[6] = {2, 0, 0, 0, 1, 0};
    switch (row->call) {
    case FRAME:
        return lahzavar_station_frame(&station, frame, frame_length, out, room).refusal;
    case TICK:
        return lahzavar_station_tick(&station, (uint32_t)row->length, out, room).refusal;
    case PILOT_A:
        return lahzavar_station_pilot(&station, LAHZAVAR_PILOT_A, 0).refusal;
    case PILOT_C:
        return lahzavar_station_pilot(&station, LAHZAVAR_PILOT_C, 0).refusal;
    case TERMINATE:
        return lahzavar_station_terminate(&station).refusal;
    case LINK_UP:
        return lahzavar_station_link_up(&station).refusal;
    case QUERY:
        return lahzavar_station_query(&station, lahzavar_address(our_car), least, greatest).refusal;
    case INSPECT:
        return lahzavar_station_inspect(&station).refusal;
    default:
        return call_map(row->call);
    }
}

/* Car 0 is ours. */
static struct told told_by(unsigned car)
{
    struct told told = {{{2, 0, 0, 0, 1, 0}, {1}}, {0}, 0, 200, LAHZAVAR_GROUPS, first_try, {0}, 0};
    told.carriers = carriers;
    told.car.address[5] = (uint8_t)car;
    memcpy(told.station, us, 6);
    return told;
}

static void hand_over(enum kind kind, const struct told *told)
{
    uint8_t octets[FRAME_MOST];
    (void)lahzavar_station_frame(&station, octets, write_kind(octets, edition, kind, told), out, sizeof out);
}

static void begin_sounding(unsigned car)
{
    struct told told = told_by(car);
    hand_over(PARM_REQ, &told);
    hand_over(START, &told);
    hand_over(SOUND, &told);
}

/* All profiles but the one that closes the sounding. */
static void count_profiles(unsigned car)
{
    struct told told = told_by(car);
    unsigned profile, profiles = edition == LAHZAVAR_SAE ? 7 : 9;
    for (profile = 0; profile < profiles; profile++) {
        hand_over(PROFILE, &told);
    }
}

static void plug_in(bool exempt)
{
    static const uint8_t nid[7] = {1, 2, 3, 4, 5, 6, 7}, nmk[16] = {0x4B};
    (void)lahzavar_station_configure(&station, lahzavar_address(us), lahzavar_address(our_modem), lahzavar_nid(nid), nmk,
                                     exempt, edition, carriers);
    (void)lahzavar_station_pilot(&station, LAHZAVAR_PILOT_B, 0);
}

/* Another car asks again and again until admission is over. */
static void close_admission(void)
{
    uint32_t reading;
    for (reading = 0; reading <= 50000; reading += 100) {
        struct told told = told_by(1);
        hand_over(PARM_REQ, &told);
        (void)lahzavar_station_tick(&station, reading, out, sizeof out);
    }
}

/* The situations of our car, up to the one that is asked for. */
static void bring_our_car(enum situation situation)
{
    struct told told = told_by(0);
    if (situation >= ASKED) {
        hand_over(PARM_REQ, &told);
    }
    if (situation >= SOUNDING) {
        hand_over(START, &told);
        hand_over(SOUND, &told);
    }
    if (situation >= LAST_PROFILE) {
        count_profiles(0);
    }
    if (situation >= REPORTED) {
        hand_over(PROFILE, &told);
    }
    if (situation >= AWAITING) {
        hand_over(RSP, &told);
    }
    if (situation == READY) {
        hand_over(FIRST_VALIDATE_REQ, &told);
    }
    if (situation >= JOINING) {
        hand_over(MATCH_REQ, &told);
    }
    if (situation >= MATCHED) {
        (void)lahzavar_station_link_up(&station);
    }
}

static void reach(enum situation situation)
{
    unsigned car, others = situation == FULL ? LAHZAVAR_RECORDS : LAHZAVAR_RECORDS - 1;
    lahzavar_station_wipe(&station);
    if (situation == WIPED) {
        return;
    }
    plug_in(false);
    if (situation == UNMATCHED) {
        (void)lahzavar_station_pilot(&station, LAHZAVAR_PILOT_A, 0);
    }
    if (situation == CLOSED) {
        close_admission();
    }
    for (car = 1; situation > CLOSED && car <= others; car++) {
        begin_sounding(car);
        if (situation == ALL_SOUNDING) {
            count_profiles(car);
        }
    }
    bring_our_car(situation == ALL_SOUNDING ? LAST_PROFILE : situation);
}

static void write_row(const struct row *row)
{
    struct told told = told_by(0);
    told.count = row->slip == REPEATED ? 0 : 1;
    told.station[5] ^= row->slip == TO_ANOTHER;
    told.car.run[0] = row->slip == EMPTY_RUN ? 0 : row->slip == OTHER_RUN ? 2 : 1;
    told.values = row->slip == OTHER_TRY ? later_try : first_try;
    told.groups = row->slip == TWENTY_GROUPS ? 20 : row->slip == ONE_GROUP ? 1 : LAHZAVAR_GROUPS;
    told.car.address[5] = row->slip == OTHER_CAR ? 1 : 0;
    told.carriers -= row->slip == FEWER_CARRIERS;
    memset(frame, 0, sizeof frame);
    frame_length = write_kind(frame, edition, row->kind, &told);
    frame[6] |= row->slip == MULTICAST;
    frame[11] ^= row->slip == OTHER_MODEM;
    frame[row->kind == MATCH_REQ ? FRAME_HEAD + 49 : frame_length - 1] ^= row->slip == BAD_OCTET;
    frame_length = row->slip == CUT                         ? FRAME_HEAD - 1
                   : row->slip == LONGER                    ? frame_length + 1
                   : row->call == FRAME && row->length != 0 ? row->length
                                                            : frame_length;
    room = row->slip == SHORT_OUTPUT ? sizeof out - 1 : sizeof out;
}

static bool is_of_edition(const struct row *row)
{
    return edition == LAHZAVAR_SAE || row->slip < OTHER_TRY || ONE_GROUP < row->slip;
}

/* The table of a name. */
static const struct row *table_of(const char *name)
{
    return strcmp(name, "calls") == 0     ? calls
           : strcmp(name, "records") == 0 ? records
           : strcmp(name, "maps") == 0    ? maps
                                          : lengths;
}

int main(int count, char **arguments)
{
    const char *table = count > 1 ? arguments[1] : "", *more = count > 2 ? arguments[2] : "";
    const struct row *row = table_of(table);
    if (strcmp(table, "count") == 0) {
        printf("%u\n", (unsigned)LAHZAVAR_RECORDS);
        return 0;
    }
    edition = strcmp(more, "sae") == 0 ? LAHZAVAR_SAE : LAHZAVAR_ISO;
    carriers = row == maps ? (uint32_t)strtoul(more, NULL, 10) : LAHZAVAR_CARRIERS;
    for (; row->name != NULL; row++) {
        uint32_t refusal;
        if (!is_of_edition(row)) {
            continue;
        }
        reach(row->situation);
        write_row(row);
        refusal = run_call(row);
        if (refusal != row->refusal) {
            fprintf(stderr, "%s: %u\n", row->name, (unsigned)refusal);
            return 1;
        }
        if (refusal == 0) {
            printf("accepted | %s\n", row->name);
        } else {
            printf("%u | %s\n", (unsigned)refusal, row->name);
        }
    }
    return 0;
}
