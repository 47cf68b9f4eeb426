/*
 * Lahzavar: both ends of SLAC matching, the charging station's (ISO 15118-3 or SAE J2931/4) and the car's (ISO 15118-3).
 *
 * A station's driver keeps one struct lahzavar_station for each outlet, configures it, and hands it every event: frames from
 * the modem, clock readings, pilot states, terminate and link up. A car's driver keeps one struct lahzavar_car, configures
 * it, starts it, and hands it frames, clock readings, terminate and link up. The answer says which frames to send, and what
 * to tell the charge controller. Calls of their own, which need neither station nor car, read and write amplitude maps and
 * say how far a map asks to lower the power of each carrier. Link with liblahzavar.a; docs/INTEGRATION.md is the guide for
 * a board.
 *
 * What a caller owes, and all that it owes:
 * - The station or car was configured before its first other call, and nothing but these calls writes it.
 * - One call at a time for a station or car: an interrupt must not call while another call is under way.
 * - Frame and output are memory of the caller, of at least the lengths given, and overlap neither each other nor the
 *   station or car. A driver that receives and sends in one buffer lends two parts of it. The same holds of the two arrays
 *   that the service query fills, and of what the calls for amplitude maps read and fill.
 *
 * Every call comes back, for any octets, any length and any number; NULL stands for no octets, and for a station or car that
 * was never configured. A refused call changes neither station, car nor output. No call allocates, blocks, or keeps a
 * pointer.
 */
#ifndef LAHZAVAR_H
#define LAHZAVAR_H

#include <stddef.h>
#include <stdint.h>
#ifndef __cplusplus
#include <stdbool.h>
#endif

#ifdef __cplusplus
extern "C" {
#endif

/* The version of this header. */
#define LAHZAVAR_MAJOR 0
#define LAHZAVAR_MINOR 8
#define LAHZAVAR_PATCH 0
/* The same as one number, which lahzavar_version() gives of the library. */
#define LAHZAVAR_VERSION (65536u * LAHZAVAR_MAJOR + 256u * LAHZAVAR_MINOR + LAHZAVAR_PATCH)

/* The most cars that are in matching at once. */
#define LAHZAVAR_RECORDS 16
/* The most carrier groups of an attenuation profile; in the ISO edition each one has so many. */
#define LAHZAVAR_GROUPS 58
/* The most octets of a report, CM_ATTEN_CHAR.IND, which has 71 and its groups; in the ISO edition each one has so many. */
#define LAHZAVAR_REPORT_OCTETS (71 + LAHZAVAR_GROUPS)
/* The octets of one confirmation: of a validation, CM_VALIDATE.CNF, or of an amplitude map, CM_AMP_MAP.CNF. */
#define LAHZAVAR_CONFIRMATION_OCTETS 60
/* The most carriers of a modem, and of an amplitude map. */
#define LAHZAVAR_CARRIERS 1155
/* The most octets of a request with an amplitude map, CM_AMP_MAP.REQ: 21 and half an octet for each carrier, 60 at least. */
#define LAHZAVAR_MAP_OCTETS (21 + (LAHZAVAR_CARRIERS + 1) / 2)
/* The least room that the frame and tick calls ask for: a longest report to every car. */
#define LAHZAVAR_LEAST_OUTPUT (LAHZAVAR_REPORT_OCTETS * LAHZAVAR_RECORDS)
/* The sizes of a station's three arrays. */
#define LAHZAVAR_WORDS (15 + 10 * LAHZAVAR_RECORDS)
#define LAHZAVAR_SUMS (LAHZAVAR_GROUPS * LAHZAVAR_RECORDS)
#define LAHZAVAR_SPREAD (2 * LAHZAVAR_GROUPS * LAHZAVAR_RECORDS)

/* The most stations whose reports a car keeps. */
#define LAHZAVAR_STATIONS 10
/* The least room that a car's start, frame and tick calls ask for: a CM_SLAC_MATCH.REQ. */
#define LAHZAVAR_CAR_LEAST_OUTPUT 85
/* The size of a car's array. */
#define LAHZAVAR_CAR_WORDS (16 + 2 * LAHZAVAR_STATIONS)

/* Why a call was refused; 0 where it was accepted. */
enum lahzavar_refusal {
    LAHZAVAR_ACCEPTED = 0,
    LAHZAVAR_TOO_SHORT = 1,           /* the frame ends before its payload does */
    LAHZAVAR_BAD_HEAD = 2,            /* no SLAC frame: octets 12-14 or 17-18 */
    LAHZAVAR_UNKNOWN_TYPE = 3,        /* none of the thirteen messages; to the calls for amplitude maps: none of their two,
                                         or to lahzavar_map_values() no CM_AMP_MAP.REQ */
    LAHZAVAR_TOO_LONG = 4,            /* longer than its message is written */
    LAHZAVAR_BAD_ADDRESS = 5,         /* source, destination or the profile's car of the wrong kind */
    LAHZAVAR_BAD_OCTET = 6,           /* another octet that is fixed, equal to one before, or limited; for an amplitude map
                                         also no carriers, more than LAHZAVAR_CARRIERS, or a value over 15 */
    LAHZAVAR_NOT_FOR_US = 7,          /* to another receiver, from another modem, or from ourselves */
    LAHZAVAR_WRONG_STATE = 8,         /* the state takes no such event; a pilot that is none */
    LAHZAVAR_ADMISSION_CLOSED = 9,    /* a new car after the end of admission */
    LAHZAVAR_RECORDS_FULL = 10,       /* a new car while every record is held */
    LAHZAVAR_NO_RECORD = 11,          /* this car holds no record, or another run; at a car: another run or station; to the
                                         query: no record, or one that counts no profile; for an amplitude map: another
                                         car than the matched one */
    LAHZAVAR_WRONG_PHASE = 12,        /* the car's record is in another phase */
    LAHZAVAR_BAD_SOUND_COUNT = 13,    /* a sound count that the try has not (over 9 in the ISO edition), or heard already */
    LAHZAVAR_TICK_GAP = 14,           /* more than 60,000 ms since the last reading */
    LAHZAVAR_OUTPUT_TOO_SHORT = 15,   /* less room than LAHZAVAR_LEAST_OUTPUT, or LAHZAVAR_CAR_LEAST_OUTPUT; for an amplitude
                                         map: than its frame takes, or than it has carriers */
    LAHZAVAR_BAD_CONFIGURATION = 16,  /* the station or car was badly configured, wiped, or NULL; to lahzavar_map_reduce(): a
                                         level outside -128 to 0 */
    LAHZAVAR_ONLY_FOR_CARS = 17,      /* a message that only a car receives; a CM_AMP_MAP.CNF, since a station never asks */
    LAHZAVAR_REPORTS_FULL = 18,       /* a report, while those of LAHZAVAR_STATIONS other stations are kept */
    LAHZAVAR_ONLY_FOR_STATIONS = 19,  /* a message that only a station receives */
    LAHZAVAR_NO_SOUNDS = 20,          /* a report of no sounds */
    LAHZAVAR_EMPTY_RUN = 21,          /* a request whose run is eight zero octets */
    LAHZAVAR_OTHER_TRY = 22,          /* a CM_START_ATTEN_CHAR.IND with the values of the other try; SAE alone */
    LAHZAVAR_OTHER_GROUP_COUNT = 23,  /* a CM_ATTEN_PROFILE.IND with another group count than the record's; SAE alone */
    LAHZAVAR_OTHER_CARRIER_COUNT = 24 /* a CM_AMP_MAP.REQ with another number of carriers than ours; to
                                         lahzavar_map_reduce(): not as many levels as values */
};
/* The greatest of these numbers. */
#define LAHZAVAR_LAST_REFUSAL LAHZAVAR_OTHER_CARRIER_COUNT

/* A refusal as a sentence, for a log; 0 and numbers of a later library have one too. */
static inline const char *lahzavar_refusal_text(uint32_t refusal)
{
    switch (refusal) {
    case LAHZAVAR_ACCEPTED:
        return "accepted";
    case LAHZAVAR_TOO_SHORT:
        return "the frame ends before its payload does";
    case LAHZAVAR_BAD_HEAD:
        return "the frame is no HomePlug management message of version 1, or a fragment of one";
    case LAHZAVAR_UNKNOWN_TYPE:
        return "the message is none of those that this call reads";
    case LAHZAVAR_TOO_LONG:
        return "the frame is longer than its message; is its check sequence still there?";
    case LAHZAVAR_BAD_ADDRESS:
        return "the source, the destination or the profile's car is an address of the wrong kind";
    case LAHZAVAR_BAD_OCTET:
        return "an octet of the payload, or a map's count or value, is not what the standard fixes";
    case LAHZAVAR_NOT_FOR_US:
        return "the frame is for another receiver, from another modem, or from ourselves";
    case LAHZAVAR_WRONG_STATE:
        return "the state takes no such event";
    case LAHZAVAR_ADMISSION_CLOSED:
        return "a new car asks after the end of admission";
    case LAHZAVAR_RECORDS_FULL:
        return "a new car asks while other cars hold every record";
    case LAHZAVAR_NO_RECORD:
        return "there is no such record, run, chosen station or matched car, or no profile is counted yet";
    case LAHZAVAR_WRONG_PHASE:
        return "the car's record is in another phase";
    case LAHZAVAR_BAD_SOUND_COUNT:
        return "the sound's count is too high, or was heard already";
    case LAHZAVAR_TICK_GAP:
        return "the clock is more than 60 seconds past the last reading that was taken";
    case LAHZAVAR_OUTPUT_TOO_SHORT:
        return "the output is too short";
    case LAHZAVAR_BAD_CONFIGURATION:
        return "the configuration is bad or there is none, or a level is outside -128 to 0 dBm/Hz";
    case LAHZAVAR_ONLY_FOR_CARS:
        return "a station never takes this message";
    case LAHZAVAR_REPORTS_FULL:
        return "the reports of as many other stations are kept as there is room for";
    case LAHZAVAR_ONLY_FOR_STATIONS:
        return "only a station receives this message";
    case LAHZAVAR_NO_SOUNDS:
        return "the report tells of no sounds";
    case LAHZAVAR_EMPTY_RUN:
        return "the request's run is empty, eight zero octets";
    case LAHZAVAR_OTHER_TRY:
        return "the start has the values of the other try";
    case LAHZAVAR_OTHER_GROUP_COUNT:
        return "the profile has another group count than the car's record";
    case LAHZAVAR_OTHER_CARRIER_COUNT:
        return "the map has another number of carriers than the station, or than there are levels";
    default:
        return "a refusal that this version does not know";
    }
}

/* By which standard a station reads and writes. */
enum lahzavar_edition {
    LAHZAVAR_ISO = 0, /* ISO 15118-3 */
    LAHZAVAR_SAE = 1  /* SAE J2931/4 */
};

/* What the charge controller is to be told. */
enum lahzavar_indication {
    LAHZAVAR_NO_INDICATION = 0,
    LAHZAVAR_NO_LINK = 1,
    LAHZAVAR_LINK_ESTABLISHED = 2,
    /* The car's alone. */
    LAHZAVAR_FOUND = 3,
    LAHZAVAR_POTENTIALLY_FOUND = 4,
    LAHZAVAR_NOT_FOUND = 5,
    LAHZAVAR_KEY_GIVEN = 6
};

/* The station's state. */
enum lahzavar_state_number {
    LAHZAVAR_UNMATCHED = 0,
    LAHZAVAR_MATCHING = 1,
    LAHZAVAR_JOINING = 2,
    LAHZAVAR_MATCHED = 3
};

/* The car's state. */
enum lahzavar_car_state_number {
    LAHZAVAR_CAR_IDLE = 0,
    LAHZAVAR_CAR_ASKING = 1,
    LAHZAVAR_CAR_CONFIRMED = 2,
    LAHZAVAR_CAR_SOUNDING = 3,
    LAHZAVAR_CAR_REQUESTING = 4,
    LAHZAVAR_CAR_JOINING = 5,
    LAHZAVAR_CAR_MATCHED = 6
};

/* The control pilot's state: a car is plugged in at B, C and D. */
enum lahzavar_pilot_state {
    LAHZAVAR_PILOT_A = 0,
    LAHZAVAR_PILOT_B = 1,
    LAHZAVAR_PILOT_C = 2,
    LAHZAVAR_PILOT_D = 3,
    LAHZAVAR_PILOT_E = 4,
    LAHZAVAR_PILOT_F = 5
};

/* What a frame of amplitude maps is: the number is its message's type. */
enum lahzavar_map_kind {
    LAHZAVAR_MAP_REQUEST = 0x601C,     /* CM_AMP_MAP.REQ */
    LAHZAVAR_MAP_CONFIRMATION = 0x601D /* CM_AMP_MAP.CNF */
};

/* A station, kept by the caller; its fields are the library's own, and hold the NMK. */
struct lahzavar_station {
    uint64_t private_words[LAHZAVAR_WORDS];
    uint16_t private_sums[LAHZAVAR_SUMS];
    uint8_t private_spread[LAHZAVAR_SPREAD];
};

/* A car, kept by the caller; its fields are the library's own, and hold the NMK once a station has given it. */
struct lahzavar_car {
    uint64_t private_words[LAHZAVAR_CAR_WORDS];
};

/* The answer to an event: a refusal, or how many frames stand in the output, their octets, and an indication. */
struct lahzavar_answer {
    uint32_t refusal;    /* enum lahzavar_refusal; where it is not 0, the rest is 0 */
    uint32_t indication; /* enum lahzavar_indication */
    uint32_t frames;     /* frames to send, back to back from the output's first octet: lahzavar_frame_octets() */
    uint32_t octets;     /* what they take together */
};

/* The answer to the service query: a refusal, or the number of sounds heard; the arrays that were lent have the rest. */
struct lahzavar_heard {
    uint32_t refusal;
    uint32_t sounds;
};

/* The answer to the inspection: a refusal, or the state and the car that joins or has joined. */
struct lahzavar_inspection {
    uint32_t refusal;
    uint32_t state; /* enum lahzavar_state_number */
    uint64_t car;   /* its address as lahzavar_address() gives it, in Joining and Matched; else 0 */
};

/* What a frame of amplitude maps says: a refusal, or its message; addresses are as lahzavar_address() gives them. */
struct lahzavar_map {
    uint32_t refusal;  /* where it is not 0, the rest is 0 */
    uint32_t kind;     /* enum lahzavar_map_kind */
    uint64_t receiver; /* the frame's destination */
    uint64_t sender;   /* its source */
    uint32_t carriers; /* of a request; else 0 */
    uint32_t result;   /* of a confirmation: 0 success, 1 failure; else 0 */
};

/* A refusal, or how many places of the array that was lent are filled, from its first one on. */
struct lahzavar_filled {
    uint32_t refusal;
    uint32_t count;
};

/* The answer to the key query: a refusal, or the station that the car joins, its NID and its NMK, as octets in frames. */
struct lahzavar_key {
    uint32_t refusal;
    uint8_t station[6];
    uint8_t nid[7];
    uint8_t nmk[16];
};

/* The same as the library gives it: the first octet of address and NMK is most significant, that of the NID least. */
struct lahzavar_key_numbers {
    uint32_t refusal;
    uint64_t station;
    uint64_t nid;
    uint64_t nmk_first;
    uint64_t nmk_last;
};

/* That the compiler lays these out as the library does: checked where the language can. */
#if defined(__cplusplus) && __cplusplus >= 201103L
#define LAHZAVAR_CHECK(what, says) static_assert(what, says);
#define LAHZAVAR_ALIGNMENT(type) alignof(type)
#elif !defined(__cplusplus) && defined(__STDC_VERSION__) && __STDC_VERSION__ >= 201112L
#define LAHZAVAR_CHECK(what, says) _Static_assert(what, says);
#define LAHZAVAR_ALIGNMENT(type) _Alignof(type)
#endif
#ifdef LAHZAVAR_CHECK
LAHZAVAR_CHECK(sizeof(struct lahzavar_answer) == 16, "an answer is four numbers of 32 bits")
LAHZAVAR_CHECK(sizeof(struct lahzavar_heard) == 8, "a query's answer is two numbers of 32 bits")
LAHZAVAR_CHECK(sizeof(struct lahzavar_inspection) == 16, "an inspection is three numbers, the last of 64 bits")
LAHZAVAR_CHECK(sizeof(struct lahzavar_map) == 32, "a map's frame is six numbers, two of 64 bits between four of 32")
LAHZAVAR_CHECK(offsetof(struct lahzavar_map, carriers) == 24, "a map's carriers stand behind its two addresses")
LAHZAVAR_CHECK(sizeof(struct lahzavar_filled) == 8, "a number of places is two numbers of 32 bits")
LAHZAVAR_CHECK(sizeof(struct lahzavar_key_numbers) == 40, "a key is five numbers, the first of 32 bits")
LAHZAVAR_CHECK(sizeof(struct lahzavar_car) == 8 * LAHZAVAR_CAR_WORDS, "a car's words stand back to back")
LAHZAVAR_CHECK(LAHZAVAR_ALIGNMENT(struct lahzavar_car) >= LAHZAVAR_ALIGNMENT(uint64_t), "a car is aligned as its words")
LAHZAVAR_CHECK(offsetof(struct lahzavar_station, private_sums) == 8 * LAHZAVAR_WORDS, "a station's words stand back to back")
LAHZAVAR_CHECK(offsetof(struct lahzavar_station, private_spread) == 8 * LAHZAVAR_WORDS + 2 * LAHZAVAR_SUMS,
               "a station's sums stand back to back")
LAHZAVAR_CHECK(sizeof(struct lahzavar_station) >= 8 * LAHZAVAR_WORDS + 2 * LAHZAVAR_SUMS + LAHZAVAR_SPREAD,
               "a station holds its words, sums and spread")
LAHZAVAR_CHECK(LAHZAVAR_ALIGNMENT(struct lahzavar_station) >= LAHZAVAR_ALIGNMENT(uint64_t),
               "a station is aligned as its words")
#undef LAHZAVAR_CHECK
#undef LAHZAVAR_ALIGNMENT
#endif

/*
 * What the library exports. Use the functions below instead, which take a struct lahzavar_station or lahzavar_car and allow
 * NULL for no octets; a pointer passed here is never NULL. `exempt` is 0 where validation is required, and any other number
 * where it is not; `edition` is one of enum lahzavar_edition, any other number is a bad configuration; `success` is 0 for a
 * failure, and any other number for success.
 */
struct lahzavar_answer lahzavar_configure(uint64_t *words, uint16_t *sums, uint8_t *spread, uint64_t address, uint64_t modem,
                                          uint64_t nid, uint64_t nmk_first, uint64_t nmk_last, uint32_t exempt,
                                          uint32_t edition, uint32_t carriers);
struct lahzavar_answer lahzavar_frame(uint64_t *words, uint16_t *sums, uint8_t *spread, const uint8_t *octets, size_t length,
                                      uint8_t *out, size_t room);
struct lahzavar_answer lahzavar_tick(uint64_t *words, uint16_t *sums, uint8_t *spread, uint32_t reading, uint8_t *out,
                                     size_t room);
struct lahzavar_answer lahzavar_pilot(uint64_t *words, uint16_t *sums, uint8_t *spread, uint32_t pilot, uint32_t reading);
struct lahzavar_answer lahzavar_terminate(uint64_t *words, uint16_t *sums, uint8_t *spread);
struct lahzavar_answer lahzavar_link_up(uint64_t *words, uint16_t *sums, uint8_t *spread);
void lahzavar_wipe(uint64_t *words, uint16_t *sums, uint8_t *spread);
struct lahzavar_heard lahzavar_query(const uint64_t *words, const uint16_t *sums, const uint8_t *spread, uint64_t car,
                                     uint8_t *least, uint8_t *greatest);
struct lahzavar_inspection lahzavar_inspect(const uint64_t *words);
uint32_t lahzavar_records_held(const uint64_t *words);
uint32_t lahzavar_version(void);
uint32_t lahzavar_words(void);
uint32_t lahzavar_sums(void);
uint32_t lahzavar_spread(void);
uint32_t lahzavar_least_output(void);
struct lahzavar_answer lahzavar_configure_car(uint64_t *words, uint64_t address, uint32_t reference);
struct lahzavar_answer lahzavar_start_car(uint64_t *words, uint64_t run, uint64_t random_first, uint64_t random_last,
                                          uint32_t reading, uint8_t *out, size_t room);
struct lahzavar_answer lahzavar_frame_car(uint64_t *words, const uint8_t *octets, size_t length, uint8_t *out, size_t room);
struct lahzavar_answer lahzavar_tick_car(uint64_t *words, uint32_t reading, uint8_t *out, size_t room);
struct lahzavar_answer lahzavar_link_up_car(uint64_t *words);
struct lahzavar_answer lahzavar_terminate_car(uint64_t *words);
struct lahzavar_key_numbers lahzavar_key_of_car(const uint64_t *words);
uint32_t lahzavar_state_of_car(const uint64_t *words);
void lahzavar_wipe_car(uint64_t *words);
uint32_t lahzavar_words_of_car(void);
uint32_t lahzavar_least_output_of_car(void);
struct lahzavar_map lahzavar_read_map(const uint8_t *octets, size_t length);
struct lahzavar_filled lahzavar_values_of_map(const uint8_t *octets, size_t length, uint8_t *values, size_t room);
struct lahzavar_filled lahzavar_request_map(uint64_t receiver, uint64_t sender, const uint8_t *values, size_t carriers,
                                            uint8_t *out, size_t room);
struct lahzavar_filled lahzavar_confirm_map(uint64_t receiver, uint64_t sender, uint32_t success, uint8_t *out, size_t room);
struct lahzavar_filled lahzavar_reduce_map(const uint8_t *values, size_t carriers, const int16_t *levels, size_t level_count,
                                           uint8_t *reductions, size_t room);

/* 1 where the library is the one that this header describes: ask once, before the first station or car. */
static inline int lahzavar_library_fits(void)
{
    return lahzavar_version() == LAHZAVAR_VERSION && lahzavar_words() == LAHZAVAR_WORDS &&
           lahzavar_sums() == LAHZAVAR_SUMS && lahzavar_spread() == LAHZAVAR_SPREAD &&
           lahzavar_least_output() == LAHZAVAR_LEAST_OUTPUT && lahzavar_words_of_car() == LAHZAVAR_CAR_WORDS &&
           lahzavar_least_output_of_car() == LAHZAVAR_CAR_LEAST_OUTPUT;
}

/* The number that so many octets stand for, at most eight, the first one most significant; 0 for NULL. */
static inline uint64_t lahzavar_number(const uint8_t *octets, size_t count)
{
    uint64_t number = 0;
    size_t at;
    for (at = 0; octets != NULL && at < count; at++) {
        number = number << 8 | octets[at];
    }
    return number;
}

/* An address as a number, from its six octets as they stand in a frame; 0, which is no address, for NULL. */
static inline uint64_t lahzavar_address(const uint8_t octets[6])
{
    return lahzavar_number(octets, 6);
}

/* A NID as a number, from its seven octets as they stand in a frame: low octet first. NULL gives one that is refused. */
static inline uint64_t lahzavar_nid(const uint8_t octets[7])
{
    uint64_t number = octets != NULL ? 0 : UINT64_MAX;
    size_t at;
    for (at = 7; octets != NULL && at > 0; at--) {
        number = number << 8 | octets[at - 1];
    }
    return number;
}

/* The answer of a station or car that is NULL. */
static inline struct lahzavar_answer lahzavar_no_station(void)
{
    struct lahzavar_answer answer = {LAHZAVAR_BAD_CONFIGURATION, LAHZAVAR_NO_INDICATION, 0, 0};
    return answer;
}

/*
 * Wipes a station, its NMK too: it answers LAHZAVAR_BAD_CONFIGURATION to everything until it is configured again. This is
 * a call of the library, which no compiler leaves out.
 */
static inline void lahzavar_station_wipe(struct lahzavar_station *station)
{
    if (station != NULL) {
        lahzavar_wipe(station->private_words, station->private_sums, station->private_spread);
    }
}

/*
 * Configures a station: Unmatched, no records, pilot state A, clock reading 0. Refused with LAHZAVAR_BAD_CONFIGURATION
 * unless both addresses are unicast and differ, the NID is below 2^54, there is an NMK, the edition is one of the two and
 * the carriers are 1 to LAHZAVAR_CARRIERS; the station then answers that to everything. ISO 15118-3 wants a fresh NMK for
 * each plug-in, so configure anew before each.
 *
 * A car that doubts which station it hangs on may ask for a validation: it switches the pilot between B and C, and the
 * station tells it how often it saw that. Usually validation_not_required is false. True is for a place where no car can be
 * at the wrong bay: the station then answers "not required" to every such request, and never counts.
 *
 * The edition is that of the site's cars: an ISO car never matches at an SAE station, nor an SAE car at an ISO one. An SAE
 * site configures validation as not required. In SAE a CM_SLAC_PARM.REQ of a car that holds no record begins a first try, of
 * 8 sounds in 200 ms, and one of a car that holds a record a later try, of 16 sounds in 1,000 ms. So a request that is
 * repeated because its answer came late begins a later try, and a start by the first answer is then refused with
 * LAHZAVAR_OTHER_TRY.
 *
 * The carriers are those of our modem, as its manual says. They decide about amplitude maps alone: a CM_AMP_MAP.REQ of the
 * matched car with another number of them is refused with LAHZAVAR_OTHER_CARRIER_COUNT.
 */
static inline struct lahzavar_answer lahzavar_station_configure(struct lahzavar_station *station, uint64_t address,
                                                                uint64_t modem, uint64_t nid, const uint8_t nmk[16],
                                                                bool validation_not_required,
                                                                enum lahzavar_edition edition, uint32_t carriers)
{
    if (station == NULL || nmk == NULL) {
        lahzavar_station_wipe(station);
        return lahzavar_no_station();
    }
    return lahzavar_configure(station->private_words, station->private_sums, station->private_spread, address, modem, nid,
                              lahzavar_number(nmk, 8), lahzavar_number(nmk + 8, 8), validation_not_required ? 1 : 0,
                              (uint32_t)edition, carriers);
}

/*
 * A frame from the modem, from its destination address on and without its check sequence; NULL stands for no octets. A
 * CM_AMP_MAP.REQ of the matched car with as many carriers as ours is answered by a CM_AMP_MAP.CNF for success, and changes
 * nothing; lahzavar_map_values() takes its values out of the same frame.
 */
static inline struct lahzavar_answer lahzavar_station_frame(struct lahzavar_station *station, const uint8_t *octets,
                                                            size_t length, uint8_t *out, size_t room)
{
    static const uint8_t no_octets = 0;
    uint8_t no_room = 0;
    if (station == NULL) {
        return lahzavar_no_station();
    }
    return lahzavar_frame(station->private_words, station->private_sums, station->private_spread,
                          octets != NULL ? octets : &no_octets, octets != NULL ? length : 0, out != NULL ? out : &no_room,
                          out != NULL ? room : 0);
}

/*
 * A reading of a free-running millisecond clock that wraps at 2^32: every 10 ms or less, since a frame happens at the last
 * tick, and a first try in SAE has 200 ms alone; an ISO station may be told more seldom, but at least every 100 ms while a
 * car validates. Send every frame of the answer: reports, each of 71 octets and its groups, LAHZAVAR_REPORT_OCTETS at most,
 * and behind them what a validation has come to, a CM_VALIDATE.CNF of LAHZAVAR_CONFIRMATION_OCTETS.
 */
static inline struct lahzavar_answer lahzavar_station_tick(struct lahzavar_station *station, uint32_t reading, uint8_t *out,
                                                           size_t room)
{
    uint8_t no_room = 0;
    if (station == NULL) {
        return lahzavar_no_station();
    }
    return lahzavar_tick(station->private_words, station->private_sums, station->private_spread, reading,
                         out != NULL ? out : &no_room, out != NULL ? room : 0);
}

/*
 * The control pilot's state with the clock's reading: at each change, also among B, C and D, at once and in the order of
 * what else happens. While a car validates, the changes from B to C and back are counted that come before the tick which
 * ends its time; the pilot has to be at B then.
 */
static inline struct lahzavar_answer lahzavar_station_pilot(struct lahzavar_station *station,
                                                            enum lahzavar_pilot_state pilot, uint32_t reading)
{
    if (station == NULL) {
        return lahzavar_no_station();
    }
    return lahzavar_pilot(station->private_words, station->private_sums, station->private_spread, (uint32_t)pilot, reading);
}

/* Ends the matching or the link; a new matching begins with the next plug-in. */
static inline struct lahzavar_answer lahzavar_station_terminate(struct lahzavar_station *station)
{
    if (station == NULL) {
        return lahzavar_no_station();
    }
    return lahzavar_terminate(station->private_words, station->private_sums, station->private_spread);
}

/* The modem has a link in the station's network. */
static inline struct lahzavar_answer lahzavar_station_link_up(struct lahzavar_station *station)
{
    if (station == NULL) {
        return lahzavar_no_station();
    }
    return lahzavar_link_up(station->private_words, station->private_sums, station->private_spread);
}

/*
 * The service query: how many sounds of a car's run were heard, and, in the two arrays, the least and the greatest value
 * that each carrier group had in the profiles counted since the car's last CM_SLAC_PARM.REQ. It changes nothing. Refused
 * with LAHZAVAR_NO_RECORD where the car holds no record or its record counts no profile yet; the arrays then are as they
 * were. An array that is not wanted may be NULL. In SAE both values are 0 for the groups that the profiles do not have.
 *
 * The mean is in the report; how far least and greatest stand from it tells a bad cable from a noisy sound. A match takes
 * the records away: ask when the report is sent.
 */
static inline struct lahzavar_heard lahzavar_station_query(const struct lahzavar_station *station, uint64_t car,
                                                           uint8_t least[LAHZAVAR_GROUPS], uint8_t greatest[LAHZAVAR_GROUPS])
{
    uint8_t unwanted_least[LAHZAVAR_GROUPS] = {0}, unwanted_greatest[LAHZAVAR_GROUPS] = {0};
    if (station == NULL) {
        struct lahzavar_heard none = {LAHZAVAR_BAD_CONFIGURATION, 0};
        return none;
    }
    return lahzavar_query(station->private_words, station->private_sums, station->private_spread, car,
                          least != NULL ? least : unwanted_least, greatest != NULL ? greatest : unwanted_greatest);
}

/* The inspection: the state, and in Joining and Matched the car. It changes nothing. */
static inline struct lahzavar_inspection lahzavar_station_inspect(const struct lahzavar_station *station)
{
    struct lahzavar_inspection none = {LAHZAVAR_BAD_CONFIGURATION, LAHZAVAR_UNMATCHED, 0};
    return station == NULL ? none : lahzavar_inspect(station->private_words);
}

/* The state alone, one of enum lahzavar_state_number; LAHZAVAR_UNMATCHED where the inspection is refused. */
static inline uint32_t lahzavar_station_state(const struct lahzavar_station *station)
{
    return lahzavar_station_inspect(station).state;
}

/* How many records cars hold; none for NULL. */
static inline uint32_t lahzavar_station_records_held(const struct lahzavar_station *station)
{
    return station == NULL ? 0 : lahzavar_records_held(station->private_words);
}

/*
 * The octets of the first one of an answer's frames, which stand back to back in so many octets: at least one and never
 * more than these, and 0 where there are none. So a driver steps through what it has to send:
 *
 *     for (at = 0; at < answer.octets; at += length) {
 *         length = lahzavar_frame_octets(out + at, answer.octets - at);
 *         modem_send(out + at, length);
 *     }
 *
 * The frame itself tells its length: reports, each by its group count, and CM_VALIDATE.CNF may stand in one answer, any
 * other frame, CM_AMP_MAP.CNF too, is alone in its. The answer's octets divided by its frames do not tell it.
 */
static inline size_t lahzavar_frame_octets(const uint8_t *frames, size_t octets)
{
    size_t there = frames != NULL ? octets : 0;
    unsigned type = there < 17 ? 0u : (unsigned)frames[15] | (unsigned)frames[16] << 8;
    size_t length = there;
    if (type == 0x606E && there > 70) {
        length = 71u + (size_t)frames[70];
    } else if (type == 0x6079) {
        length = LAHZAVAR_CONFIRMATION_OCTETS;
    }
    return length < there ? length : there;
}

/* Wipes a car, its key too: it answers LAHZAVAR_BAD_CONFIGURATION to everything until it is configured again. */
static inline void lahzavar_car_wipe(struct lahzavar_car *car)
{
    if (car != NULL) {
        lahzavar_wipe_car(car->private_words);
    }
}

/*
 * Configures a car: Idle, no run, no reports, clock reading 0. The reference is the attenuation that the car takes as its
 * zero, in dB: -50 dBm/Hz less the car's own level at its inlet, or 0 to take reports as they are. Refused with
 * LAHZAVAR_BAD_CONFIGURATION unless the address is unicast and the reference at most 255; the car then answers that to
 * everything.
 */
static inline struct lahzavar_answer lahzavar_car_configure(struct lahzavar_car *car, uint64_t address, uint32_t reference)
{
    return car == NULL ? lahzavar_no_station() : lahzavar_configure_car(car->private_words, address, reference);
}

/*
 * Starts a matching in Idle, with a new RunID and random octets at each start; the answer's frame is CM_SLAC_PARM.REQ. Without
 * RunID or random octets (NULL) it is refused with LAHZAVAR_BAD_CONFIGURATION.
 */
static inline struct lahzavar_answer lahzavar_car_start(struct lahzavar_car *car, const uint8_t run[8],
                                                        const uint8_t random[16], uint32_t reading, uint8_t *out,
                                                        size_t room)
{
    uint8_t no_room = 0;
    if (car == NULL || run == NULL || random == NULL) {
        return lahzavar_no_station();
    }
    return lahzavar_start_car(car->private_words, lahzavar_number(run, 8), lahzavar_number(random, 8),
                              lahzavar_number(random + 8, 8), reading, out != NULL ? out : &no_room, out != NULL ? room : 0);
}

/* A frame from the modem, from its destination address on and without its check sequence; NULL stands for no octets. */
static inline struct lahzavar_answer lahzavar_car_frame(struct lahzavar_car *car, const uint8_t *octets, size_t length,
                                                        uint8_t *out, size_t room)
{
    static const uint8_t no_octets = 0;
    uint8_t no_room = 0;
    if (car == NULL) {
        return lahzavar_no_station();
    }
    return lahzavar_frame_car(car->private_words, octets != NULL ? octets : &no_octets, octets != NULL ? length : 0,
                              out != NULL ? out : &no_room, out != NULL ? room : 0);
}

/*
 * A reading of a free-running millisecond clock that wraps at 2^32: every 5 ms or less from the start until the key is given,
 * and every 10 ms or so until the link is up.
 */
static inline struct lahzavar_answer lahzavar_car_tick(struct lahzavar_car *car, uint32_t reading, uint8_t *out, size_t room)
{
    uint8_t no_room = 0;
    if (car == NULL) {
        return lahzavar_no_station();
    }
    return lahzavar_tick_car(car->private_words, reading, out != NULL ? out : &no_room, out != NULL ? room : 0);
}

/* The modem has a link in the station's network. */
static inline struct lahzavar_answer lahzavar_car_link_up(struct lahzavar_car *car)
{
    return car == NULL ? lahzavar_no_station() : lahzavar_link_up_car(car->private_words);
}

/* Ends the matching or the link; a new matching begins with the next start. */
static inline struct lahzavar_answer lahzavar_car_terminate(struct lahzavar_car *car)
{
    return car == NULL ? lahzavar_no_station() : lahzavar_terminate_car(car->private_words);
}

/* The station that the car joins or has joined, its NID and its NMK; else LAHZAVAR_WRONG_STATE, and zeros. */
static inline struct lahzavar_key lahzavar_car_key(const struct lahzavar_car *car)
{
    struct lahzavar_key_numbers numbers = {LAHZAVAR_BAD_CONFIGURATION, 0, 0, 0, 0};
    struct lahzavar_key key;
    int at;
    if (car != NULL) {
        numbers = lahzavar_key_of_car(car->private_words);
    }
    key.refusal = numbers.refusal;
    for (at = 0; at < 6; at++) {
        key.station[at] = (uint8_t)(numbers.station >> (40 - 8 * at) & 0xFF);
    }
    for (at = 0; at < 7; at++) {
        key.nid[at] = (uint8_t)(numbers.nid >> 8 * at & 0xFF);
    }
    for (at = 0; at < 8; at++) {
        key.nmk[at] = (uint8_t)(numbers.nmk_first >> (56 - 8 * at) & 0xFF);
        key.nmk[8 + at] = (uint8_t)(numbers.nmk_last >> (56 - 8 * at) & 0xFF);
    }
    return key;
}

/* The state, one of enum lahzavar_car_state_number; LAHZAVAR_CAR_IDLE for NULL. */
static inline uint32_t lahzavar_car_state(const struct lahzavar_car *car)
{
    return car == NULL ? (uint32_t)LAHZAVAR_CAR_IDLE : lahzavar_state_of_car(car->private_words);
}

/*
 * Amplitude maps. A CM_AMP_MAP.REQ has a value from 0 to 15 for each carrier, in the order of the carriers: a value a asks
 * for at most -50 - 2a dBm/Hz. Its receiver answers by CM_AMP_MAP.CNF, and lowers the power of each carrier that is above.
 * These calls work on what they are lent alone. A refused one leaves the array that it would fill; an accepted one changes
 * as many places of it as it tells, from the first one on.
 */

/*
 * Reads a frame, from its destination address on and without its check sequence; NULL stands for no octets. Refused, in this
 * order, with LAHZAVAR_TOO_SHORT where it ends in its head, LAHZAVAR_BAD_HEAD, LAHZAVAR_UNKNOWN_TYPE where it is none of the
 * two messages, LAHZAVAR_TOO_SHORT where it ends before the number of its carriers, LAHZAVAR_BAD_OCTET where that is not 1
 * to LAHZAVAR_CARRIERS, LAHZAVAR_TOO_SHORT, LAHZAVAR_TOO_LONG, LAHZAVAR_BAD_ADDRESS or LAHZAVAR_BAD_OCTET.
 */
static inline struct lahzavar_map lahzavar_map_read(const uint8_t *octets, size_t length)
{
    static const uint8_t no_octets = 0;
    return lahzavar_read_map(octets != NULL ? octets : &no_octets, octets != NULL ? length : 0);
}

/*
 * The values of a CM_AMP_MAP.REQ, one for each carrier, in an array with room for so many; LAHZAVAR_CARRIERS always are
 * enough. Refused as lahzavar_map_read() is, with LAHZAVAR_UNKNOWN_TYPE for a CM_AMP_MAP.CNF, which has none, and with
 * LAHZAVAR_OUTPUT_TOO_SHORT.
 */
static inline struct lahzavar_filled lahzavar_map_values(const uint8_t *octets, size_t length, uint8_t *values, size_t room)
{
    static const uint8_t no_octets = 0;
    uint8_t no_room = 0;
    return lahzavar_values_of_map(octets != NULL ? octets : &no_octets, octets != NULL ? length : 0,
                                  values != NULL ? values : &no_room, values != NULL ? room : 0);
}

/*
 * Writes a CM_AMP_MAP.REQ with a value for each of so many carriers; LAHZAVAR_MAP_OCTETS always are room enough. It tells
 * the frame's octets. Refused, in this order, with LAHZAVAR_BAD_ADDRESS where an address is not unicast, LAHZAVAR_BAD_OCTET
 * for a number of carriers outside 1 to LAHZAVAR_CARRIERS or a value over 15, or LAHZAVAR_OUTPUT_TOO_SHORT.
 */
static inline struct lahzavar_filled lahzavar_map_request(uint64_t receiver, uint64_t sender, const uint8_t *values,
                                                          size_t carriers, uint8_t *out, size_t room)
{
    static const uint8_t no_values = 0;
    uint8_t no_room = 0;
    return lahzavar_request_map(receiver, sender, values != NULL ? values : &no_values, values != NULL ? carriers : 0,
                                out != NULL ? out : &no_room, out != NULL ? room : 0);
}

/*
 * Writes a CM_AMP_MAP.CNF, of LAHZAVAR_CONFIRMATION_OCTETS, for success or for failure. Refused with LAHZAVAR_BAD_ADDRESS
 * where an address is not unicast, or LAHZAVAR_OUTPUT_TOO_SHORT.
 */
static inline struct lahzavar_filled lahzavar_map_confirm(uint64_t receiver, uint64_t sender, bool success, uint8_t *out,
                                                          size_t room)
{
    uint8_t no_room = 0;
    return lahzavar_confirm_map(receiver, sender, success ? 1 : 0, out != NULL ? out : &no_room, out != NULL ? room : 0);
}

/*
 * By how many dB the power of each carrier is to be lowered, for the values of a CM_AMP_MAP.REQ and our levels in dBm/Hz,
 * one for each carrier: the level less -50 - 2a where that is positive, else 0. Refused, in this order, with
 * LAHZAVAR_BAD_OCTET for a number of values outside 1 to LAHZAVAR_CARRIERS or a value over 15, LAHZAVAR_OTHER_CARRIER_COUNT
 * where there are not as many levels, LAHZAVAR_BAD_CONFIGURATION for a level outside -128 to 0, or
 * LAHZAVAR_OUTPUT_TOO_SHORT.
 */
static inline struct lahzavar_filled lahzavar_map_reduce(const uint8_t *values, size_t carriers, const int16_t *levels,
                                                         size_t level_count, uint8_t *reductions, size_t room)
{
    static const uint8_t no_values = 0;
    static const int16_t no_levels = 0;
    uint8_t no_room = 0;
    return lahzavar_reduce_map(values != NULL ? values : &no_values, values != NULL ? carriers : 0,
                               levels != NULL ? levels : &no_levels, levels != NULL ? level_count : 0,
                               reductions != NULL ? reductions : &no_room, reductions != NULL ? room : 0);
}

#ifdef __cplusplus
}
#endif

#endif
