/*
 * Cars and stations of the library on one line, in simulated milliseconds. Each car is plugged into a bay of its own, and
 * every station hears every car, each with another attenuation. Each scenario prints a line; the first event that it does
 * not allow ends the program with 1. Usage: meeting SEEDS SEED [exchanged | crossed]
 *
 * A car that asks takes a record at every station that is plugged in and has one left, and holds it for more than ten
 * seconds, unless the station's own car joins before. So a station has a record left for its own car where fewer than
 * LAHZAVAR_RECORDS other cars have started since its plug-in: IN_GROUPS and ONE_BY_ONE keep to that. Where it does not hold,
 * the own station may refuse a car that other stations answer.
 *
 * With "exchanged" the modems name the car of bay 2 in the profiles of bay 1's, and the other way round, so that stations
 * report another car's sums.
 *
 * With both editions some bays are of ISO 15118-3 and some of SAE J2931/4, whose cars are those of sae_car.h; there, the
 * modem of each bay has a number of groups of its own. One bay of each edition has a car of the other one, which may not
 * match, neither there nor anywhere else.
 *
 * In the last scenario the car of bay 1 validates before it asks for the key: now and then it asks the station of bay 2
 * first, and always its own. With "crossed" it hangs on the cable of bay 2.
 */
#include "car_frames.h"
#include "lahzavar.h"
#include "random.h"
#include "sae_car.h"

#include <stdio.h>
#include <stdlib.h>

#define BAYS 24u /* more than a station has records */
#define QUEUE 1024u /* frames under way, a power of two */
#define NEVER UINT32_MAX
#define VARIATION 3u        /* the most that a group's value is over the attenuation; all ones in binary */
#define DELAY_MOST 3u       /* how long a frame is under way */
#define GROUP_PERIOD 500u   /* from the plug-in of one group to that of the next */
#define GROUP_START 300u    /* from plug-in to start, in a group */
#define PAUSE_LEAST 400u    /* from a failed matching to the next start: TT_matching_rate, */
#define PAUSE_MOST 20000u   /* or longer than a record is held, since a car that asks again sooner keeps its records */
#define STATION_PAUSE 1000u /* from a station's "no link" to its new matching */
#define LIMIT 600000u       /* a car that has not joined by then does not join */
#define TOGGLES_MOST 6u     /* of a validation, */
#define TIMER_LEAST 4u      /* whose window is 100 ms times the timer and one more */
#define TIMER_MOST 40u
#define PATIENCE 300u /* how long a car waits for a station's answer, from when it is due */
#define SAE_LIMIT 20u /* an SAE car asks no station with a mean of so many dB over its reference, as the library's car does */

/* The fifth octet of an address; the last one is the bay. */
enum side { CAR = 1, STATION = 2, MODEM = 3 };

/* When cars are plugged in and start. */
enum plugging {
    IN_GROUPS,   /* as many in the same millisecond as a station has records, the next ones when these have started */
    TOO_MANY,    /* the same with one more in a group */
    ALL_AT_ONCE, /* all in the same millisecond */
    ONE_BY_ONE,  /* at any time, but so that a station has a record left for its own car */
    AT_ANY_TIME
};

/* Where every car has to end. */
enum demand { OWN_BAY_AT_FIRST_START, OWN_BAY, ANY_BAY };

/* What is tried; attenuations are in dB over the car's reference, from the least to the greatest. */
struct scenario {
    unsigned bays, own[2], others[2];
    enum plugging plugging;
    unsigned lost; /* per cent of the frames that would reach a receiver */
    enum demand demand;
};

/* A bay: its station, the car that is plugged in there, and the times of what comes next. */
struct bay {
    struct lahzavar_station station;
    struct lahzavar_car car;
    uint8_t nid[7], nmk[16];
    uint8_t attenuation[BAYS];         /* of the car, at each station */
    uint32_t station_clock, car_clock; /* their readings at time 0 */
    uint32_t plug_in_at, start_at, link_at, first_start;
    unsigned starts, joined; /* how often the car has started, and the bay whose station it joins */
    enum lahzavar_edition edition, car_edition;
    unsigned groups;    /* of the profiles of an SAE station's modem */
    struct sae_car sae; /* in place of `car`, where it is of that edition */
};

struct frame {
    uint32_t due;
    size_t length;
    uint8_t octets[FRAME_MOST];
};

/* What a car that validates waits for. */
enum step { NOTHING, PARAMETERS, REPORTS, READINESS, RESULT, KEY, LINK };

/* The results of CM_VALIDATE.CNF that such a car is to be told. */
enum result { READY = 1, SUCCESS = 2 };

/* The car of bay 1 in the scenario in which it validates; its frames are written here, as the library's car does not. */
struct validator {
    struct car car;
    enum step step;
    uint32_t due; /* when the next frame is, or the patience ends */
    unsigned to_sound, others_reports;
    unsigned asked;                     /* the bay whose station validates */
    unsigned timer, toggles;            /* of this validation */
    unsigned changes;                   /* the pilot's, that are left */
    uint32_t change_at, state_duration; /* the next one, and from one to the next */
};

/* What came of all validations. */
struct validations {
    unsigned matchings, toggles, unknown, others_asked, others_counted_none;
};

/* What came of all runs of a scenario. */
struct tally {
    unsigned matchings, wrong_bays, not_joined, starts, starts_least, starts_most;
    uint32_t time_least, time_most;
    uint64_t time;
    unsigned sae, sae_later; /* matchings of SAE cars, and those of them in a later try */
    unsigned other_starts;   /* of cars at a station of the other edition */
};

/* One run of a scenario. */
struct line {
    const struct scenario *scenario;
    char title[160];
    struct tally tally;
    struct validations validations;
    struct validator validator;
    uint64_t seed;
    int exchanged, crossed, mixed; /* mixed: there are bays of both editions */
    unsigned reference, car_tick, station_tick, linked;
    uint32_t now, delay;
    struct bay bays[BAYS];
    struct frame queue[QUEUE];
    unsigned put, taken;
};

/* Ends the program where something does not hold of a bay. */
static void require(const struct line *line, unsigned bay, int holds, const char *otherwise)
{
    if (!holds) {
        fflush(stdout);
        fprintf(stderr, "meeting: %s; seed %lu, reference %u, ticks of %u and %u ms, bay %u at %lu ms: %s\n", line->title,
                (unsigned long)line->seed, line->reference, line->car_tick, line->station_tick, bay + 1,
                (unsigned long)line->now, otherwise);
        exit(1);
    }
}

static void address_of(enum side side, unsigned bay, uint8_t address[6])
{
    memset(address, 0, 6);
    address[0] = 2;
    address[4] = (uint8_t)side;
    address[5] = (uint8_t)bay;
}

static int is_address(const uint8_t *address, enum side side, unsigned bay)
{
    uint8_t expected[6];
    address_of(side, bay, expected);
    return memcmp(address, expected, 6) == 0;
}

static unsigned between(unsigned least, unsigned most)
{
    return least + (unsigned)below(most - least + 1);
}

static void fill(uint8_t *octets, size_t count)
{
    size_t at;
    for (at = 0; at < count; at++) {
        octets[at] = (uint8_t)below(256);
    }
}

/*
 * Both ends can read what the other one writes; they refuse what is for others, or comes at another time. With both editions
 * they can't read all of it: a report of fewer groups is too short in the ISO edition. A car may also hear of another try.
 */
static void check_refusal(const struct line *line, unsigned bay, uint32_t refusal)
{
    int usual = refusal == LAHZAVAR_ACCEPTED || (refusal >= LAHZAVAR_NOT_FOR_US && refusal <= LAHZAVAR_WRONG_PHASE) ||
                (refusal >= LAHZAVAR_ONLY_FOR_CARS && refusal <= LAHZAVAR_ONLY_FOR_STATIONS);
    int mixed = refusal == LAHZAVAR_TOO_SHORT || refusal == LAHZAVAR_BAD_OCTET || refusal == LAHZAVAR_OTHER_TRY;
    require(line, bay, usual || (line->mixed && mixed), lahzavar_refusal_text(refusal));
}

static int is_sae(const struct line *line, unsigned bay)
{
    return line->bays[bay].edition == LAHZAVAR_SAE;
}

static int has_sae_car(const struct line *line, unsigned bay)
{
    return line->bays[bay].car_edition == LAHZAVAR_SAE;
}

/* Whether a bay's car and station are of one edition, so that they can match. */
static int can_match(const struct line *line, unsigned bay)
{
    return is_sae(line, bay) == has_sae_car(line, bay);
}

/* Puts a frame on the line. */
static void send_frame(struct line *line, unsigned bay, const uint8_t *octets, size_t length)
{
    struct frame *frame = &line->queue[line->put % QUEUE];
    require(line, bay, line->put - line->taken < QUEUE && length <= FRAME_MOST, "the line has no room for a frame");
    frame->due = line->now + line->delay;
    frame->length = length;
    memcpy(frame->octets, octets, length);
    line->put++;
}

/* A report goes to a car of the station's edition, and has the groups of its modem. */
static void check_report(const struct line *line, unsigned bay, const uint8_t *report, size_t length)
{
    size_t groups = is_sae(line, bay) ? line->bays[bay].groups : LAHZAVAR_GROUPS;
    require(line, bay, has_sae_car(line, report[5]) == is_sae(line, bay), "the station reports to a car of the other edition");
    require(line, bay, report[FRAME_HEAD + 51] == groups && length == 71 + groups, "the report has other groups");
}

/* Puts the frames of an answer on the line; a station's key goes to its own car, unless any bay will do. */
static void send_frames(struct line *line, unsigned bay, struct lahzavar_answer answer, const uint8_t *out)
{
    size_t at, length;
    uint32_t frames = 0;
    check_refusal(line, bay, answer.refusal);
    for (at = 0; at < answer.octets; at += length) {
        length = lahzavar_frame_octets(out + at, answer.octets - at);
        send_frame(line, bay, out + at, length);
        frames++;
        if (frame_type(out + at, length) == CM_ATTEN_CHAR_IND) {
            check_report(line, bay, out + at, length);
        }
        if (frame_type(out + at, length) == CM_SLAC_MATCH_CNF && line->scenario->demand != ANY_BAY) {
            require(line, bay, is_address(out + at, CAR, bay), "the station gives its key to another bay's car");
        }
    }
    require(line, bay, frames == answer.frames, "the answer has another number of frames than it says");
}

/* A station's matching that ends without a link begins anew. */
static void obey_station(struct line *line, unsigned bay, struct lahzavar_answer answer, const uint8_t *out)
{
    send_frames(line, bay, answer, out);
    if (answer.indication == LAHZAVAR_NO_LINK) {
        require(line, bay, line->scenario->demand != OWN_BAY_AT_FIRST_START, "the station says no link");
        line->bays[bay].plug_in_at = line->now + STATION_PAUSE;
    }
}

/* Counts a car that was given a key. */
static void count_matching(struct tally *tally, unsigned starts, uint32_t time, int wrong_bay)
{
    if (tally->matchings == 0 || starts < tally->starts_least) {
        tally->starts_least = starts;
    }
    if (tally->matchings == 0 || time < tally->time_least) {
        tally->time_least = time;
    }
    tally->starts_most = starts > tally->starts_most ? starts : tally->starts_most;
    tally->time_most = time > tally->time_most ? time : tally->time_most;
    tally->starts += starts;
    tally->time += time;
    tally->matchings++;
    tally->wrong_bays += wrong_bay != 0;
}

/* A key that a car was given is that of the station it names, the own one unless any bay will do, which is joining. */
static void take_key(struct line *line, unsigned bay)
{
    struct bay *own = &line->bays[bay];
    struct lahzavar_key key = lahzavar_car_key(&own->car);
    const struct bay *joined;
    own->joined = key.station[5];
    require(line, bay, key.refusal == LAHZAVAR_ACCEPTED, "the car has no key");
    require(line, bay, own->joined < line->scenario->bays && is_address(key.station, STATION, own->joined),
            "the car joins no station of the line");
    require(line, bay, own->joined == bay || line->scenario->demand == ANY_BAY, "the car joins another bay's station");
    require(line, bay, !is_sae(line, own->joined), "the car joins a station of the other edition");
    joined = &line->bays[own->joined];
    require(line, bay, memcmp(key.nid, joined->nid, 7) == 0 && memcmp(key.nmk, joined->nmk, 16) == 0,
            "the car's key is not the station's");
    require(line, bay, lahzavar_station_state(&joined->station) == LAHZAVAR_JOINING, "the station is not joining");
    own->link_at = line->now + between(100, 3000);
    count_matching(&line->tally, own->starts, line->now - own->first_start, own->joined != bay);
}

/* A car's matching that ends without a link begins anew after a pause; where first starts have to succeed all are found. */
static void obey_car(struct line *line, unsigned bay, struct lahzavar_answer answer, const uint8_t *out)
{
    int first = line->scenario->demand == OWN_BAY_AT_FIRST_START;
    send_frames(line, bay, answer, out);
    require(line, bay, !first || answer.indication != LAHZAVAR_POTENTIALLY_FOUND, "the station is only potentially found");
    if (answer.indication == LAHZAVAR_NO_LINK || answer.indication == LAHZAVAR_NOT_FOUND) {
        require(line, bay, !first, "the car's first start fails");
        line->bays[bay].start_at = line->now + between(PAUSE_LEAST, PAUSE_MOST);
    }
    if (answer.indication == LAHZAVAR_KEY_GIVEN) {
        take_key(line, bay);
    }
}

/* A key that an SAE car was given is that of the station it has asked, its own, with the identifiers of its request. */
static void take_sae_key(struct line *line, unsigned bay, const uint8_t *frame, size_t length)
{
    struct bay *own = &line->bays[bay];
    uint8_t station[6], expected[FRAME_MOST];
    address_of(STATION, bay, station);
    require(line, bay, own->sae.step == SAE_REQUESTING && is_sae(line, bay), "the car has asked for no key");
    require(line, bay, memcmp(own->sae.chosen, station, 6) == 0, "the car joins another bay's station");
    require(line, bay,
            length == write_sae_match_cnf(expected, &own->sae.car, own->sae.chosen, own->sae.ids, own->nid, own->nmk) &&
                memcmp(frame, expected, length) == 0,
            "the key's frame is not the answer to the car's request");
    require(line, bay, lahzavar_station_state(&own->station) == LAHZAVAR_JOINING, "the station is not joining");
    own->sae.step = SAE_JOINED;
    own->joined = bay;
    own->link_at = line->now + between(100, 3000);
    line->tally.sae++;
    line->tally.sae_later += memcmp(own->sae.values, later_try, 2) == 0;
    count_matching(&line->tally, own->starts, line->now - own->first_start, 0);
}

/* What an SAE car does with a frame. */
static void give_sae_car(struct line *line, unsigned bay, const uint8_t *octets, size_t length)
{
    uint8_t frame[FRAME_MOST];
    size_t reply = sae_car_hear(&line->bays[bay].sae, octets, length, line->now, frame);
    if (reply > 0) {
        send_frame(line, bay, frame, reply);
    }
    if (is_address(octets, CAR, bay) && frame_type(octets, length) == CM_SLAC_MATCH_CNF) {
        take_sae_key(line, bay, octets, length);
    }
}

/* What is due of an SAE car; a matching that fails begins anew after a pause. */
static void turn_sae_car(struct line *line, unsigned bay)
{
    struct bay *own = &line->bays[bay];
    uint8_t frame[FRAME_MOST];
    enum sae_step before = own->sae.step;
    size_t length = sae_car_turn(&own->sae, line->now, frame);
    if (length > 0) {
        send_frame(line, bay, frame, length);
    }
    if (own->sae.step == SAE_FAILED && before != SAE_FAILED) {
        own->start_at = line->now + between(PAUSE_LEAST, PAUSE_MOST);
    }
}

/* The car that validates sends a first request to a station, for a window of its own. */
static void ask_to_validate(struct line *line, unsigned bay)
{
    struct validator *own = &line->validator;
    uint8_t station[6], frame[FRAME_MOST];
    address_of(STATION, bay, station);
    own->asked = bay;
    own->timer = between(TIMER_LEAST, TIMER_MOST);
    own->toggles = between(1, TOGGLES_MOST);
    own->step = READINESS;
    own->due = line->now + PATIENCE;
    send_frame(line, 0, frame, write_validate_req(frame, &own->car, station, 0));
}

/*
 * It sends the second request, to all, and begins to toggle once that is heard. A window begins at the station's last tick
 * and ends at one, so that the toggles are through a tick before the window is.
 */
static void begin_toggles(struct line *line)
{
    struct validator *own = &line->validator;
    uint8_t frame[FRAME_MOST];
    uint32_t window = 100 * (own->timer + 1), start = 2 * DELAY_MOST;
    own->changes = 2 * own->toggles;
    own->change_at = line->now + start;
    own->state_duration = between(5, (window - start - DELAY_MOST - line->station_tick) / own->changes);
    own->step = RESULT;
    own->due = line->now + window + PATIENCE;
    send_frame(line, 0, frame, write_validate_req(frame, &own->car, broadcast_address, own->timer));
}

/* Its own station has seen every toggle, and the other one none: only then it asks for the key. */
static void take_result(struct line *line, unsigned toggles)
{
    struct validator *own = &line->validator;
    uint8_t station[6], frame[FRAME_MOST];
    require(line, 0, own->changes == 0, "the window has ended early");
    if (own->asked != 0) {
        require(line, 0, toggles == 0, "the other bay's station has counted toggles");
        line->validations.others_counted_none++;
        ask_to_validate(line, 0);
        return;
    }
    require(line, 0, toggles == own->toggles, "the station has counted other toggles than there were");
    line->validations.toggles += toggles;
    own->step = KEY;
    own->due = line->now + PATIENCE;
    address_of(STATION, 0, station);
    send_frame(line, 0, frame, write_match_req(frame, &own->car, station));
}

/* Only the station that was asked confirms, and only in its turn. */
static void take_confirmation(struct line *line, const uint8_t *frame)
{
    unsigned toggles = frame[FRAME_HEAD + 1], result = frame[FRAME_HEAD + 2];
    require(line, 0, is_address(frame + 6, STATION, line->validator.asked), "another station than was asked confirms");
    if (line->validator.step == READINESS) {
        require(line, 0, result == READY && toggles == 0, "the station is not ready");
        begin_toggles(line);
    } else {
        require(line, 0, line->validator.step == RESULT && result == SUCCESS, "the station says no success");
        take_result(line, toggles);
    }
}

/* The key is that of its own station, and the modems have a link at once. */
static void take_match(struct line *line, const uint8_t *frame)
{
    struct bay *own = &line->bays[0];
    const uint8_t *payload = frame + FRAME_HEAD;
    require(line, 0, line->validator.step == KEY && is_address(frame + 6, STATION, 0), "another station gives its key");
    require(line, 0, memcmp(payload + 66, own->nid, 7) == 0 && memcmp(payload + 74, own->nmk, 16) == 0,
            "the car's key is not the station's");
    require(line, 0, lahzavar_station_link_up(&own->station).indication == LAHZAVAR_LINK_ESTABLISHED, "one end has no link");
    line->validator.step = LINK;
    line->validations.matchings++;
}

/* What the car that validates does with a frame. */
static void give_validator(struct line *line, const uint8_t *octets, size_t length)
{
    struct validator *own = &line->validator;
    uint8_t frame[FRAME_MOST];
    unsigned type = is_address(octets, CAR, 0) ? frame_type(octets, length) : 0;
    if (type == CM_SLAC_PARM_CNF && own->step == PARAMETERS) {
        own->step = REPORTS;
        own->due = line->now + 100;
    } else if (type == CM_ATTEN_CHAR_IND) {
        own->others_reports += !is_address(octets + 6, STATION, 0);
        send_frame(line, 0, frame, write_rsp(frame, &own->car, octets + 6));
    } else if (type == CM_VALIDATE_CNF) {
        take_confirmation(line, octets);
    } else if (type == CM_SLAC_MATCH_CNF) {
        take_match(line, octets);
    }
}

/* It starts, or sends its next sound, or once all were sent a first validate request. */
static void next_frame(struct line *line)
{
    struct validator *own = &line->validator;
    uint8_t frame[FRAME_MOST];
    if (own->step == NOTHING) {
        own->step = PARAMETERS;
        own->due = line->now + PATIENCE;
        send_frame(line, 0, frame, write_parm_req(frame, &own->car));
    } else if (own->to_sound > 0) {
        own->to_sound--;
        own->due = line->now + (own->to_sound > 0 ? 40 : PATIENCE);
        send_frame(line, 0, frame,
                   own->to_sound == 10 ? write_start(frame, &own->car) : write_sound(frame, &own->car, own->to_sound));
    } else {
        unsigned other = own->others_reports > 0 && below(2) == 0;
        line->validations.unknown += own->others_reports == 0;
        line->validations.others_asked += other;
        ask_to_validate(line, other);
    }
}

/* Its pilot is that of its own bay. */
static void change_pilot(struct line *line)
{
    struct validator *own = &line->validator;
    struct bay *bay = &line->bays[line->crossed ? 1 : 0];
    enum lahzavar_pilot_state pilot = own->changes % 2 == 0 ? LAHZAVAR_PILOT_C : LAHZAVAR_PILOT_B;
    own->changes--;
    own->change_at += own->state_duration;
    check_refusal(line, 0, lahzavar_station_pilot(&bay->station, pilot, bay->station_clock + line->now).refusal);
}

/*
 * What is due of the car that validates. A station that another car joins says no more: only its own has to answer in time.
 */
static void validate(struct line *line)
{
    struct validator *own = &line->validator;
    if (own->changes > 0 && own->change_at == line->now) {
        change_pilot(line);
    }
    if (own->due != line->now) {
        return;
    }
    if (own->step == NOTHING || own->step == REPORTS) {
        next_frame(line);
    } else if (own->step != LINK) {
        require(line, 0, own->step > REPORTS && own->asked != 0, "the station does not answer");
        ask_to_validate(line, 0);
    }
}

static void give_station(struct line *line, unsigned bay, const uint8_t *octets, size_t length)
{
    uint8_t out[LAHZAVAR_LEAST_OUTPUT];
    obey_station(line, bay, lahzavar_station_frame(&line->bays[bay].station, octets, length, out, sizeof out), out);
}

static void give_car(struct line *line, unsigned bay, const uint8_t *octets, size_t length)
{
    uint8_t out[LAHZAVAR_CAR_LEAST_OUTPUT];
    if (bay == 0 && line->validator.step != NOTHING) {
        give_validator(line, octets, length);
        return;
    }
    if (has_sae_car(line, bay)) {
        give_sae_car(line, bay, octets, length);
        return;
    }
    obey_car(line, bay, lahzavar_car_frame(&line->bays[bay].car, octets, length, out, sizeof out), out);
}

/* A station's modem has measured a car's sound: the attenuation between both, in each group a little more. */
static void give_profile(struct line *line, unsigned bay, unsigned car)
{
    uint8_t modem[6], station[6], named[6], frame[FRAME_MOST];
    uint8_t *values = frame + FRAME_HEAD + 8;
    uint64_t chance = next_random();
    unsigned group, groups = is_sae(line, bay) ? line->bays[bay].groups : LAHZAVAR_GROUPS;
    size_t length;
    address_of(MODEM, bay, modem);
    address_of(STATION, bay, station);
    address_of(CAR, line->exchanged && car < 2 ? 1 - car : car, named);
    length = write_sae_profile(frame, modem, station, named, groups, line->bays[car].attenuation[bay]);
    for (group = 0; group < groups; group++) {
        values[group] = (uint8_t)(values[group] + (chance >> group & VARIATION));
    }
    give_station(line, bay, frame, length);
}

static int is_lost(const struct line *line)
{
    return line->scenario->lost > 0 && below(100) < line->scenario->lost;
}

/* A frame reaches everybody but its sender, beginning at any bay; a modem measures the sounds that reach it. */
static void deliver(struct line *line, const struct frame *frame)
{
    unsigned bays = line->scenario->bays, first = (unsigned)below(bays), turn;
    const uint8_t *from = frame->octets + 6;
    for (turn = 0; turn < bays; turn++) {
        unsigned bay = (first + turn) % bays;
        if (!is_address(from, STATION, bay) && !is_lost(line)) {
            give_station(line, bay, frame->octets, frame->length);
            if (frame_type(frame->octets, frame->length) == CM_MNBC_SOUND_IND) {
                give_profile(line, bay, from[5]);
            }
        }
        if (!is_address(from, CAR, bay) && !is_lost(line)) {
            give_car(line, bay, frame->octets, frame->length);
        }
    }
}

static void deliver_due(struct line *line)
{
    while (line->taken != line->put && line->queue[line->taken % QUEUE].due <= line->now) {
        deliver(line, &line->queue[line->taken % QUEUE]);
        line->taken++;
    }
}

/* Configures a station, with a new key. */
static void configure_station(struct line *line, unsigned bay)
{
    struct bay *own = &line->bays[bay];
    struct lahzavar_answer answer;
    uint8_t us[6], modem[6];
    address_of(STATION, bay, us);
    address_of(MODEM, bay, modem);
    fill(own->nid, 7);
    fill(own->nmk, 16);
    own->nid[6] &= 0x3F;
    answer = lahzavar_station_configure(&own->station, lahzavar_address(us), lahzavar_address(modem), lahzavar_nid(own->nid),
                                        own->nmk, is_sae(line, bay), own->edition, LAHZAVAR_CARRIERS);
    check_refusal(line, bay, answer.refusal);
}

static void configure_car(struct line *line, unsigned bay)
{
    uint8_t us[6];
    address_of(CAR, bay, us);
    check_refusal(line, bay, lahzavar_car_configure(&line->bays[bay].car, lahzavar_address(us), line->reference).refusal);
}

/* A station's pilot goes to B, with a new key. */
static void plug_in(struct line *line, unsigned bay)
{
    struct bay *own = &line->bays[bay];
    uint32_t reading = own->station_clock + line->now;
    own->plug_in_at = NEVER;
    configure_station(line, bay);
    check_refusal(line, bay, lahzavar_station_pilot(&own->station, LAHZAVAR_PILOT_B, reading).refusal);
}

/* A car starts, with a new RunID and new random octets. */
static void start(struct line *line, unsigned bay)
{
    struct bay *own = &line->bays[bay];
    uint8_t run[8], random[16], out[LAHZAVAR_CAR_LEAST_OUTPUT];
    uint32_t reading = own->car_clock + line->now;
    own->first_start = own->starts == 0 ? line->now : own->first_start;
    own->starts++;
    own->start_at = NEVER;
    line->tally.other_starts += !can_match(line, bay);
    if (has_sae_car(line, bay)) {
        send_frame(line, bay, out, sae_car_start(&own->sae, line->now, out));
        return;
    }
    fill(run, 8);
    fill(random, 16);
    obey_car(line, bay, lahzavar_car_start(&own->car, run, random, reading, out, sizeof out), out);
}

/* Whether a car and the station that it joins are matched. */
static int is_matched(const struct line *line, unsigned bay)
{
    const struct bay *own = &line->bays[bay];
    int joined = has_sae_car(line, bay) ? own->sae.step == SAE_JOINED : lahzavar_car_state(&own->car) == LAHZAVAR_CAR_MATCHED;
    return joined && lahzavar_station_state(&line->bays[own->joined].station) == LAHZAVAR_MATCHED;
}

/* The modems of a car and of its station have a link. */
static void link_up(struct line *line, unsigned bay)
{
    struct bay *own = &line->bays[bay];
    uint32_t car = has_sae_car(line, bay) ? LAHZAVAR_LINK_ESTABLISHED : lahzavar_car_link_up(&own->car).indication;
    uint32_t station = lahzavar_station_link_up(&line->bays[own->joined].station).indication;
    own->link_at = NEVER;
    require(line, bay, car == LAHZAVAR_LINK_ESTABLISHED && station == LAHZAVAR_LINK_ESTABLISHED, "one end has no link");
    require(line, bay, is_matched(line, bay), "one end is not matched");
    line->linked++;
}

static void do_what_is_due(struct line *line)
{
    unsigned bay;
    for (bay = 0; bay < line->scenario->bays; bay++) {
        if (line->bays[bay].plug_in_at == line->now) {
            plug_in(line, bay);
        }
        if (line->bays[bay].start_at == line->now) {
            start(line, bay);
        }
        if (line->bays[bay].link_at == line->now) {
            link_up(line, bay);
        }
    }
}

/* Ticks the ends in which times run. */
static void tick(struct line *line)
{
    uint8_t out[LAHZAVAR_LEAST_OUTPUT];
    unsigned bay;
    for (bay = 0; bay < line->scenario->bays; bay++) {
        struct bay *own = &line->bays[bay];
        uint32_t station = lahzavar_station_state(&own->station), station_reading = own->station_clock + line->now;
        uint32_t car = lahzavar_car_state(&own->car), car_reading = own->car_clock + line->now;
        if (station_reading % line->station_tick == 0 && (station == LAHZAVAR_MATCHING || station == LAHZAVAR_JOINING)) {
            obey_station(line, bay, lahzavar_station_tick(&own->station, station_reading, out, sizeof out), out);
        }
        if (car_reading % line->car_tick == 0 && car != LAHZAVAR_CAR_IDLE && car != LAHZAVAR_CAR_MATCHED) {
            obey_car(line, bay, lahzavar_car_tick(&own->car, car_reading, out, sizeof out), out);
        }
        turn_sae_car(line, bay);
    }
}

/* Whether each station hears fewer other cars from its plug-in to its own car's start than it has records. */
static int has_records_left(const struct line *line)
{
    unsigned bay, other;
    for (bay = 0; bay < line->scenario->bays; bay++) {
        const struct bay *own = &line->bays[bay];
        unsigned heard = 0;
        for (other = 0; other < line->scenario->bays; other++) {
            uint32_t at = line->bays[other].start_at;
            heard += other != bay && at + DELAY_MOST >= own->plug_in_at && at <= own->start_at;
        }
        if (heard >= LAHZAVAR_RECORDS) {
            return 0;
        }
    }
    return 1;
}

/* Draws when each car is plugged in and starts. */
static void draw_times(struct line *line)
{
    enum plugging plugging = line->scenario->plugging;
    unsigned group = plugging == IN_GROUPS ? LAHZAVAR_RECORDS : plugging == TOO_MANY ? LAHZAVAR_RECORDS + 1 : BAYS;
    unsigned window = between(2000, 20000), bay;
    for (bay = 0; bay < line->scenario->bays; bay++) {
        struct bay *own = &line->bays[bay];
        int apart = plugging == ONE_BY_ONE || plugging == AT_ANY_TIME;
        own->plug_in_at = apart ? between(0, window) : GROUP_PERIOD * (bay / group);
        own->start_at = own->plug_in_at + (apart ? between(100, 3000) : GROUP_START);
    }
}

/* Draws a clock's reading, every second one less than a minute before its wrap. */
static uint32_t draw_reading(void)
{
    return below(2) == 0 ? UINT32_MAX - between(0, 60000) : (uint32_t)next_random();
}

/* Draws a bay: the clocks, and how every station hears its car. */
static void draw_bay(struct line *line, unsigned bay)
{
    const struct scenario *scenario = line->scenario;
    struct bay *own = &line->bays[bay];
    unsigned station;
    memset(own, 0, sizeof *own);
    own->station_clock = draw_reading();
    own->car_clock = draw_reading();
    own->link_at = NEVER;
    for (station = 0; station < scenario->bays; station++) {
        const unsigned *range = station == bay ? scenario->own : scenario->others;
        own->attenuation[station] = (uint8_t)(line->reference + between(range[0], range[1]));
    }
    configure_station(line, bay);
    configure_car(line, bay);
}

/* Draws a run: the bays, with nothing plugged in yet, the line's delay and the times. */
static void draw(struct line *line)
{
    unsigned bay;
    line->put = line->taken = line->linked = line->now = 0;
    line->delay = between(0, DELAY_MOST);
    for (bay = 0; bay < line->scenario->bays; bay++) {
        draw_bay(line, bay);
    }
    do {
        draw_times(line);
    } while (line->scenario->plugging == ONE_BY_ONE && !has_records_left(line));
}

/* Runs until so many cars have a link, or the limit. */
static void run_until(struct line *line, unsigned linked)
{
    for (; line->linked < linked && line->now < LIMIT; line->now++) {
        do_what_is_due(line);
        tick(line);
        deliver_due(line);
    }
}

/* Runs until every car has a link that can; all these cars are matched then, unless any bay will do. */
static void run(struct line *line)
{
    unsigned bays = line->scenario->bays, bay;
    run_until(line, line->mixed ? bays - 2 : bays);
    for (bay = 0; bay < bays; bay++) {
        int matched = is_matched(line, bay);
        require(line, bay, matched || line->scenario->demand == ANY_BAY || !can_match(line, bay), "the car has not joined");
        line->tally.not_joined += !matched;
    }
}

static void print(const struct line *line)
{
    const struct tally *tally = &line->tally;
    printf("%s: %u matchings; %u to %u starts each, %u in all; %lu to %lu ms, %lu on average", line->title, tally->matchings,
           tally->starts_least, tally->starts_most, tally->starts, (unsigned long)tally->time_least,
           (unsigned long)tally->time_most, (unsigned long)(tally->time / tally->matchings));
    if (line->scenario->demand == ANY_BAY) {
        printf("; %u in a wrong bay, %u not joined", tally->wrong_bays, tally->not_joined);
    }
    if (line->mixed) {
        printf("; %u of SAE cars, %u of them in a later try; cars of the other edition started %u times in vain", tally->sae,
               tally->sae_later, tally->other_starts);
    }
    printf("\n");
    fflush(stdout);
}

/* Makes a line for a scenario; its title has the attenuations as they are measured. */
static void set_up(struct line *line, const struct scenario *scenario)
{
    static const char *const pluggings[] = {"in groups", "too many at once", "all at once", "one by one", "at any time"};
    static const struct tally nothing;
    line->scenario = scenario;
    line->tally = nothing;
    snprintf(line->title, sizeof line->title,
             "%u bays, own station up to %u and others from %u dB over the reference, %s, %u %% lost", scenario->bays,
             scenario->own[1] + VARIATION, scenario->others[0], pluggings[scenario->plugging], scenario->lost);
}

/* Runs a scenario with each seed, both references and, where every first start has to succeed, every pair of ticks. */
static void try_scenario(struct line *line, const struct scenario *scenario, uint64_t seeds, uint64_t seed)
{
    static const unsigned ticks[9][2] = {{5, 10}, {1, 1}, {1, 5}, {1, 10}, {5, 1}, {5, 5}, {10, 1}, {10, 5}, {10, 10}};
    unsigned pairs = scenario->demand == OWN_BAY_AT_FIRST_START ? 9 : 1, at;
    set_up(line, scenario);
    for (line->seed = seed; line->seed < seed + seeds; line->seed++) {
        for (at = 0; at < 2 * pairs; at++) {
            random_state = line->seed << 8 | at;
            line->reference = at % 2 == 0 ? 26 : 0;
            line->car_tick = ticks[at / 2][0];
            line->station_tick = ticks[at / 2][1];
            draw(line);
            run(line);
        }
    }
    print(line);
}

/* Draws a run with both editions; of the last two bays each has a car of the other one. */
static void draw_editions(struct line *line)
{
    unsigned bays = line->scenario->bays, bay;
    draw(line);
    for (bay = 0; bay < bays; bay++) {
        struct bay *own = &line->bays[bay];
        own->edition = bay % 2 == 0 ? LAHZAVAR_ISO : LAHZAVAR_SAE;
        own->car_edition = bay < bays - 2 ? own->edition : bay % 2 == 0 ? LAHZAVAR_SAE : LAHZAVAR_ISO;
        own->groups = between(1, LAHZAVAR_GROUPS);
        own->sae.limit = line->reference + SAE_LIMIT;
        address_of(CAR, bay, own->sae.car.address);
    }
}

/* Where nothing is lost and no station was of another try than the others, the first start of a car succeeds. */
static void check_first_starts(const struct line *line)
{
    unsigned bay;
    for (bay = 0; bay < line->scenario->bays; bay++) {
        const struct bay *own = &line->bays[bay];
        int may_fail = line->scenario->lost > 0 || own->sae.tries_differed || !can_match(line, bay);
        require(line, bay, own->starts == 1 || may_fail, "the car's first start fails");
    }
}

/* Runs a scenario with both editions with each seed, and with ticks up to the longest that an SAE station may have. */
static void try_editions(struct line *line, const struct scenario *scenario, uint64_t seeds, uint64_t seed)
{
    static const unsigned ticks[3] = {1, 5, 10};
    unsigned at;
    set_up(line, scenario);
    line->mixed = 1;
    snprintf(line->title, sizeof line->title, "%u bays of both editions, at two of them a car of the other, %u %% lost",
             scenario->bays, scenario->lost);
    for (line->seed = seed; line->seed < seed + seeds; line->seed++) {
        for (at = 0; at < 6; at++) {
            random_state = line->seed << 8 | at;
            line->reference = at % 2 == 0 ? 26 : 0;
            line->car_tick = 5;
            line->station_tick = ticks[at / 2];
            draw_editions(line);
            run(line);
            check_first_starts(line);
        }
    }
    print(line);
    line->mixed = 0;
}

/* Draws a run with a car that validates; the other one starts before, meanwhile or never. */
static void draw_validation(struct line *line)
{
    static const struct validator nobody;
    struct validator *own = &line->validator;
    struct bay *other = &line->bays[1];
    draw(line);
    line->bays[0].plug_in_at = between(0, 3000);
    line->bays[0].start_at = NEVER;
    other->plug_in_at = between(0, 3000);
    other->start_at = below(3) == 0 ? NEVER : other->plug_in_at + between(100, 8000);
    *own = nobody;
    own->due = line->bays[0].plug_in_at + between(100, 1000);
    own->to_sound = 11;
    address_of(CAR, 0, own->car.address);
    fill(own->car.run, 8);
}

static void run_validation(struct line *line)
{
    for (; line->validator.step != LINK && line->now < LIMIT; line->now++) {
        do_what_is_due(line);
        validate(line);
        tick(line);
        deliver_due(line);
    }
    require(line, 0, line->validator.step == LINK, "the car has not joined");
}

/* Runs the scenario with a car that validates with each seed, and with ticks up to the longest that a station may have. */
static void try_validation(struct line *line, uint64_t seeds, uint64_t seed)
{
    static const struct scenario scenario = {2, {1, 6}, {12, 40}, ONE_BY_ONE, 0, OWN_BAY_AT_FIRST_START};
    static const unsigned ticks[4] = {1, 5, 10, 100};
    const struct validations *came = &line->validations;
    unsigned at;
    set_up(line, &scenario);
    snprintf(line->title, sizeof line->title, "2 bays, the first one's car validates by up to %u toggles", TOGGLES_MOST);
    for (line->seed = seed; line->seed < seed + seeds; line->seed++) {
        for (at = 0; at < 32; at++) {
            random_state = line->seed << 8 | at;
            line->reference = at % 2 == 0 ? 26 : 0;
            line->car_tick = 5;
            line->station_tick = ticks[at / 2 % 4];
            draw_validation(line);
            run_validation(line);
        }
    }
    printf("%s: %u matchings, %u toggles; the other station did not know the car %u times, was asked first %u times and "
           "then counted none %u times\n",
           line->title, came->matchings, came->toggles, came->unknown, came->others_asked, came->others_counted_none);
    fflush(stdout);
}

int main(int count, char **arguments)
{
    static const struct scenario scenarios[] = {
        {10, {1, 6}, {12, 40}, IN_GROUPS, 0, OWN_BAY_AT_FIRST_START},
        {10, {1, 6}, {12, 40}, ONE_BY_ONE, 0, OWN_BAY_AT_FIRST_START},
        {BAYS, {1, 16}, {20, 40}, AT_ANY_TIME, 0, OWN_BAY},
        {BAYS, {1, 16}, {20, 40}, AT_ANY_TIME, 5, OWN_BAY},
        {BAYS, {1, 16}, {20, 40}, AT_ANY_TIME, 20, OWN_BAY},
        {BAYS, {1, 16}, {20, 40}, ALL_AT_ONCE, 0, OWN_BAY},
        {BAYS, {1, 16}, {20, 40}, ALL_AT_ONCE, 5, OWN_BAY},
        {BAYS, {1, 16}, {20, 40}, ALL_AT_ONCE, 20, OWN_BAY},
        {10, {1, 1}, {7, 12}, ONE_BY_ONE, 0, ANY_BAY},
        {10, {1, 1}, {7, 12}, ONE_BY_ONE, 5, ANY_BAY},
        {10, {1, 1}, {7, 12}, ONE_BY_ONE, 20, ANY_BAY},
        {BAYS, {1, 6}, {12, 40}, TOO_MANY, 0, ANY_BAY},
    };
    static const struct scenario mixed[] = {
        {10, {1, 16}, {20, 40}, AT_ANY_TIME, 0, OWN_BAY},
        {10, {1, 16}, {20, 40}, AT_ANY_TIME, 5, OWN_BAY},
        {10, {1, 16}, {20, 40}, AT_ANY_TIME, 20, OWN_BAY},
    };
    static struct line line;
    uint64_t seeds = count > 1 ? strtoull(arguments[1], NULL, 10) : 1;
    uint64_t seed = count > 2 ? strtoull(arguments[2], NULL, 10) : 1;
    size_t at, most = sizeof scenarios / sizeof *scenarios;
    line.exchanged = count > 3 && strcmp(arguments[3], "exchanged") == 0;
    line.crossed = count > 3 && strcmp(arguments[3], "crossed") == 0;
    for (at = 0; at < (line.exchanged ? 1 : line.crossed ? 0 : most) && seeds > 0; at++) {
        try_scenario(&line, &scenarios[at], seeds, seed);
    }
    for (at = 0; at < (line.exchanged || line.crossed ? 0 : sizeof mixed / sizeof *mixed) && seeds > 0; at++) {
        try_editions(&line, &mixed[at], seeds, seed);
    }
    if (!line.exchanged && seeds > 0) {
        try_validation(&line, seeds, seed);
    }
    return 0;
}
