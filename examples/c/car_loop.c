/*
 * A car's loop, in C99: at each turn it hands the clock's reading, the modem's frames and the modem's link to the car, and
 * does what the answers ask for. What it needs of the board is a function each. Here the board is simulated, with a station
 * of the library at the other end of the line, so that the example runs alone: the first start comes before the plug-in,
 * the second matching is cut short by a sleep of the board, the third one ends with a link.
 *
 * Where interrupts receive the frames, put a queue between them and the loop, as driver_loop.c does.
 */
#include "car_frames.h"
#include "lahzavar.h"

#include <stdio.h>

#define TICK 5u        /* milliseconds from one turn of the loop to the next, 5 at most */
#define PAUSE 1000u    /* milliseconds from a matching that failed to the next start */
#define STARTS_MOST 5u /* then the loop gives up: each start renews the car's records at other bays' stations */
#define REFERENCE 26u  /* dB: -50 dBm/Hz less the car's own level at its inlet */

/* A reading of a free-running millisecond clock that wraps at 2^32. */
static uint32_t board_clock(void);
/* Random octets that nobody can foretell: a real car has a hardware source for them, or asks its operating system. */
static void board_random(uint8_t *octets, size_t count);
/* The length of the modem's next frame, without its check sequence, or 0; a frame that does not fit is left out. */
static size_t board_receive(uint8_t frame[FRAME_MOST]);
static void board_send(const uint8_t *frame, size_t length);
/* Gives the car's own modem the network's NID and NMK, by CM_SET_KEY.REQ. */
static void board_set_key(const uint8_t nid[7], const uint8_t nmk[16]);
/* Whether the car's own modem has a link in that network. */
static int board_has_link(void);
/* Waits until the next turn. */
static void board_wait(void);

static struct lahzavar_car car;
static uint8_t output[LAHZAVAR_CAR_LEAST_OUTPUT];
static unsigned starts;    /* how many there were */
static uint32_t failed_at; /* the clock's reading when the last matching failed */

static const uint8_t our_address[6] = {2, 0, 0, 0, 0, 1};

/* What the charge controller is told: here a line of the log. */
static void tell(const char *what)
{
    fprintf(stderr, "start %u: %s\n", starts, what);
}

static void act_on(uint32_t indication)
{
    struct lahzavar_key key;
    switch (indication) {
    case LAHZAVAR_FOUND:
        tell("found");
        break;
    case LAHZAVAR_POTENTIALLY_FOUND:
        tell("potentially found");
        break;
    case LAHZAVAR_KEY_GIVEN:
        key = lahzavar_car_key(&car);
        board_set_key(key.nid, key.nmk);
        tell("key given");
        break;
    case LAHZAVAR_LINK_ESTABLISHED:
        tell("link established");
        break;
    case LAHZAVAR_NOT_FOUND:
    case LAHZAVAR_NO_LINK:
        failed_at = board_clock();
        tell(indication == LAHZAVAR_NO_LINK ? "no link" : "not found");
        break;
    default:
        break;
    }
}

/*
 * Sends the answer's frame and acts on its indication; a refused call has neither, and most frames of a line are refused,
 * since they are for others. A maker who wants validation on "potentially found" terminates, and does not send the frame.
 */
static void obey(struct lahzavar_answer answer)
{
    if (answer.frames != 0) {
        board_send(output, answer.octets);
    }
    act_on(answer.indication);
}

/* Starts a matching, each time with a new RunID and new random octets. */
static void start(uint32_t reading)
{
    uint8_t run[8], random[16];
    board_random(run, sizeof run);
    board_random(random, sizeof random);
    starts++;
    obey(lahzavar_car_start(&car, run, random, reading, output, sizeof output));
}

/*
 * The clock goes on. After a gap of more than 60 seconds it is not known what happened meanwhile, so that the matching ends;
 * every later tick would be refused too, until a start takes the clock's reading.
 */
static void handle_clock(uint32_t reading)
{
    struct lahzavar_answer answer = lahzavar_car_tick(&car, reading, output, sizeof output);
    obey(answer);
    if (answer.refusal == LAHZAVAR_TICK_GAP) {
        tell(lahzavar_refusal_text(answer.refusal));
        obey(lahzavar_car_terminate(&car));
    }
}

/* Whether times run in the car: from the start to the link. */
static int is_timed(void)
{
    uint32_t state = lahzavar_car_state(&car);
    return state != LAHZAVAR_CAR_IDLE && state != LAHZAVAR_CAR_MATCHED;
}

/* The loop's body: first the clock, so that frames happen at this turn's reading, then the frames and the link. */
static void turn(void)
{
    uint8_t frame[FRAME_MOST];
    uint32_t reading = board_clock();
    size_t length;
    if (is_timed()) {
        handle_clock(reading);
    } else if (lahzavar_car_state(&car) == LAHZAVAR_CAR_IDLE && (starts == 0 || reading - failed_at >= PAUSE)) {
        start(reading);
    }
    while ((length = board_receive(frame)) > 0) {
        obey(lahzavar_car_frame(&car, frame, length, output, sizeof output));
    }
    if (lahzavar_car_state(&car) == LAHZAVAR_CAR_JOINING && board_has_link()) {
        obey(lahzavar_car_link_up(&car));
    }
}

/* From plug-in to the link; 0 where every start has failed. Where the plug is pulled, terminate ends it as after a gap. */
static int join(void)
{
    while (lahzavar_car_state(&car) != LAHZAVAR_CAR_MATCHED && (is_timed() || starts < STARTS_MOST)) {
        turn();
        board_wait();
    }
    return lahzavar_car_state(&car) == LAHZAVAR_CAR_MATCHED;
}

/* From here on: the board and the line, which a real car has otherwise. */

#define WAITING 4u      /* frames between line and car, a power of two */
#define PLUG_IN 200u    /* the turn at which the station's pilot goes to B */
#define SLEEP 400u      /* the turn after which the board sleeps for 100 seconds */
#define ATTENUATION 32u /* dB, which is less than 10 over the reference */

static const uint8_t station_address[6] = {2, 0, 0, 0, 0, 0xAA};
static const uint8_t station_modem[6] = {2, 0, 0, 0, 0, 0xBB};
static const uint8_t network_id[7] = {1, 2, 3, 4, 5, 6, 7};
static const uint8_t network_key[16] = {'a', ' ', 'k', 'e', 'y', ' ', 'f', 'o', 'r', ' ', 't', 'e', 's', 't', 's', '.'};

static struct lahzavar_station station;
static uint8_t waiting[WAITING][FRAME_MOST];
static size_t lengths[WAITING];
static unsigned put, taken, turns;
static uint32_t now = 0xFFFFF000u; /* close to the clock's wrap */
static uint32_t random_number = 1;
static int has_key;

static uint32_t board_clock(void)
{
    return now;
}

/* The same numbers in each run, which would not do in a real car. */
static void board_random(uint8_t *octets, size_t count)
{
    size_t at;
    for (at = 0; at < count; at++) {
        random_number = random_number * 1664525u + 1013904223u;
        octets[at] = (uint8_t)(random_number >> 24);
    }
}

static size_t board_receive(uint8_t frame[FRAME_MOST])
{
    size_t length = put == taken ? 0 : lengths[taken % WAITING];
    if (length > 0) {
        memcpy(frame, waiting[taken++ % WAITING], length);
    }
    return length;
}

/* The station's frame, if it sends one, waits for the car. */
static void station_sends(struct lahzavar_answer answer, const uint8_t *out)
{
    if (answer.frames != 0 && put - taken < WAITING) {
        lengths[put % WAITING] = lahzavar_frame_octets(out, answer.octets);
        memcpy(waiting[put % WAITING], out, lengths[put % WAITING]);
        put++;
    }
}

/* The station hears the car's frame, and its modem measures each sound. */
static void board_send(const uint8_t *frame, size_t length)
{
    uint8_t profile[FRAME_MOST], out[LAHZAVAR_LEAST_OUTPUT];
    station_sends(lahzavar_station_frame(&station, frame, length, out, sizeof out), out);
    if (frame_type(frame, length) == CM_MNBC_SOUND_IND) {
        length = write_profile(profile, station_modem, station_address, our_address, ATTENUATION);
        station_sends(lahzavar_station_frame(&station, profile, length, out, sizeof out), out);
    }
}

static void board_set_key(const uint8_t nid[7], const uint8_t nmk[16])
{
    has_key = memcmp(nid, network_id, sizeof network_id) == 0 && memcmp(nmk, network_key, sizeof network_key) == 0;
}

/* Both modems have the link at once. */
static int board_has_link(void)
{
    return has_key && lahzavar_station_link_up(&station).indication == LAHZAVAR_LINK_ESTABLISHED;
}

/* Time passes at the station too, which begins anew after the gap. */
static void board_wait(void)
{
    uint8_t out[LAHZAVAR_LEAST_OUTPUT];
    struct lahzavar_answer answer;
    now += ++turns == SLEEP ? 100000u : TICK;
    answer = lahzavar_station_tick(&station, now, out, sizeof out);
    station_sends(answer, out);
    if (answer.refusal == LAHZAVAR_TICK_GAP) {
        (void)lahzavar_station_pilot(&station, LAHZAVAR_PILOT_A, now);
    }
    if (answer.refusal == LAHZAVAR_TICK_GAP || turns == PLUG_IN) {
        (void)lahzavar_station_pilot(&station, LAHZAVAR_PILOT_B, now);
    }
}

int main(void)
{
    int linked;
    if (!lahzavar_library_fits()) {
        fprintf(stderr, "the library is not the one that lahzavar.h describes\n");
        return 1;
    }
    (void)lahzavar_station_configure(&station, lahzavar_address(station_address), lahzavar_address(station_modem),
                                     lahzavar_nid(network_id), network_key, false, LAHZAVAR_ISO, LAHZAVAR_CARRIERS);
    (void)lahzavar_station_pilot(&station, LAHZAVAR_PILOT_A, now);
    if (lahzavar_car_configure(&car, lahzavar_address(our_address), REFERENCE).refusal != LAHZAVAR_ACCEPTED) {
        return 1;
    }
    linked = join() && lahzavar_station_state(&station) == LAHZAVAR_MATCHED;
    lahzavar_car_wipe(&car);
    lahzavar_station_wipe(&station);
    if (linked) {
        printf("link established\n");
    }
    return linked ? 0 : 1;
}
