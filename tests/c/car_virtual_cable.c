/*
 * The car on a raw Ethernet socket, so that any other implementation of a station can be tried on a veth pair. See usage()
 * for the options.
 *
 * The library's car does not validate. With an option this program does it in its place: it keeps the car's match request
 * back, writes the validate requests itself, and lets the car's clock stand until the station has confirmed; the car then
 * sends its request again. The control pilot is changed by whoever runs the station.
 *
 * There is no modem: a key that was given counts as a link after a given time. A station under test may lack its modem too.
 * Options have this program stand in for it: it then sends the station one CM_ATTEN_PROFILE.IND for each M-SOUND, with one
 * value in every group, and answers its CM_SET_KEY.REQ.
 */
#define _GNU_SOURCE
#include "line.h"

#include <getopt.h>
#include <sys/random.h>

#define TICK 2u /* ms; a car asks for 5 or less, and a turn may come late */
#define PAUSE 1000u
#define NONE 256ul
#define PATIENCE 500u /* ms, from when a CM_VALIDATE.CNF is due */
#define NEAR 5ul /* dB, found with any reference */

/* A validation: the station has not confirmed the first request, or counts. */
enum validation { NO_VALIDATION, ASKED, COUNTING };

/* The results of CM_VALIDATE.CNF that a validation goes on with. */
enum result { READY = 1, SUCCESS = 2, NOT_REQUIRED = 4 };

static struct lahzavar_car car;
static uint8_t us[6];
static uint8_t modem[6] = {2, 0, 0, 0, 0, 0xBB};
static unsigned long reference = 0, link_after = 1000, attenuation = NONE, key_result = NONE, window = NONE;
static enum validation validation;
static uint8_t chosen[6];         /* the station that validates */
static uint32_t confirmation_due; /* when it has to have answered */
static int once = 0, address_given = 0, cut_reports = 0;
static uint8_t output[LAHZAVAR_CAR_LEAST_OUTPUT];
static uint8_t confirmed_by[6]; /* the station that sent the last CM_SLAC_PARM.CNF */
static uint32_t key_given_at, ended_at;
static int ended;

static void usage(void)
{
    fprintf(stderr, "usage: tests/virtual_cable --car INTERFACE [OPTION..]\n"
                    "  --address ADDRESS   the car's address (the interface's)\n"
                    "  --reference N       the attenuation that the car takes as its zero, in dB (0)\n"
                    "  --link-after MS     link up so long after the key was given (1000)\n"
                    "  --validate N        before the match, ask for a validation of N + 1 times 100 ms\n"
                    "  --once              end with link established (0), no link (1) or not found (1)\n"
                    "In place of the station's modem, where it has none:\n"
                    "  --modem ADDRESS     its address (02:00:00:00:00:BB)\n"
                    "  --attenuation N     send a CM_ATTEN_PROFILE.IND for each M-SOUND, with N in every group\n"
                    "  --key-result N      answer a CM_SET_KEY.REQ by a CM_SET_KEY.CNF with this result\n"
                    "  --for-evse          what the program evse of open-plc-utils needs: --attenuation 5,\n"
                    "                      --key-result 1, and its CM_ATTEN_CHAR.IND of 326 octets cut to 129\n"
                    "Without --once the car starts again 1 s after a failure, with a new RunID.\n");
    exit(2);
}

/* What the station's modem says of the sound that was sent. */
static void send_profile(void)
{
    uint8_t profile[FRAME_MOST];
    line_send(profile, write_profile(profile, modem, confirmed_by, us, (unsigned)attenuation));
}

/* The station that the CM_SLAC_MATCH.REQ in the output goes to. */
static void log_choice(void)
{
    log_begin("the choice: ");
    log_octets(output, 6);
    printf("\n");
}

/* The network of the key, and not the key itself. */
static void log_key(void)
{
    struct lahzavar_key key = lahzavar_car_key(&car);
    log_begin("the NID of ");
    log_octets(key.station, 6);
    printf(": ");
    log_octets(key.nid, 7);
    printf("\n");
}

static void end(int status)
{
    if (once) {
        exit(status);
    }
    ended = status;
    ended_at = line_clock();
}

static void indicate(uint32_t indication)
{
    log_line(indication_text(indication));
    switch (indication) {
    case LAHZAVAR_FOUND:
    case LAHZAVAR_POTENTIALLY_FOUND:
        log_choice();
        break;
    case LAHZAVAR_KEY_GIVEN:
        log_key();
        key_given_at = line_clock();
        break;
    case LAHZAVAR_LINK_ESTABLISHED:
        end(0);
        break;
    default:
        end(1);
        break;
    }
}

/* Sends a validate request, the first to the station that was chosen and the second to all. */
static void send_validate_req(enum validation next)
{
    uint8_t frame[FRAME_MOST];
    struct car as = {{0}, {0}};
    int first = next == ASKED;
    memcpy(as.address, us, 6);
    line_send(frame, write_validate_req(frame, &as, first ? chosen : broadcast_address, first ? 0 : (unsigned)window));
    validation = next;
    confirmation_due = line_clock() + PATIENCE + (first ? 0 : 100u * ((uint32_t)window + 1u));
}

/* Says the indication, and sends the answer's frame, or where the car has chosen a validate request in its place. */
static void obey(struct lahzavar_answer answer)
{
    int choice = answer.indication == LAHZAVAR_FOUND || answer.indication == LAHZAVAR_POTENTIALLY_FOUND;
    if (answer.indication != LAHZAVAR_NO_INDICATION) {
        indicate(answer.indication);
    }
    if (choice && window != NONE) {
        memcpy(chosen, output, 6);
        send_validate_req(ASKED);
        return;
    }
    if (answer.frames != 0) {
        line_send(output, answer.octets);
    }
    if (frame_type(output, answer.octets) == CM_MNBC_SOUND_IND && attenuation != NONE) {
        send_profile();
    }
}

/* A report's station, how many sounds it used, and the sum of its group values. */
static void log_report(const uint8_t *frame)
{
    unsigned group, total = 0;
    for (group = 0; group < LAHZAVAR_GROUPS; group++) {
        total += frame[FRAME_HEAD + 52 + group];
    }
    log_begin("the report of ");
    log_octets(frame + 6, 6);
    printf(": %u sounds, total %u\n", frame[FRAME_HEAD + 50], total);
}

/* Ends a validation; where it has failed, the matching too. */
static void end_validation(const char *why)
{
    validation = NO_VALIDATION;
    if (why != NULL) {
        log_line(why);
        obey(lahzavar_car_terminate(&car));
    }
}

/* What the station says of the validation. Any number of toggles will do: the pilot is not ours. */
static void take_confirmation(const uint8_t *frame, size_t length)
{
    unsigned result = frame[FRAME_HEAD + 2];
    log_received(frame, length);
    printf("\n");
    log_validation(frame);
    if (validation == ASKED && result == READY) {
        send_validate_req(COUNTING);
    } else {
        int done = result == (validation == ASKED ? NOT_REQUIRED : SUCCESS);
        end_validation(done ? NULL : "the validation has failed");
    }
}

static int is_confirmation(const uint8_t *frame, size_t length)
{
    return validation != NO_VALIDATION && frame_type(frame, length) == CM_VALIDATE_CNF && length >= FRAME_HEAD + 3 &&
           memcmp(frame, us, 6) == 0 && memcmp(frame + 6, chosen, 6) == 0;
}

static void receive(const uint8_t *frame, size_t length)
{
    struct lahzavar_answer answer;
    unsigned type = frame_type(frame, length);
    if (is_confirmation(frame, length)) {
        take_confirmation(frame, length);
        return;
    }
    if (type == CM_SET_KEY_REQ && key_result != NONE) {
        (void)confirm_key(frame, length, modem, (unsigned)key_result);
        return;
    }
    if (type == CM_ATTEN_CHAR_IND && cut_reports && length > LAHZAVAR_REPORT_OCTETS) {
        length = LAHZAVAR_REPORT_OCTETS;
    }
    answer = lahzavar_car_frame(&car, frame, length, output, sizeof output);
    log_received(frame, length);
    log_answer(answer);
    if (type == CM_ATTEN_CHAR_IND && length >= LAHZAVAR_REPORT_OCTETS) {
        log_report(frame);
    }
    if (type == CM_SLAC_PARM_CNF && answer.refusal == LAHZAVAR_ACCEPTED) {
        memcpy(confirmed_by, frame + 6, 6);
    }
    obey(answer);
}

static void configure(void)
{
    uint32_t number = reference > 255 ? 256 : (uint32_t)reference;
    if (lahzavar_car_configure(&car, lahzavar_address(us), number).refusal != LAHZAVAR_ACCEPTED) {
        fprintf(stderr, "bad configuration: a unicast address, and a reference up to 255\n");
        exit(2);
    }
}

/* A matching with a new RunID and random value. */
static void start(void)
{
    uint8_t fresh[24];
    if (getrandom(fresh, sizeof fresh, 0) != (ssize_t)sizeof fresh) {
        perror("getrandom");
        exit(2);
    }
    ended = 0;
    log_begin("start with RunID ");
    log_octets(fresh, 8);
    printf("\n");
    obey(lahzavar_car_start(&car, fresh, fresh + 8, line_clock(), output, sizeof output));
}

static void tick_car(void)
{
    struct lahzavar_answer answer = lahzavar_car_tick(&car, line_clock(), output, sizeof output);
    uint32_t state = lahzavar_car_state(&car);
    obey(answer);
    if (answer.refusal != LAHZAVAR_ACCEPTED && state != LAHZAVAR_CAR_IDLE && state != LAHZAVAR_CAR_MATCHED) {
        log_line(lahzavar_refusal_text(answer.refusal)); /* the program was stopped for too long */
        obey(lahzavar_car_terminate(&car));
    }
    if (state == LAHZAVAR_CAR_JOINING && line_clock() - key_given_at >= link_after) {
        obey(lahzavar_car_link_up(&car));
    }
    if (ended && line_clock() - ended_at >= PAUSE) {
        start();
    }
}

/* The car's clock stands while the station validates. */
static void tick(void)
{
    if (validation == NO_VALIDATION) {
        tick_car();
    } else if ((int32_t)(line_clock() - confirmation_due) >= 0) {
        end_validation("the station does not confirm the validation");
    }
}

/* An option's octets. */
static void take_octets(uint8_t *octets, size_t count)
{
    if (!read_octets(optarg, octets, count)) {
        usage();
    }
}

/* It takes no other result than 1, and sends its reports with room for 255 groups. */
static void read_for_evse(void)
{
    attenuation = attenuation == NONE ? NEAR : attenuation;
    key_result = 1;
    cut_reports = 1;
}

static void read_option(int option)
{
    switch (option) {
    case 'a':
        take_octets(us, 6);
        address_given = 1;
        break;
    case 'm':
        take_octets(modem, 6);
        break;
    case 'f':
        reference = strtoul(optarg, NULL, 10);
        break;
    case 'l':
        link_after = strtoul(optarg, NULL, 10);
        break;
    case 'n':
        attenuation = strtoul(optarg, NULL, 10) & 0xFF;
        break;
    case 'r':
        key_result = strtoul(optarg, NULL, 10) & 0xFF;
        break;
    case 'v':
        window = strtoul(optarg, NULL, 10) & 0xFF;
        break;
    case 'e':
        read_for_evse();
        break;
    case 'o':
        once = 1;
        break;
    default:
        usage();
    }
}

static const struct option long_options[] = {
    {"address", required_argument, NULL, 'a'},     {"reference", required_argument, NULL, 'f'},
    {"link-after", required_argument, NULL, 'l'},  {"modem", required_argument, NULL, 'm'},
    {"attenuation", required_argument, NULL, 'n'}, {"key-result", required_argument, NULL, 'r'},
    {"for-evse", no_argument, NULL, 'e'},          {"validate", required_argument, NULL, 'v'},
    {"once", no_argument, NULL, 'o'},              {NULL, 0, NULL, 0}};

int main(int count, char **arguments)
{
    uint8_t own[6];
    int option;
    while ((option = getopt_long(count, arguments, "", long_options, NULL)) != -1) {
        read_option(option);
    }
    if (optind + 1 != count) {
        usage();
    }
    line_open(arguments[optind], own);
    if (!address_given) {
        memcpy(us, own, 6);
    }
    configure();
    start();
    line_run(receive, tick, TICK);
    return 0;
}
