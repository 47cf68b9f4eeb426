/*
 * The station on a raw Ethernet socket, with a stand-in for its modem, so that any other implementation of a car can be
 * tried on a veth pair. See usage() for the options.
 *
 * The stand-in is no modem: it measures nothing. It makes one CM_ATTEN_PROFILE.IND for each M-SOUND heard, with one value
 * in every group. It answers a CM_SET_KEY.REQ of the car, which has no modem of its own here, with the result that an
 * option gives and no nonce of its own. A key that is the station's NMK counts as a link, and so does a given time after
 * the CM_SLAC_MATCH.CNF.
 *
 * There is no control pilot either. It is at B from the start on, and changes by letters on standard input, as they are
 * typed, or by a file of timed lines.
 */
#define _GNU_SOURCE
#include "line.h"
#include "sae_frames.h"

#include <getopt.h>

#define TICK 10u
#define PAUSE 5000u
#define CHANGES 1000u

/* A pilot change of the file, so many milliseconds after the start. */
struct change {
    uint32_t at;
    enum lahzavar_pilot_state pilot;
};

static struct lahzavar_station station;
static uint8_t us[6];
static uint8_t modem[6] = {2, 0, 0, 0, 0, 0xBB};
static uint8_t nid[7] = {1, 2, 3, 4, 5, 6, 7};
static uint8_t nmk[16] = {0x4B, 0x4B, 0x4B, 0x4B, 0x4B, 0x4B, 0x4B, 0x4B, 0x4B, 0x4B, 0x4B, 0x4B, 0x4B, 0x4B, 0x4B, 0x4B};
static unsigned long attenuation = 20, groups = LAHZAVAR_GROUPS, link_after = 1000, key_result = 0;
static uint32_t carriers = LAHZAVAR_CARRIERS;
static int once = 0, station_given = 0, typing = 1;
static bool validation_not_required = false;
static enum lahzavar_edition edition = LAHZAVAR_ISO;
static struct change changes[CHANGES];
static size_t change_count, changed; /* how many there are, and how many of them have been made */
static uint32_t confirmed_at, ended_at;
static int ended;
static uint8_t output[LAHZAVAR_LEAST_OUTPUT];

static void usage(void)
{
    fprintf(stderr, "usage: tests/virtual_cable INTERFACE [OPTION..]\n"
                    "  --station ADDRESS   the station's address (the interface's)\n"
                    "  --modem ADDRESS     its modem's address (02:00:00:00:00:BB)\n"
                    "  --nid HEX           network ID, 14 digits, low octet first (01020304050607)\n"
                    "  --nmk HEX           network membership key, 32 digits (4B4B..)\n"
                    "  --attenuation N     the value in every group of a profile (20)\n"
                    "  --sae               the SAE edition, in place of the ISO one\n"
                    "  --groups N          the groups of a profile, 1 to 58; the ISO edition takes no others than 58 (58)\n"
                    "  --carriers N        our modem's carriers, which an amplitude map has to have, 1 to 1155 (1155)\n"
                    "  --link-after MS     link up so long after CM_SLAC_MATCH.CNF (1000)\n"
                    "  --key-result N      the result octet of CM_SET_KEY.CNF (0)\n"
                    "  --for-pev           what the program pev of open-plc-utils needs: --key-result 1\n"
                    "  --pilot-from FILE   pilot changes, one to a line: milliseconds since the start, a blank, and a\n"
                    "                      letter from A to F; # begins a comment\n"
                    "  --validation-not-required\n"
                    "                      answer so to every validate request\n"
                    "  --once              end with the first indication: 0 for link established, 1 for no link\n"
                    "The pilot is at B from the start on; a letter from A to F and Enter change it.\n"
                    "Without --once the plug is pulled 5 s after an indication and put in again.\n"
                    "tests/virtual_cable --car puts a car on the interface, and prints its own options.\n");
    exit(2);
}

static void send_frame(const uint8_t *frame, size_t length)
{
    unsigned type = frame_type(frame, length);
    line_send(frame, length);
    if (type == CM_SLAC_MATCH_CNF) {
        confirmed_at = line_clock();
    } else if (type == CM_VALIDATE_CNF) {
        log_validation(frame);
    }
}

/* Sends the answer's frames, and ends or notes the end where there is an indication. */
static void obey(struct lahzavar_answer answer)
{
    size_t at, length;
    for (at = 0; at < answer.octets; at += length) {
        length = lahzavar_frame_octets(output + at, answer.octets - at);
        send_frame(output + at, length);
    }
    if (answer.indication != LAHZAVAR_NO_INDICATION) {
        log_line(indication_text(answer.indication));
        if (once) {
            exit(answer.indication == LAHZAVAR_LINK_ESTABLISHED ? 0 : 1);
        }
        ended = 1;
        ended_at = line_clock();
    }
}

static void give(const uint8_t *frame, size_t length)
{
    struct lahzavar_answer answer = lahzavar_station_frame(&station, frame, length, output, sizeof output);
    log_received(frame, length);
    log_answer(answer);
    obey(answer);
}

static void link_up(void)
{
    if (lahzavar_station_state(&station) == LAHZAVAR_JOINING) {
        obey(lahzavar_station_link_up(&station));
    }
}

static void receive(const uint8_t *frame, size_t length)
{
    uint8_t profile[FRAME_MOST];
    unsigned type = frame_type(frame, length);
    if (type == CM_SET_KEY_REQ) {
        const uint8_t *asked = confirm_key(frame, length, modem, (unsigned)key_result);
        if (asked != NULL && memcmp(asked + 14, nid, 7) == 0 && memcmp(asked + 22, nmk, 16) == 0) {
            link_up();
        }
        return;
    }
    give(frame, length);
    if (type == CM_MNBC_SOUND_IND) {
        give(profile, write_sae_profile(profile, modem, us, frame + 6, (unsigned)groups, (unsigned)attenuation));
    }
}

static void plug_in(void)
{
    struct lahzavar_answer answer =
        lahzavar_station_configure(&station, lahzavar_address(us), lahzavar_address(modem), lahzavar_nid(nid), nmk,
                                   validation_not_required, edition, carriers);
    if (answer.refusal != LAHZAVAR_ACCEPTED) {
        fprintf(stderr, "bad configuration: two different unicast addresses, a NID below 2^54, and 1 to 1155 carriers\n");
        exit(2);
    }
    ended = 0;
    obey(lahzavar_station_pilot(&station, LAHZAVAR_PILOT_B, line_clock()));
    log_line("plugged in");
}

/* The pilot state that a letter stands for; 0 where it stands for none. */
static int read_pilot(char letter, enum lahzavar_pilot_state *pilot)
{
    static const char letters[] = "ABCDEFabcdef";
    const char *found = letter == '\0' ? NULL : strchr(letters, letter);
    *pilot = found == NULL ? LAHZAVAR_PILOT_A : (enum lahzavar_pilot_state)((found - letters) % 6);
    return found != NULL;
}

/* A plug-in here comes in place of the one that is due after a pause. */
static void change_pilot(enum lahzavar_pilot_state pilot)
{
    log_begin("the pilot is at ");
    printf("%c\n", "ABCDEF"[pilot]);
    obey(lahzavar_station_pilot(&station, pilot, line_clock()));
    if (lahzavar_station_state(&station) == LAHZAVAR_MATCHING) {
        ended = 0;
    }
}

/* What was typed since the last tick, until standard input ends; a terminal is read in the foreground alone. */
static void take_typed(void)
{
    struct pollfd ready = {STDIN_FILENO, POLLIN, 0};
    enum lahzavar_pilot_state pilot;
    char typed[64];
    ssize_t count, at;
    if (!typing || (isatty(STDIN_FILENO) && tcgetpgrp(STDIN_FILENO) != getpgrp()) || poll(&ready, 1, 0) <= 0) {
        return;
    }
    count = read(STDIN_FILENO, typed, sizeof typed);
    typing = count > 0;
    for (at = 0; at < count; at++) {
        if (read_pilot(typed[at], &pilot)) {
            change_pilot(pilot);
        } else if (typed[at] > ' ') {
            log_line("a pilot state is a letter from A to F");
        }
    }
}

/* The changes of the file that are due, in its order. */
static void take_timed(void)
{
    while (changed < change_count && changes[changed].at <= line_clock() - line_started) {
        change_pilot(changes[changed++].pilot);
    }
}

static void tick(void)
{
    struct lahzavar_answer answer;
    take_typed();
    take_timed();
    answer = lahzavar_station_tick(&station, line_clock(), output, sizeof output);
    obey(answer);
    if (answer.refusal != LAHZAVAR_ACCEPTED) { /* the program was stopped for too long */
        log_line(lahzavar_refusal_text(answer.refusal));
        plug_in();
    }
    if (lahzavar_station_state(&station) == LAHZAVAR_JOINING && line_clock() - confirmed_at >= link_after) {
        link_up();
    }
    if (ended && line_clock() - ended_at >= PAUSE) {
        plug_in();
    }
}

/* An option's octets. */
static void take_octets(uint8_t *octets, size_t count)
{
    if (!read_octets(optarg, octets, count)) {
        usage();
    }
}

/* Reads a line of the file: 1 for a change, 0 for a comment or nothing, -1 for anything else. */
static int read_change(const char *text, struct change *change)
{
    unsigned long at;
    char first, letter, rest = '#';
    if (sscanf(text, " %c", &first) != 1 || first == '#') {
        return 0;
    }
    if (sscanf(text, "%lu %c %c", &at, &letter, &rest) < 2 || rest != '#' || at > UINT32_MAX ||
        !read_pilot(letter, &change->pilot)) {
        return -1;
    }
    change->at = (uint32_t)at;
    return 1;
}

/* Reads the file of pilot changes; says on standard error what is wrong with it, and leaves with 2. */
static void read_changes(const char *name)
{
    FILE *file = fopen(name, "r");
    struct change change;
    char text[1024];
    unsigned number = 0;
    if (file == NULL) {
        perror(name);
        exit(2);
    }
    while (fgets(text, sizeof text, file) != NULL) {
        int found = read_change(text, &change);
        number++;
        if (found < 0 || (found > 0 && change_count == CHANGES)) {
            const char *why = found < 0 ? "not milliseconds, a blank and a letter from A to F" : "too many changes";
            fprintf(stderr, "%s, line %u: %s\n", name, number, why);
            exit(2);
        }
        if (found > 0) {
            changes[change_count++] = change;
        }
    }
    fclose(file);
}

static void read_groups(void)
{
    groups = strtoul(optarg, NULL, 10);
    if (groups == 0 || groups > LAHZAVAR_GROUPS) {
        usage();
    }
}

static void read_option(int option)
{
    switch (option) {
    case 's':
        take_octets(us, 6);
        station_given = 1;
        break;
    case 'm':
        take_octets(modem, 6);
        break;
    case 'i':
        take_octets(nid, 7);
        break;
    case 'k':
        take_octets(nmk, 16);
        break;
    case 'a':
        attenuation = strtoul(optarg, NULL, 10) & 0xFF;
        break;
    case 'l':
        link_after = strtoul(optarg, NULL, 10);
        break;
    case 'r':
        key_result = strtoul(optarg, NULL, 10) & 0xFF;
        break;
    case 'p': /* other results are failures to pev */
        key_result = 1;
        break;
    case 'f':
        read_changes(optarg);
        break;
    case 'n':
        validation_not_required = true;
        break;
    case 'e':
        edition = LAHZAVAR_SAE;
        break;
    case 'g':
        read_groups();
        break;
    case 'c':
        carriers = (uint32_t)strtoul(optarg, NULL, 10);
        break;
    case 'o':
        once = 1;
        break;
    default:
        usage();
    }
}

static const struct option long_options[] = {
    {"station", required_argument, NULL, 's'},     {"modem", required_argument, NULL, 'm'},
    {"nid", required_argument, NULL, 'i'},         {"nmk", required_argument, NULL, 'k'},
    {"attenuation", required_argument, NULL, 'a'}, {"link-after", required_argument, NULL, 'l'},
    {"key-result", required_argument, NULL, 'r'},  {"for-pev", no_argument, NULL, 'p'},
    {"pilot-from", required_argument, NULL, 'f'},  {"validation-not-required", no_argument, NULL, 'n'},
    {"sae", no_argument, NULL, 'e'},               {"groups", required_argument, NULL, 'g'},
    {"carriers", required_argument, NULL, 'c'},    {"once", no_argument, NULL, 'o'},
    {NULL, 0, NULL, 0}};

int main(int count, char **arguments)
{
    uint8_t own[6];
    int option;
    while ((option = getopt_long(count, arguments, "", long_options, NULL)) != -1) {
        read_option(option);
    }
    if (optind + 1 != count) {
        usage();
    }
    line_open(arguments[optind], own);
    if (!station_given) {
        memcpy(us, own, 6);
    }
    plug_in();
    line_run(receive, tick, TICK);
    return 0;
}
