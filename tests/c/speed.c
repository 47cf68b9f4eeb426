/*
 * The library's side of the speed measurement; tests/speed_reference has the other.
 *
 *   speed check INPUT    the number of each refusal, and a sum over all answers and frames
 *   speed time INPUT     nanoseconds for a frame, over the whole input
 *   speed frames INPUT   the frames once, to count instructions in run_frames
 *   speed tick           nanoseconds of a tick that reports to every car: median and longest of 1001
 *   speed one-tick       that tick once, to count instructions in run_tick
 *   speed size           octets of a station
 *
 * With one more word, `sae`, the station is of the SAE edition, as the input then has to be; without it, of the ISO one.
 */
#define _POSIX_C_SOURCE 200809L
#include "lahzavar.h"
#include "sae_frames.h"

#include <stdio.h>
#include <stdlib.h>
#include <time.h>

#define TICKS 1001

static const uint8_t us[6] = {2, 0, 0, 0, 0, 0xAA};
static const uint8_t modem[6] = {2, 0, 0, 0, 0, 0xBB};
static const uint8_t nid[7] = {1, 2, 3, 4, 5, 6, 7};
static const uint8_t nmk[16] = {0x4B};
static struct lahzavar_station station;
static enum lahzavar_edition edition = LAHZAVAR_ISO;
static uint8_t out[LAHZAVAR_LEAST_OUTPUT];
static uint8_t *input;
static size_t input_length;
static unsigned long refusals[LAHZAVAR_LAST_REFUSAL + 1];

/* Not inlined, so that their instructions can be counted by their names. */
void run_frames(void) __attribute__((noinline));
void run_tick(uint32_t reading) __attribute__((noinline));

static void plug_in(void)
{
    (void)lahzavar_station_configure(&station, lahzavar_address(us), lahzavar_address(modem), lahzavar_nid(nid), nmk, false,
                                     edition, LAHZAVAR_CARRIERS);
    (void)lahzavar_station_pilot(&station, LAHZAVAR_PILOT_B, 0);
}

/* The end of our car's matching, and the next plug-in. */
static void plug_in_again(void)
{
    (void)lahzavar_station_link_up(&station);
    (void)lahzavar_station_pilot(&station, LAHZAVAR_PILOT_A, 0);
    (void)lahzavar_station_pilot(&station, LAHZAVAR_PILOT_B, 0);
}

/* The next frame of the input from `at`, or NULL at its end; plugs in again where our car's matching ends. */
static inline const uint8_t *next_frame(size_t *at, size_t *length)
{
    while (*at + 2 <= input_length) {
        const uint8_t *frame = input + *at + 2;
        *length = (size_t)frame[-2] | (size_t)frame[-1] << 8;
        *at += 2 + *length;
        if (*length != 0) {
            return frame;
        }
        plug_in_again();
    }
    return NULL;
}

/* All frames, and nothing else that takes time. */
void run_frames(void)
{
    const uint8_t *frame;
    size_t at = 0, length;
    while ((frame = next_frame(&at, &length)) != NULL) {
        (void)lahzavar_station_frame(&station, frame, length, out, sizeof out);
    }
}

static uint64_t mixed(uint64_t sum, uint64_t value)
{
    return (sum ^ value) * 0x100000001B3u;
}

/* All frames once: how often each refusal comes, and a sum that the other side must give too. */
static void check(void)
{
    uint64_t sum = 0xCBF29CE484222325u;
    const uint8_t *frame;
    size_t at = 0, length, octet, number;
    while ((frame = next_frame(&at, &length)) != NULL) {
        struct lahzavar_answer answer = lahzavar_station_frame(&station, frame, length, out, sizeof out);
        refusals[answer.refusal]++;
        sum = mixed(mixed(sum, answer.refusal), answer.octets);
        for (octet = 0; octet < answer.octets; octet++) {
            sum = mixed(sum, out[octet]);
        }
    }
    printf("sum %016llx\n", (unsigned long long)sum);
    for (number = 0; number <= LAHZAVAR_LAST_REFUSAL; number++) {
        if (refusals[number] > 0) {
            printf("%lu %lu\n", (unsigned long)number, refusals[number]);
        }
    }
}

static size_t count_frames(void)
{
    size_t at = 0, length, frames = 0;
    while (next_frame(&at, &length) != NULL) {
        frames++;
    }
    return frames;
}

static uint64_t clock_now(void)
{
    struct timespec now;
    clock_gettime(CLOCK_MONOTONIC, &now);
    return (uint64_t)now.tv_sec * 1000000000u + (uint64_t)now.tv_nsec;
}

/* Once before, once to measure. */
static void measure_frames(void)
{
    uint64_t start;
    size_t frames = count_frames();
    run_frames();
    plug_in();
    start = clock_now();
    run_frames();
    printf("%.2f\n", (double)(clock_now() - start) / (double)frames);
}

/* A station with every record held, one profile less counted in each than close it: nine, or in a first try of SAE seven. */
static void hold_all_records(void)
{
    uint8_t frame[FRAME_MOST];
    unsigned car, profile, profiles = edition == LAHZAVAR_SAE ? 7 : 9;
    plug_in();
    for (car = 1; car <= LAHZAVAR_RECORDS; car++) {
        struct car one = {{2, 0, 0, 0, 0, (uint8_t)car}, {(uint8_t)car}};
        size_t start;
        (void)lahzavar_station_frame(&station, frame, write_parm_req(frame, &one), out, sizeof out);
        start = edition == LAHZAVAR_SAE ? write_sae_start(frame, &one, first_try) : write_start(frame, &one);
        (void)lahzavar_station_frame(&station, frame, start, out, sizeof out);
        for (profile = 0; profile < profiles; profile++) {
            size_t length = write_profile(frame, modem, us, one.address, 200 + profile);
            (void)lahzavar_station_frame(&station, frame, length, out, sizeof out);
        }
    }
}

void run_tick(uint32_t reading)
{
    (void)lahzavar_station_tick(&station, reading, out, sizeof out);
}

static int by_size(const void *one, const void *other)
{
    uint64_t a = *(const uint64_t *)one, b = *(const uint64_t *)other;
    return (a > b) - (a < b);
}

static void measure_tick(void)
{
    static uint64_t times[TICKS];
    struct lahzavar_station full;
    size_t at;
    hold_all_records();
    full = station;
    for (at = 0; at < TICKS; at++) {
        uint64_t start;
        station = full;
        start = clock_now();
        run_tick(600);
        times[at] = clock_now() - start;
    }
    qsort(times, TICKS, sizeof *times, by_size);
    printf("%lu %lu\n", (unsigned long)times[TICKS / 2], (unsigned long)times[TICKS - 1]);
}

static int read_input(const char *name)
{
    FILE *file = fopen(name, "rb");
    size_t room = 1 << 20, got;
    input = malloc(room);
    while (file != NULL && input != NULL && (got = fread(input + input_length, 1, room - input_length, file)) > 0) {
        input_length += got;
        if (input_length == room) {
            room *= 2;
            input = realloc(input, room);
        }
    }
    return file != NULL && input != NULL && input_length > 0;
}

int main(int count, char **arguments)
{
    const char *what = count > 1 ? arguments[1] : "";
    if (count > 2 && strcmp(arguments[count - 1], "sae") == 0) {
        edition = LAHZAVAR_SAE;
        count--;
    }
    plug_in();
    if (count > 2 && !read_input(arguments[2])) {
        fprintf(stderr, "no input in %s\n", arguments[2]);
        return 1;
    }
    if (strcmp(what, "check") == 0) {
        check();
    } else if (strcmp(what, "time") == 0) {
        measure_frames();
    } else if (strcmp(what, "frames") == 0) {
        run_frames();
    } else if (strcmp(what, "tick") == 0) {
        measure_tick();
    } else if (strcmp(what, "one-tick") == 0) {
        hold_all_records();
        run_tick(600);
    } else if (strcmp(what, "size") == 0) {
        printf("%lu\n", (unsigned long)sizeof station);
    } else {
        return 2;
    }
    return 0;
}
