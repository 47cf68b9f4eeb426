/*
 * What a car's driver sets aside: the octets of a car and of the least output, and the stack that each call takes. One line
 * to a figure: its name, a tab, octets.
 *
 * The calls are those of one matching with as many reports as are kept, and the ways in which one ends early; each must be
 * accepted.
 */
#define _GNU_SOURCE
#include "stack.h"
#include "station_frames.h"

static const struct car us = {{2, 0, 0, 0, 0, 1}, {7, 7, 7, 7, 7, 7, 7, 7}};
static const uint8_t random_value[16] = {0x5A, 0xA5};
static const uint8_t nid[7] = {1, 2, 3, 4, 5, 6, 7};
static const uint8_t nmk[16] = {0x4B};

static struct lahzavar_car car;
static uint8_t out[LAHZAVAR_CAR_LEAST_OUTPUT];
static uint8_t frame[FRAME_MOST];
static size_t length;
static uint32_t reading;
static struct lahzavar_key key;
static volatile uint32_t number;

static void call_configure(void)
{
    answer = lahzavar_car_configure(&car, lahzavar_address(us.address), 26);
}

static void call_start(void)
{
    answer = lahzavar_car_start(&car, us.run, random_value, reading, out, sizeof out);
}

static void call_frame(void)
{
    answer = lahzavar_car_frame(&car, frame, length, out, sizeof out);
}

static void call_tick(void)
{
    answer = lahzavar_car_tick(&car, reading, out, sizeof out);
}

static void call_terminate(void)
{
    answer = lahzavar_car_terminate(&car);
}

static void call_link_up(void)
{
    answer = lahzavar_car_link_up(&car);
}

static void call_key(void)
{
    key = lahzavar_car_key(&car);
    answer.refusal = key.refusal;
}

static void call_state(void)
{
    number = lahzavar_car_state(&car);
}

static void call_wipe(void)
{
    lahzavar_car_wipe(&car);
}

enum call { CONFIGURE, START, FRAME, TICK, CHOICE, TERMINATE, LINK_UP, KEY, STATE, WIPE, CALLS };

static struct figure figures[CALLS] = {
    {"lahzavar_car_configure", call_configure, 0},
    {"lahzavar_car_start", call_start, 0},
    {"lahzavar_car_frame", call_frame, 0},
    {"lahzavar_car_tick, the choice aside", call_tick, 0},
    {"lahzavar_car_tick, the choice", call_tick, 0},
    {"lahzavar_car_terminate", call_terminate, 0},
    {"lahzavar_car_link_up", call_link_up, 0},
    {"lahzavar_car_key", call_key, 0},
    {"lahzavar_car_state", call_state, 0},
    {"lahzavar_car_wipe", call_wipe, 0},
};

static const uint8_t *station(unsigned place)
{
    static uint8_t address[6] = {2, 0, 0, 0, 1, 0};
    address[5] = (uint8_t)place;
    return address;
}

static void measure_frame(size_t octets, uint32_t frames)
{
    length = octets;
    measure(&figures[FRAME]);
    has_frames(&figures[FRAME], frames);
}

/* A tick so many milliseconds after the last one. */
static void measure_tick(enum call call, uint32_t time, uint32_t frames)
{
    reading += time;
    measure(&figures[call]);
    has_frames(&figures[call], frames);
}

/* The end of a state without an answer: two retries and "no link"; the car is then as before. */
static void measure_retries(void)
{
    struct lahzavar_car before = car;
    uint32_t start = reading;
    measure_tick(TICK, 200, 1);
    measure_tick(TICK, 200, 1);
    measure_tick(TICK, 200, 0);
    car = before;
    reading = start;
}

/* The 13 frames, each after a tick with none. */
static void measure_sounding(void)
{
    unsigned left;
    measure_tick(TICK, 99, 0);
    measure_tick(TICK, 1, 1);
    for (left = 12; left > 0; left--) {
        measure_tick(TICK, 39, 0);
        measure_tick(TICK, 1, 1);
    }
}

/* Reports of as many stations as are kept, each twice; the last station is the nearest. */
static void measure_reports(unsigned value)
{
    unsigned place;
    for (place = 1; place <= LAHZAVAR_STATIONS; place++) {
        unsigned total = value * LAHZAVAR_GROUPS - place;
        measure_frame(write_report(frame, &us, station(place), 10, total), 1);
        measure_frame(write_report(frame, &us, station(place), 10, total), 1);
    }
}

/* The choice among reports with about this value in every group, which asks a station or none. */
static void measure_choice(unsigned value, uint32_t frames)
{
    struct lahzavar_car before = car;
    uint32_t start = reading;
    measure_reports(value);
    measure_tick(CHOICE, 720, frames);
    car = before;
    reading = start;
}

/* From the start to the choice: no report, one not found, one potentially found, and one found. */
static void measure_until_choice(void)
{
    measure(&figures[START]);
    measure_retries();
    measure_frame(write_parm_cnf(frame, &us, station(1)), 0);
    measure_frame(write_parm_cnf(frame, &us, station(2)), 0);
    measure_sounding();
    measure_aside(&figures[TERMINATE]);
    reading += 720;
    measure_aside(&figures[CHOICE]);
    reading -= 720;
    measure_choice(255, 0);
    measure_choice(26 + 15, 1);
    measure_reports(26 + 5);
    measure_tick(CHOICE, 720, 1);
}

/* From the choice to the link, and the end of each state. */
static void measure_joining(void)
{
    measure_retries();
    measure_frame(write_report(frame, &us, station(LAHZAVAR_STATIONS), 10, 0), 1);
    measure_aside(&figures[TERMINATE]);
    measure_frame(write_match_cnf(frame, &us, station(LAHZAVAR_STATIONS), nid, nmk), 0);
    measure(&figures[KEY]);
    measure_aside(&figures[TERMINATE]);
    reading += 12000;
    measure_aside(&figures[TICK]);
    measure(&figures[LINK_UP]);
    measure(&figures[KEY]);
    measure(&figures[STATE]);
    measure(&figures[TICK]);
    measure_aside(&figures[TERMINATE]);
}

int main(void)
{
    state = &car;
    state_octets = sizeof car;
    measure(&figures[CONFIGURE]);
    measure_until_choice();
    measure_joining();
    measure(&figures[WIPE]);
    printf("a car\t%lu\n", (unsigned long)sizeof car);
    printf("a car's least output\t%lu\n", (unsigned long)sizeof out);
    print_figures(figures, CALLS);
    return 0;
}
