/*
 * What a station's driver sets aside: the octets of a station and of the least output, and the stack that each call takes.
 * One line to a figure: its name, a tab, octets.
 *
 * The calls are those of one matching in each edition with every record held, each of which must be accepted, so that the
 * long ways are gone. A figure is the greater one of both editions. The calls for amplitude maps have the most carriers.
 */
#define _GNU_SOURCE
#include "sae_frames.h"
#include "stack.h"

static const uint8_t us[6] = {2, 0, 0, 0, 0, 0xAA};
static const uint8_t modem[6] = {2, 0, 0, 0, 0, 0xBB};
static const uint8_t nid[7] = {1, 2, 3, 4, 5, 6, 7};
static const uint8_t nmk[16] = {0x4B};

static struct lahzavar_station station;
static enum lahzavar_edition edition;
static uint8_t out[LAHZAVAR_LEAST_OUTPUT];
static uint8_t least[LAHZAVAR_GROUPS], greatest[LAHZAVAR_GROUPS];
static uint8_t values[LAHZAVAR_CARRIERS];
static int16_t levels[LAHZAVAR_CARRIERS];
static uint8_t frame[FRAME_MOST];
static size_t length;
static uint32_t reading;
static enum lahzavar_pilot_state pilot;
static volatile uint32_t number;

static void call_configure(void)
{
    answer = lahzavar_station_configure(&station, lahzavar_address(us), lahzavar_address(modem), lahzavar_nid(nid), nmk,
                                        false, edition, LAHZAVAR_CARRIERS);
}

static void call_frame(void)
{
    answer = lahzavar_station_frame(&station, frame, length, out, sizeof out);
}

static void call_tick(void)
{
    answer = lahzavar_station_tick(&station, reading, out, sizeof out);
}

static void call_pilot(void)
{
    answer = lahzavar_station_pilot(&station, pilot, reading);
}

static void call_terminate(void)
{
    answer = lahzavar_station_terminate(&station);
}

static void call_link_up(void)
{
    answer = lahzavar_station_link_up(&station);
}

static void call_query(void)
{
    answer.refusal = lahzavar_station_query(&station, 0x020000000001u, least, greatest).refusal;
}

static void call_inspect(void)
{
    answer.refusal = lahzavar_station_inspect(&station).refusal;
}

static void call_state(void)
{
    number = lahzavar_station_state(&station);
}

static void call_records(void)
{
    number = lahzavar_station_records_held(&station);
}

static void call_wipe(void)
{
    lahzavar_station_wipe(&station);
}

static void call_map_read(void)
{
    answer.refusal = lahzavar_map_read(frame, length).refusal;
}

static void call_map_values(void)
{
    answer.refusal = lahzavar_map_values(frame, length, values, sizeof values).refusal;
}

static void call_map_request(void)
{
    answer.refusal = lahzavar_map_request(0x020000000001u, 0x0200000000AAu, values, sizeof values, out, sizeof out).refusal;
}

static void call_map_confirm(void)
{
    answer.refusal = lahzavar_map_confirm(0x020000000001u, 0x0200000000AAu, true, out, sizeof out).refusal;
}

static void call_map_reduce(void)
{
    answer.refusal = lahzavar_map_reduce(values, LAHZAVAR_CARRIERS, levels, LAHZAVAR_CARRIERS, out, sizeof out).refusal;
}

enum call {
    CONFIGURE,
    FRAME,
    MATCH,
    TICK,
    PILOT,
    TERMINATE,
    LINK_UP,
    QUERY,
    INSPECT,
    STATE,
    RECORDS,
    WIPE,
    MAP_READ,
    MAP_VALUES,
    MAP_REQUEST,
    MAP_CONFIRM,
    MAP_REDUCE,
    CALLS
};

static struct figure figures[CALLS] = {
    {"lahzavar_station_configure", call_configure, 0},
    {"lahzavar_station_frame, CM_SLAC_MATCH.REQ aside", call_frame, 0},
    {"lahzavar_station_frame, CM_SLAC_MATCH.REQ", call_frame, 0},
    {"lahzavar_station_tick", call_tick, 0},
    {"lahzavar_station_pilot", call_pilot, 0},
    {"lahzavar_station_terminate", call_terminate, 0},
    {"lahzavar_station_link_up", call_link_up, 0},
    {"lahzavar_station_query", call_query, 0},
    {"lahzavar_station_inspect", call_inspect, 0},
    {"lahzavar_station_state", call_state, 0},
    {"lahzavar_station_records_held", call_records, 0},
    {"lahzavar_station_wipe", call_wipe, 0},
    {"lahzavar_map_read", call_map_read, 0},
    {"lahzavar_map_values", call_map_values, 0},
    {"lahzavar_map_request", call_map_request, 0},
    {"lahzavar_map_confirm", call_map_confirm, 0},
    {"lahzavar_map_reduce", call_map_reduce, 0},
};

static void measure_frame(size_t octets)
{
    length = octets;
    measure(&figures[FRAME]);
}

static void measure_readers(void)
{
    measure(&figures[QUERY]);
    measure(&figures[INSPECT]);
    measure(&figures[STATE]);
    measure(&figures[RECORDS]);
}

static void measure_pilot(enum lahzavar_pilot_state now)
{
    pilot = now;
    measure(&figures[PILOT]);
}

static void measure_loss(void)
{
    struct lahzavar_station before = station;
    measure_aside(&figures[TERMINATE]);
    measure_pilot(LAHZAVAR_PILOT_C);
    measure_pilot(LAHZAVAR_PILOT_A);
    measure_pilot(LAHZAVAR_PILOT_F);
    station = before;
}

static struct car car_at(unsigned place)
{
    struct car car = {{2, 0, 0, 0, 0, 0}, {7, 7, 7, 7, 7, 7, 7, 7}};
    car.address[5] = (uint8_t)(place + 1);
    return car;
}

/* Twice, since the first start changes the phase. */
static void measure_start(const struct car *car)
{
    size_t octets = edition == LAHZAVAR_SAE ? write_sae_start(frame, car, later_try) : write_start(frame, car);
    measure_frame(octets);
    measure_frame(octets);
}

/* Every record asked for twice, started, sounding, with one profile less than close it; in SAE that is a later try. */
static void hold_all_records(void)
{
    unsigned place, profile, profiles = edition == LAHZAVAR_SAE ? 15 : 9;
    for (place = 0; place < LAHZAVAR_RECORDS; place++) {
        struct car car = car_at(place);
        measure_frame(write_parm_req(frame, &car));
        measure_frame(write_parm_req(frame, &car));
        measure_start(&car);
        for (profile = 0; profile < profiles; profile++) {
            measure_frame(write_sound(frame, &car, profile));
            measure_frame(write_profile(frame, modem, us, car.address, 255));
        }
    }
}

/* The tick that reports to every car. */
static void measure_reports(void)
{
    reading += edition == LAHZAVAR_SAE ? 1000 : 600;
    measure_aside(&figures[TICK]);
    has_frames(&figures[TICK], LAHZAVAR_RECORDS);
}

/* Both requests of a validation, a toggle, and the tick that reports to the cars behind and confirms; then as before. */
static void measure_validation(unsigned place)
{
    struct lahzavar_station before = station;
    struct car car = car_at(place);
    measure_frame(write_validate_req(frame, &car, us, 0));
    measure_frame(write_validate_req(frame, &car, broadcast_address, 0));
    measure_pilot(LAHZAVAR_PILOT_C);
    measure_pilot(LAHZAVAR_PILOT_B);
    measure(&figures[TICK]);
    has_frames(&figures[TICK], LAHZAVAR_RECORDS - place);
    station = before;
}

/*
 * A report by the last profile, its response, the validation and the match request of every car, and what follows the last
 * one, its amplitude map too.
 */
static void measure_joining(void)
{
    struct car last = car_at(LAHZAVAR_RECORDS - 1);
    unsigned place;
    for (place = 0; place < LAHZAVAR_RECORDS; place++) {
        struct car car = car_at(place);
        measure_frame(write_profile(frame, modem, us, car.address, 255));
        measure_frame(write_rsp(frame, &car, us));
        measure_validation(place);
        length = write_match_req(frame, &car, us);
        measure_aside(&figures[MATCH]);
    }
    measure(&figures[MATCH]);
    measure(&figures[MATCH]);
    measure_loss();
    measure_aside(&figures[TICK]);
    measure(&figures[LINK_UP]);
    measure_frame(write_map_req(frame, &last, us, LAHZAVAR_CARRIERS, 15));
    has_frames(&figures[FRAME], 1);
    measure(&figures[INSPECT]);
    measure_loss();
    measure_aside(&figures[TICK]);
}

/* One matching. */
static void measure_edition(enum lahzavar_edition now)
{
    edition = now;
    reading = 0;
    measure(&figures[CONFIGURE]);
    measure_pilot(LAHZAVAR_PILOT_E);
    measure_pilot(LAHZAVAR_PILOT_B);
    hold_all_records();
    measure_readers();
    measure_loss();
    measure_reports();
    measure_joining();
    measure(&figures[WIPE]);
}

static void measure_maps(void)
{
    struct car car = car_at(0);
    enum call call;
    length = write_map_req(frame, &car, us, LAHZAVAR_CARRIERS, 15);
    for (call = MAP_READ; call <= MAP_REDUCE; call++) {
        measure(&figures[call]);
    }
}

int main(void)
{
    state = &station;
    state_octets = sizeof station;
    measure_edition(LAHZAVAR_ISO);
    measure_edition(LAHZAVAR_SAE);
    measure_maps();
    printf("a station\t%lu\n", (unsigned long)sizeof station);
    printf("a station's least output\t%lu\n", (unsigned long)sizeof out);
    print_figures(figures, CALLS);
    return 0;
}
