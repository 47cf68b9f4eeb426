/* Runs a station's script through the C calls, as `reference run` does through the reference station. */
#include "script.h"

enum kind { FRAME, TICK, PILOT, TERMINATE, LINK_UP, QUERY, REDUCTION, INSPECTION };

static struct lahzavar_station station;

static void configure(void)
{
    struct lahzavar_answer answer;
    uint8_t us[6], modem[6], nid[7], nmk[16];
    bool validation_not_required;
    enum lahzavar_edition edition;
    uint32_t carriers;
    take(us, 6);
    take(modem, 6);
    take(nid, 7);
    take(nmk, 16);
    validation_not_required = take_setting();
    edition = take_setting() ? LAHZAVAR_SAE : LAHZAVAR_ISO;
    carriers = take_number();
    answer = lahzavar_station_configure(&station, lahzavar_address(us), lahzavar_address(modem), lahzavar_nid(nid), nmk,
                                        validation_not_required, edition, carriers);
    put_number(answer.refusal);
}

/* The query's reply: the number of sounds, then the least and the greatest value of each group. */
static void put_queried(uint64_t car)
{
    uint8_t octets[4 + 2 * LAHZAVAR_GROUPS];
    uint8_t *least = octets + 4, *greatest = least + LAHZAVAR_GROUPS;
    struct lahzavar_heard heard = lahzavar_station_query(&station, car, least, greatest);
    store_number(octets, heard.sounds);
    put_reply(heard.refusal, LAHZAVAR_NO_INDICATION, octets, heard.refusal == LAHZAVAR_ACCEPTED ? sizeof octets : 0);
}

/*
 * A reduction's reply: the reductions. The event's octets are the number of values, the values, and the levels, two octets
 * each, low octet first.
 */
static void put_reduced(const struct event *event)
{
    static int16_t levels[SCRIPT_MOST / 2];
    uint32_t values = event->length < 4 ? SCRIPT_MOST : number_in(event->octets), count, at;
    struct lahzavar_filled filled;
    if (event->length < 4 || values > event->length - 4 || (event->length - 4 - values) % 2 != 0) {
        fail("a reduction that is no values and levels");
    }
    count = (event->length - 4 - values) / 2;
    for (at = 0; at < count; at++) {
        const uint8_t *level = event->octets + 4 + values + 2 * at;
        int32_t number = level[0] | level[1] << 8;
        levels[at] = (int16_t)(number < 0x8000 ? number : number - 0x10000);
    }
    filled = lahzavar_map_reduce(event->octets + 4, values, levels, count, out, event->room);
    put_reply(filled.refusal, LAHZAVAR_NO_INDICATION, out, filled.count);
}

/* The inspection's reply: the state's number, and the car as in frames. */
static void put_inspected(void)
{
    struct lahzavar_inspection told = lahzavar_station_inspect(&station);
    uint8_t octets[4 + 6];
    int at;
    store_number(octets, told.state);
    for (at = 0; at < 6; at++) {
        octets[4 + at] = (uint8_t)(told.car >> (40 - 8 * at) & 0xFF);
    }
    put_reply(told.refusal, LAHZAVAR_NO_INDICATION, octets, told.refusal == LAHZAVAR_ACCEPTED ? sizeof octets : 0);
}

static void happen(const struct event *event)
{
    switch (event->kind) {
    case FRAME:
        put_answer(lahzavar_station_frame(&station, event->octets, event->length, out, event->room));
        break;
    case TICK:
        put_answer(lahzavar_station_tick(&station, event->reading, out, event->room));
        break;
    case PILOT:
        put_answer(lahzavar_station_pilot(&station, event->octets[0], event->reading));
        break;
    case TERMINATE:
        put_answer(lahzavar_station_terminate(&station));
        break;
    case LINK_UP:
        put_answer(lahzavar_station_link_up(&station));
        break;
    case QUERY:
        put_queried(lahzavar_address(event->octets));
        break;
    case REDUCTION:
        put_reduced(event);
        break;
    case INSPECTION:
        put_inspected();
        break;
    default:
        fail("an unknown kind of event");
    }
}

int main(void)
{
    return run_script(configure, happen);
}
