/* Runs a car's script through the C calls, as `reference car-run` does through the reference car. */
#include "script.h"

#include <string.h>

enum kind { FRAME, TICK, START, TERMINATE, LINK_UP, KEY };

#define START_OCTETS 24u
#define KEY_OCTETS 29u

static struct lahzavar_car car;

static void configure(void)
{
    uint8_t us[6];
    take(us, 6);
    put_number(lahzavar_car_configure(&car, lahzavar_address(us), take_number()).refusal);
}

/* The octets are the RunID, 8, and the random value, 16. */
static struct lahzavar_answer start(const struct event *event)
{
    if (event->length != START_OCTETS) {
        fail("a start has 24 octets");
    }
    return lahzavar_car_start(&car, event->octets, event->octets + 8, event->reading, out, event->room);
}

/* Station, NID and NMK back to back. */
static void put_key(struct lahzavar_key key)
{
    uint8_t octets[KEY_OCTETS];
    memcpy(octets, key.station, 6);
    memcpy(octets + 6, key.nid, 7);
    memcpy(octets + 13, key.nmk, 16);
    put_reply(key.refusal, LAHZAVAR_NO_INDICATION, octets, key.refusal == LAHZAVAR_ACCEPTED ? KEY_OCTETS : 0);
}

static void happen(const struct event *event)
{
    switch (event->kind) {
    case FRAME:
        put_answer(lahzavar_car_frame(&car, event->octets, event->length, out, event->room));
        break;
    case TICK:
        put_answer(lahzavar_car_tick(&car, event->reading, out, event->room));
        break;
    case START:
        put_answer(start(event));
        break;
    case TERMINATE:
        put_answer(lahzavar_car_terminate(&car));
        break;
    case LINK_UP:
        put_answer(lahzavar_car_link_up(&car));
        break;
    case KEY:
        put_key(lahzavar_car_key(&car));
        break;
    default:
        fail("an unknown kind of event");
    }
}

int main(void)
{
    return run_script(configure, happen);
}
