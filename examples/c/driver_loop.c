/*
 * A driver loop, in C11: interrupts put frames, clock readings and pilot states into a small queue; the loop takes them out
 * one by one, hands them to the station, and puts the replies into a send queue. Here two simulated cars stand in for the
 * line: one matches with this station, the other is heard as well but matches with the next station. With `--log FILE` the
 * session's log is in that file at the end, for the program `replay`.
 */
#include "car_frames.h"
#include "lahzavar.h"
#include "session_log.h"

#include <stdatomic.h>
#include <stdio.h>

#define QUEUE 32u /* a power of two, so that the counts may wrap */
#define REFUSALS (LAHZAVAR_LAST_REFUSAL + 2)
#define VALIDATION_NOT_REQUIRED false /* true at an outlet that stands alone, and at an SAE site */
#define EDITION LAHZAVAR_ISO          /* LAHZAVAR_SAE where the cars are those of SAE J2931/4; the simulated ones are not */
#define CARRIERS LAHZAVAR_CARRIERS    /* of our modem, as its manual says; amplitude_map.c has what they are for */

_Static_assert(ATOMIC_INT_LOCK_FREE == 2, "an interrupt can't wait for a lock");

enum event_kind { EVENT_FRAME, EVENT_CLOCK, EVENT_PILOT, EVENT_LINK };

struct event {
    enum event_kind kind;
    enum lahzavar_pilot_state pilot;
    uint32_t reading;
    size_t length;
    uint8_t octets[FRAME_MOST];
};

/*
 * One writer and one reader. The writer alone stores `put` and `dropped`, the reader alone `taken`; a store releases the
 * event's place to the other side, whose load acquires it. Interrupts that write one queue may not interrupt each other.
 */
struct queue {
    struct event events[QUEUE];
    atomic_uint put;
    atomic_uint taken;
    atomic_uint dropped; /* events that found no room; a car repeats its frames, but a pilot state has to be put again */
};

static struct queue received;
static struct queue to_send;
static struct lahzavar_station station;
static uint8_t output[LAHZAVAR_LEAST_OUTPUT];
static enum lahzavar_pilot_state pilot_now = LAHZAVAR_PILOT_A;
static uint32_t last_indication;
static unsigned refused[REFUSALS]; /* by number; the last one counts those of a later library */
static struct session_log session;
static uint8_t session_octets[SESSION_LOG_MOST]; /* they hold the NMK, as the station does */

static const uint8_t our_address[6] = {2, 0, 0, 0, 0, 0xAA};
static const uint8_t our_modem[6] = {2, 0, 0, 0, 0, 0xBB};
static const uint8_t next_station[6] = {2, 0, 0, 0, 0, 0xCC};
static const uint8_t network_id[7] = {1, 2, 3, 4, 5, 6, 7};
static const uint8_t network_key[16] = {'a', ' ', 'k', 'e', 'y', ' ', 'f', 'o', 'r', ' ', 't', 'e', 's', 't', 's', '.'};

/* The writer's place for an event with so many octets, or NULL where there is no room for it. */
static struct event *place_in(struct queue *queue, size_t length)
{
    unsigned put = atomic_load_explicit(&queue->put, memory_order_relaxed);
    unsigned taken = atomic_load_explicit(&queue->taken, memory_order_acquire);
    if (length > FRAME_MOST || put - taken == QUEUE) {
        atomic_fetch_add_explicit(&queue->dropped, 1, memory_order_relaxed);
        return NULL;
    }
    return &queue->events[put % QUEUE];
}

/* The writer is done with the place that it has. */
static void hand_over(struct queue *queue)
{
    unsigned put = atomic_load_explicit(&queue->put, memory_order_relaxed);
    atomic_store_explicit(&queue->put, put + 1, memory_order_release);
}

/* The reader's next event, or NULL. */
static const struct event *next_of(struct queue *queue)
{
    unsigned taken = atomic_load_explicit(&queue->taken, memory_order_relaxed);
    unsigned put = atomic_load_explicit(&queue->put, memory_order_acquire);
    return put == taken ? NULL : &queue->events[taken % QUEUE];
}

/* The reader is done with the event that it has. */
static void give_back(struct queue *queue)
{
    unsigned taken = atomic_load_explicit(&queue->taken, memory_order_relaxed);
    atomic_store_explicit(&queue->taken, taken + 1, memory_order_release);
}

static unsigned dropped_by(struct queue *queue)
{
    return atomic_load_explicit(&queue->dropped, memory_order_relaxed);
}

static void put_frame(struct queue *queue, const uint8_t *octets, size_t length)
{
    struct event *event = place_in(queue, length);
    if (event != NULL) {
        event->kind = EVENT_FRAME;
        event->length = length;
        memcpy(event->octets, octets, length);
        hand_over(queue);
    }
}

static void put_event(struct queue *queue, enum event_kind kind, enum lahzavar_pilot_state pilot, uint32_t reading)
{
    struct event *event = place_in(queue, 0);
    if (event != NULL) {
        event->kind = kind;
        event->pilot = pilot;
        event->reading = reading;
        hand_over(queue);
    }
}

/* Counts a refusal, and logs the first one of each number: a refused call has changed nothing. */
static void count_refusal(uint32_t refusal)
{
    uint32_t number = refusal < REFUSALS ? refusal : REFUSALS - 1;
    if (refused[number]++ == 0) {
        fprintf(stderr, "refused with %u: %s\n", (unsigned)refusal, lahzavar_refusal_text(refusal));
    }
}

/*
 * For field service: the lowest and the highest value of a car that gets this report now; a match takes them away. The
 * report's groups are all that were measured: 58 in the ISO edition, and behind a lower number the query gives zeros.
 */
static void log_spread(const uint8_t *report)
{
    uint8_t least[LAHZAVAR_GROUPS], greatest[LAHZAVAR_GROUPS], low = UINT8_MAX, high = 0;
    const uint8_t *car = report; /* the frame's destination */
    struct lahzavar_heard heard = lahzavar_station_query(&station, lahzavar_address(car), least, greatest);
    unsigned groups = report[FRAME_HEAD + 51], group;
    if (heard.refusal != LAHZAVAR_ACCEPTED) {
        return;
    }
    for (group = 0; group < groups && group < LAHZAVAR_GROUPS; group++) {
        low = least[group] < low ? least[group] : low;
        high = greatest[group] > high ? greatest[group] : high;
    }
    fprintf(stderr, "car %02X:%02X:%02X:%02X:%02X:%02X: %u sounds heard, %u to %u dB\n", car[0], car[1], car[2], car[3], car[4],
            car[5], (unsigned)heard.sounds, low, high);
}

/* Puts each frame of the answer into the send queue, at its own length, keeps the indication, and counts a refusal. */
static void obey(struct lahzavar_answer answer)
{
    size_t at, length;
    for (at = 0; at < answer.octets; at += length) {
        length = lahzavar_frame_octets(output + at, answer.octets - at);
        put_frame(&to_send, output + at, length);
        if (frame_type(output + at, length) == CM_ATTEN_CHAR_IND) {
            log_spread(output + at);
        }
    }
    if (answer.indication != LAHZAVAR_NO_INDICATION) {
        last_indication = answer.indication;
    }
    if (answer.refusal != LAHZAVAR_ACCEPTED) {
        count_refusal(answer.refusal);
    }
}

/* Whether times run in the station: a car is in matching, or joins. */
static int is_timed(void)
{
    uint32_t state = lahzavar_station_state(&station);
    return state == LAHZAVAR_MATCHING || state == LAHZAVAR_JOINING;
}

static void handle_frame(const uint8_t *octets, size_t length)
{
    struct lahzavar_answer answer = lahzavar_station_frame(&station, octets, length, output, sizeof output);
    session_log_frame(&session, octets, length, answer, output);
    obey(answer);
}

static void handle_pilot(enum lahzavar_pilot_state pilot, uint32_t reading)
{
    struct lahzavar_answer answer = lahzavar_station_pilot(&station, pilot, reading);
    session_log_pilot(&session, pilot, reading, answer);
    obey(answer);
}

static void handle_link_up(void)
{
    struct lahzavar_answer answer = lahzavar_station_link_up(&station);
    session_log_link_up(&session, answer);
    obey(answer);
}

/*
 * The clock goes on. After a gap of more than 60 seconds in a matching it is not known what happened meanwhile, so that it
 * ends and begins anew; else the gap does no harm, since the next plug-in or loss takes a reading. For the same reason the
 * log needs no ticks while no time runs; with them it would be full before a car comes.
 */
static void handle_clock(uint32_t reading)
{
    int timed = is_timed();
    struct lahzavar_answer answer = lahzavar_station_tick(&station, reading, output, sizeof output);
    if (timed) {
        session_log_tick(&session, reading, answer, output);
    }
    obey(answer);
    if (answer.refusal == LAHZAVAR_TICK_GAP && timed) {
        handle_pilot(LAHZAVAR_PILOT_A, reading);
        handle_pilot(pilot_now, reading);
    }
}

static void handle(const struct event *event)
{
    switch (event->kind) {
    case EVENT_FRAME:
        handle_frame(event->octets, event->length);
        break;
    case EVENT_CLOCK:
        handle_clock(event->reading);
        break;
    case EVENT_PILOT: /* every change, also among B, C and D: a car may validate by them */
        pilot_now = event->pilot;
        handle_pilot(event->pilot, event->reading);
        break;
    default:
        handle_link_up();
        break;
    }
}

/* The loop's body: everything that the interrupts have put into the queue so far. */
static void handle_received(void)
{
    const struct event *event;
    while ((event = next_of(&received)) != NULL) {
        handle(event);
        give_back(&received);
    }
}

/*
 * Configures the station, begins its log, and tells it the pilot's state at once: so it takes the clock's reading, whatever
 * that is.
 */
static struct lahzavar_answer start(uint32_t reading)
{
    uint64_t address = lahzavar_address(our_address), modem = lahzavar_address(our_modem), nid = lahzavar_nid(network_id);
    struct lahzavar_answer answer =
        lahzavar_station_configure(&station, address, modem, nid, network_key, VALIDATION_NOT_REQUIRED, EDITION, CARRIERS);
    session_log_begin(&session, session_octets, sizeof session_octets, address, modem, nid, network_key,
                      VALIDATION_NOT_REQUIRED, EDITION, CARRIERS);
    obey(answer);
    handle_pilot(pilot_now, reading);
    return answer;
}

/* Ends the session's log and writes it to a file. Gives whether that is done. */
static int write_log(const char *name)
{
    size_t length = session_log_end(&session);
    FILE *file = fopen(name, "wb");
    int written = file != NULL && fwrite(session_octets, 1, length, file) == length;
    if ((file != NULL && fclose(file) != 0) || !written) {
        perror(name);
        return 0;
    }
    fprintf(stderr, "%s: %u events%s\n", name, (unsigned)session.events, session.full ? ", and no room for more" : "");
    return 1;
}

/* What was dropped and, by number, what was refused. */
static void report(void)
{
    const char *before = " ";
    unsigned number;
    fprintf(stderr, "dropped: %u received, %u to send; refused:", dropped_by(&received), dropped_by(&to_send));
    for (number = 0; number < REFUSALS; number++) {
        if (refused[number] != 0) {
            fprintf(stderr, "%s%u with %u", before, refused[number], number);
            before = ", ";
        }
    }
    fprintf(stderr, "\n");
}

/* From here on: the line, which a real driver does not have. */

static struct car our_car = {{2, 0, 0, 0, 0, 1}, {1, 2, 3, 4, 5, 6, 7, 8}};
static struct car neighbour = {{2, 0, 0, 0, 0, 2}, {9, 9, 9, 9, 9, 9, 9, 9}};
static uint8_t line[FRAME_MOST];

static void put_clock(uint32_t reading)
{
    put_event(&received, EVENT_CLOCK, LAHZAVAR_PILOT_A, reading);
}

/* A car that has its parameters starts to sound; the modem measures each sound. */
static void sound(const struct car *car, unsigned attenuation)
{
    unsigned left;
    put_frame(&received, line, write_start(line, car));
    for (left = 10; left > 0; left--) {
        put_frame(&received, line, write_sound(line, car, left - 1));
        put_frame(&received, line, write_profile(line, our_modem, our_address, car->address, attenuation + left % 2));
    }
}

/* A car that has its report answers it, and asks the station it has chosen. */
static void choose(const struct car *car, const uint8_t *chosen)
{
    put_frame(&received, line, write_rsp(line, car, our_address));
    put_frame(&received, line, write_match_req(line, car, chosen));
}

/* What a car does with one frame from the station. */
static void car_hears(const uint8_t *frame, size_t length)
{
    int ours = memcmp(frame, our_car.address, 6) == 0;
    const struct car *car = ours ? &our_car : &neighbour;
    switch (frame_type(frame, length)) {
    case CM_SLAC_PARM_CNF:
        sound(car, ours ? 12 : 55);
        break;
    case CM_ATTEN_CHAR_IND:
        choose(car, ours ? our_address : next_station);
        break;
    case CM_SLAC_MATCH_CNF:
        put_event(&received, EVENT_LINK, LAHZAVAR_PILOT_A, 0);
        break;
    default:
        break;
    }
}

static void cars_hear(void)
{
    const struct event *event = next_of(&to_send);
    if (event != NULL) {
        car_hears(event->octets, event->length);
        give_back(&to_send);
    }
}

/* A reading after a long sleep, then 40 turns of 10 ms from plug-in, with the clock close to its wrap. */
static void run(void)
{
    uint32_t reading = 0xFFFFFF00u;
    unsigned turn;
    put_clock(reading);
    put_event(&received, EVENT_PILOT, LAHZAVAR_PILOT_B, reading);
    put_frame(&received, line, write_parm_req(line, &neighbour));
    put_frame(&received, line, write_parm_req(line, &our_car));
    for (turn = 0; turn < 40; turn++) {
        handle_received();
        cars_hear();
        reading += 10;
        put_clock(reading);
    }
}

int main(int argc, char **argv)
{
    const char *log_name = argc == 3 && strcmp(argv[1], "--log") == 0 ? argv[2] : NULL;
    int linked, logged;
    if (argc != 1 && log_name == NULL) {
        fprintf(stderr, "usage: driver_loop [--log FILE]\n");
        return 2;
    }
    if (!lahzavar_library_fits()) {
        fprintf(stderr, "the library is not the one that lahzavar.h describes\n");
        return 1;
    }
    if (start(0xFFFE0000u).refusal != LAHZAVAR_ACCEPTED) {
        return 1;
    }
    run();
    linked = last_indication == LAHZAVAR_LINK_ESTABLISHED && lahzavar_station_state(&station) == LAHZAVAR_MATCHED;
    report();
    logged = log_name == NULL || write_log(log_name);
    lahzavar_station_wipe(&station);
    if (!linked || dropped_by(&received) + dropped_by(&to_send) != 0) {
        fprintf(stderr, "no link\n");
        return 1;
    }
    printf("link established\n");
    return logged ? 0 : 1;
}
