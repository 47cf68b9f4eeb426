/*
 * The calls for amplitude maps of lahzavar.h against the library: both messages there and back, values, reductions, and each
 * refusal, which leaves the array that was lent; and what the header adds, NULL.
 */
#include "checks.h"
#include "lahzavar.h"
#include "station_frames.h"

static const struct car car = {{2, 0, 0, 0, 0, 1}, {0}};
static const uint8_t us[6] = {2, 0, 0, 0, 0, 0xAA};
static const uint64_t receiver = 0x0200000000AA, sender = 0x020000000001;

static uint8_t frame[FRAME_MOST + 1];
static uint8_t out[LAHZAVAR_CARRIERS + 1]; /* what the calls fill, and an octet more */
static uint8_t values[LAHZAVAR_CARRIERS + 1];
static int16_t levels[LAHZAVAR_CARRIERS + 1];

static void sizes(void)
{
    same("a map's frame", sizeof(struct lahzavar_map), 32);
    same("its carriers", offsetof(struct lahzavar_map, carriers), 24);
    same("a number of places", sizeof(struct lahzavar_filled), 8);
    same("the most octets", LAHZAVAR_MAP_OCTETS, 599);
    same("a request's type", LAHZAVAR_MAP_REQUEST, CM_AMP_MAP_REQ);
    same("a confirmation's type", LAHZAVAR_MAP_CONFIRMATION, CM_AMP_MAP_CNF);
}

/* Before each call: the array that it fills has one value. */
static void lend(void)
{
    memset(out, 0xEE, sizeof out);
}

/* The call has filled so many places, and none behind them. */
static void filled(const char *what, struct lahzavar_filled answer, size_t count)
{
    same(what, answer.refusal, LAHZAVAR_ACCEPTED);
    same("its places", answer.count, count);
    all_octets("an octet behind them", out + count, sizeof out - count, 0xEE);
}

/* A refused call tells nothing, and leaves the array. */
static void refused(const char *what, struct lahzavar_filled answer, uint32_t refusal)
{
    same(what, answer.refusal, refusal);
    same("its places", answer.count, 0);
    all_octets("an octet of the array", out, sizeof out, 0xEE);
}

static void is_read(const struct lahzavar_map *read, uint32_t kind, uint32_t carriers, uint32_t result)
{
    same("a refusal", read->refusal, LAHZAVAR_ACCEPTED);
    same("the type", read->kind, kind);
    same("the carriers", read->carriers, carriers);
    same("the result", read->result, result);
}

/* A frame that is none of the two, which neither call takes. */
static void not_read(const char *what, size_t length, uint32_t refusal)
{
    struct lahzavar_map read = lahzavar_map_read(frame, length);
    same(what, read.refusal, refusal);
    same("what it says", read.kind | (size_t)read.receiver | (size_t)read.sender | read.carriers | read.result, 0);
    lend();
    refused(what, lahzavar_map_values(frame, length, out, LAHZAVAR_CARRIERS), refusal);
}

/* A request there and back: its octets are those of car_frames.h with other values, its values come out again. */
static void request_there_and_back(size_t carriers)
{
    size_t octets = 21 + (carriers + 1) / 2, at;
    struct lahzavar_map read;
    octets = octets < FRAME_LEAST ? FRAME_LEAST : octets;
    same("its length", write_map_req(frame, &car, us, (unsigned)carriers, 0), octets);
    for (at = 0; at < carriers; at++) {
        values[at] = (uint8_t)((7 * at + carriers) % 16);
        frame[FRAME_HEAD + 2 + at / 2] |= (uint8_t)(values[at] << 4 * (at % 2));
    }
    lend();
    refused("room for less", lahzavar_map_request(receiver, sender, values, carriers, out, octets - 1),
            LAHZAVAR_OUTPUT_TOO_SHORT);
    filled("a request", lahzavar_map_request(receiver, sender, values, carriers, out, sizeof out), octets);
    same("its octets", (size_t)memcmp(out, frame, octets), 0);
    read = lahzavar_map_read(frame, octets);
    is_read(&read, LAHZAVAR_MAP_REQUEST, (uint32_t)carriers, 0);
    same("the receiver", (size_t)read.receiver, (size_t)receiver);
    same("the sender", (size_t)read.sender, (size_t)sender);
    read = lahzavar_map_read(frame, 21 + (carriers + 1) / 2);
    is_read(&read, LAHZAVAR_MAP_REQUEST, (uint32_t)carriers, 0);
    lend();
    refused("room for fewer", lahzavar_map_values(frame, octets, out, carriers - 1), LAHZAVAR_OUTPUT_TOO_SHORT);
    refused("no room", lahzavar_map_values(frame, octets, NULL, carriers), LAHZAVAR_OUTPUT_TOO_SHORT);
    filled("values", lahzavar_map_values(frame, octets, out, carriers), carriers);
    same("the values", (size_t)memcmp(out, values, carriers), 0);
    not_read("cut", 20 + (carriers + 1) / 2, LAHZAVAR_TOO_SHORT);
    not_read("longer", octets + 1, LAHZAVAR_TOO_LONG);
}

/*
 * A confirmation there and back, by the header's call and by the library's own, which takes every number but 0 for success.
 */
static void confirmations(void)
{
    static const uint32_t numbers[] = {0, 1, 2, 256, 0x80000000u, UINT32_MAX};
    size_t at, length;
    for (at = 0; at < sizeof numbers / sizeof *numbers; at++) {
        bool success = numbers[at] != 0;
        struct lahzavar_map read;
        length = write_map_cnf(frame, &car, us, success ? 0 : 1);
        lend();
        refused("room for less", lahzavar_map_confirm(sender, receiver, success, out, length - 1),
                LAHZAVAR_OUTPUT_TOO_SHORT);
        filled("by its number", lahzavar_confirm_map(sender, receiver, numbers[at], out, length), length);
        same("its octets", (size_t)memcmp(out, frame, length), 0);
        lend();
        filled("a confirmation", lahzavar_map_confirm(sender, receiver, success, out, sizeof out), length);
        same("its octets", (size_t)memcmp(out, frame, length), 0);
        read = lahzavar_map_read(frame, FRAME_HEAD + 1);
        is_read(&read, LAHZAVAR_MAP_CONFIRMATION, 0, success ? 0 : 1);
        same("the receiver", (size_t)read.receiver, (size_t)sender);
        same("the sender", (size_t)read.sender, (size_t)receiver);
        lend();
        refused("its values", lahzavar_map_values(frame, length, out, LAHZAVAR_CARRIERS), LAHZAVAR_UNKNOWN_TYPE);
    }
    not_read("a confirmation that is cut", FRAME_HEAD, LAHZAVAR_TOO_SHORT);
    not_read("a longer one", FRAME_LEAST + 1, LAHZAVAR_TOO_LONG);
    length = write_map_cnf(frame, &car, us, 2);
    not_read("another result", length, LAHZAVAR_BAD_OCTET);
}

/* A request of six carriers, with one octet changed. */
static size_t request_with(size_t at, unsigned octet)
{
    size_t length = write_map_req(frame, &car, us, 6, 3);
    frame[at] = (uint8_t)octet;
    return length;
}

static void refusals_of_reading(void)
{
    size_t length;
    not_read("no octets", 0, LAHZAVAR_TOO_SHORT);
    same("NULL", lahzavar_map_read(NULL, 60).refusal, LAHZAVAR_TOO_SHORT);
    lend();
    refused("NULL", lahzavar_map_values(NULL, 60, out, sizeof out), LAHZAVAR_TOO_SHORT);
    not_read("another protocol", request_with(12, 0), LAHZAVAR_BAD_HEAD);
    not_read("another version", request_with(14, 0), LAHZAVAR_BAD_HEAD);
    not_read("a fragment", request_with(17, 1), LAHZAVAR_BAD_HEAD);
    not_read("another type", request_with(15, 0x1E), LAHZAVAR_UNKNOWN_TYPE);
    not_read("a message of matching", write_parm_req(frame, &car), LAHZAVAR_UNKNOWN_TYPE);
    not_read("no carriers", request_with(19, 0), LAHZAVAR_BAD_OCTET);
    not_read("from a multicast address", request_with(6, 1), LAHZAVAR_BAD_ADDRESS);
    not_read("to all", request_with(0, 0xFF), LAHZAVAR_BAD_ADDRESS);
    not_read("a last half that is not zero", request_with(19, 5), LAHZAVAR_BAD_OCTET);
    length = request_with(24, 1);
    same("padding that is not zero", lahzavar_map_read(frame, length).refusal, LAHZAVAR_ACCEPTED);
}

/* Where two refusals of reading apply, the earlier one is told. */
static void order_of_reading(void)
{
    (void)request_with(12, 0);
    not_read("shorter than a head, another protocol", 18, LAHZAVAR_TOO_SHORT);
    frame[15] = 0;
    not_read("another protocol and type", 60, LAHZAVAR_BAD_HEAD);
    (void)request_with(15, 0x1E);
    not_read("another type, no payload", 19, LAHZAVAR_UNKNOWN_TYPE);
    (void)request_with(19, 0);
    frame[6] = 1;
    not_read("cut before the number of carriers", 20, LAHZAVAR_TOO_SHORT);
    not_read("no carriers, cut behind their number", 21, LAHZAVAR_BAD_OCTET);
    not_read("no carriers, too long, from a multicast address", 61, LAHZAVAR_BAD_OCTET);
    (void)request_with(19, 0x84);
    frame[20] = 4;
    not_read("1156 carriers, cut behind their number", 21, LAHZAVAR_BAD_OCTET);
    frame[19] = 0x83;
    not_read("1155 carriers, cut behind their number", 21, LAHZAVAR_TOO_SHORT);
    (void)request_with(19, 5);
    frame[6] = 1;
    not_read("cut, from a multicast address", 23, LAHZAVAR_TOO_SHORT);
    not_read("too long, from a multicast address", 61, LAHZAVAR_TOO_LONG);
    not_read("from a multicast address, a last half", 60, LAHZAVAR_BAD_ADDRESS);
}

static void refusals_of_writing(void)
{
    static const uint64_t bad[] = {0, 0x010000000000, 0xFFFFFFFFFFFF, (uint64_t)1 << 48 | 0x020000000001, UINT64_MAX};
    size_t at;
    memset(values, 15, sizeof values);
    lend();
    for (at = 0; at < sizeof bad / sizeof *bad; at++) {
        refused("a receiver", lahzavar_map_request(bad[at], sender, values, 0, out, 0), LAHZAVAR_BAD_ADDRESS);
        refused("a sender", lahzavar_map_request(receiver, bad[at], values, 0, out, 0), LAHZAVAR_BAD_ADDRESS);
        refused("a receiver", lahzavar_map_confirm(bad[at], sender, true, out, 0), LAHZAVAR_BAD_ADDRESS);
        refused("a sender", lahzavar_map_confirm(receiver, bad[at], false, out, sizeof out), LAHZAVAR_BAD_ADDRESS);
    }
    refused("no carriers", lahzavar_map_request(receiver, sender, values, 0, out, sizeof out), LAHZAVAR_BAD_OCTET);
    refused("no values", lahzavar_map_request(receiver, sender, NULL, 6, out, sizeof out), LAHZAVAR_BAD_OCTET);
    refused("1156 carriers", lahzavar_map_request(receiver, sender, values, 1156, out, 0), LAHZAVAR_BAD_OCTET);
    for (at = 0; at < 6; at++) {
        values[at] = at % 2 == 0 ? 16 : 255;
        refused("a value over 15", lahzavar_map_request(receiver, sender, values, 6, out, 0), LAHZAVAR_BAD_OCTET);
        refused("a value over 15", lahzavar_map_reduce(values, 6, levels, 5, out, 0), LAHZAVAR_BAD_OCTET);
        values[at] = 15;
    }
    refused("no room", lahzavar_map_request(receiver, sender, values, 6, NULL, 60), LAHZAVAR_OUTPUT_TOO_SHORT);
    refused("no room", lahzavar_map_confirm(receiver, sender, true, NULL, 60), LAHZAVAR_OUTPUT_TOO_SHORT);
}

/* One carrier's reduction. */
static void reduced(unsigned value, int level, unsigned reduction)
{
    uint8_t one = (uint8_t)value;
    int16_t ours = (int16_t)level;
    lend();
    filled("a reduction", lahzavar_map_reduce(&one, 1, &ours, 1, out, 1), 1);
    same("its dB", out[0], reduction);
}

/* The level less -50 - 2a where that is positive, else 0: every value with every level, and some by their numbers. */
static void reductions(void)
{
    unsigned value;
    int level;
    for (value = 0; value < 16; value++) {
        for (level = -128; level <= 0; level++) {
            int over = level + 50 + 2 * (int)value;
            reduced(value, level, over > 0 ? (unsigned)over : 0);
        }
    }
    reduced(14, -75, 3);
    reduced(14, -77, 1);
    reduced(0, -50, 0);
    reduced(0, 0, 50);
    reduced(5, -60, 0);
    reduced(5, -59, 1);
    reduced(5, -61, 0);
    reduced(15, 0, 80);
    reduced(15, -128, 0);
}

/* Each carrier has its own value and level. */
static void reductions_of(size_t carriers)
{
    size_t at;
    for (at = 0; at < carriers; at++) {
        values[at] = (uint8_t)(at % 16);
        levels[at] = (int16_t) - (int)(at % 129);
    }
    lend();
    refused("room for fewer", lahzavar_map_reduce(values, carriers, levels, carriers, out, carriers - 1),
            LAHZAVAR_OUTPUT_TOO_SHORT);
    refused("no room", lahzavar_map_reduce(values, carriers, levels, carriers, NULL, carriers), LAHZAVAR_OUTPUT_TOO_SHORT);
    filled("reductions", lahzavar_map_reduce(values, carriers, levels, carriers, out, sizeof out), carriers);
    for (at = 0; at < carriers; at++) {
        int over = levels[at] + 50 + 2 * (int)values[at];
        same("a carrier's reduction", out[at], over > 0 ? (size_t)over : 0);
    }
}

/* The refusals of the reduction call, in their order. */
static void refusals_of_reducing(void)
{
    static const int16_t bad[] = {-129, 1, INT16_MIN, INT16_MAX, -32000, 128};
    size_t at;
    memset(values, 15, sizeof values);
    memset(levels, 0, sizeof levels);
    lend();
    refused("no values", lahzavar_map_reduce(values, 0, levels, 0, out, sizeof out), LAHZAVAR_BAD_OCTET);
    refused("NULL for values", lahzavar_map_reduce(NULL, 6, levels, 6, out, sizeof out), LAHZAVAR_BAD_OCTET);
    refused("1156 values", lahzavar_map_reduce(values, 1156, levels, 1156, out, 0), LAHZAVAR_BAD_OCTET);
    for (at = 0; at < sizeof bad / sizeof *bad; at++) {
        size_t place = at % 3 == 0 ? 0 : at % 3 == 1 ? 3 : 5;
        levels[place] = bad[at];
        refused("fewer levels", lahzavar_map_reduce(values, 7, levels, 6, out, 0), LAHZAVAR_OTHER_CARRIER_COUNT);
        refused("more levels", lahzavar_map_reduce(values, 5, levels, 6, out, 0), LAHZAVAR_OTHER_CARRIER_COUNT);
        refused("a level", lahzavar_map_reduce(values, 6, levels, 6, out, 0), LAHZAVAR_BAD_CONFIGURATION);
        refused("a level", lahzavar_map_reduce(values, 6, levels, 6, out, sizeof out), LAHZAVAR_BAD_CONFIGURATION);
        levels[place] = 0;
    }
    refused("NULL for levels", lahzavar_map_reduce(values, 6, NULL, 6, out, 6), LAHZAVAR_OTHER_CARRIER_COUNT);
    filled("the same levels put right", lahzavar_map_reduce(values, 6, levels, 6, out, 6), 6);
}

int main(void)
{
    static const size_t counts[] = {1, 2, 6, 1154, 1155};
    size_t at;
    sizes();
    for (at = 0; at < sizeof counts / sizeof *counts; at++) {
        request_there_and_back(counts[at]);
        reductions_of(counts[at]);
    }
    confirmations();
    refusals_of_reading();
    order_of_reading();
    refusals_of_writing();
    reductions();
    refusals_of_reducing();
    return faults == 0 ? 0 : 1;
}
