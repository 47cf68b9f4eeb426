/*
 * The frames of amplitude maps that the library writes, in hex digits, one to a line: requests of several numbers of carriers,
 * in which neighbours have different values, and both confirmations.
 */
#include "lahzavar.h"

#include <stdio.h>

static const uint64_t car = 0x020000000001u, station = 0x0200000000AAu;
static uint8_t values[LAHZAVAR_CARRIERS];
static uint8_t out[LAHZAVAR_MAP_OCTETS];

/* Prints a frame; gives whether there is one. */
static int print(struct lahzavar_filled filled)
{
    size_t at;
    for (at = 0; at < filled.count; at++) {
        printf("%02X", out[at]);
    }
    printf("\n");
    return filled.refusal == LAHZAVAR_ACCEPTED;
}

int main(void)
{
    static const size_t counts[] = {1, 2, 6, 58, 917, 1154, 1155};
    int written = 1;
    size_t at;
    for (at = 0; at < sizeof values; at++) {
        values[at] = (uint8_t)((7 * at + 1) % 16);
    }
    for (at = 0; at < sizeof counts / sizeof *counts; at++) {
        written &= print(lahzavar_map_request(station, car, values, counts[at], out, sizeof out));
    }
    written &= print(lahzavar_map_confirm(car, station, true, out, sizeof out));
    written &= print(lahzavar_map_confirm(car, station, false, out, sizeof out));
    return written && fflush(stdout) == 0 ? 0 : 1;
}
