/*
 * What a captured frame of amplitude maps asks for (ISO 15118-3, A.9.6), in C99: amplitude_map [FILE [LEVEL..]]
 *
 * The file has one frame, from its destination address on and without its check sequence, as octets or as hex digits. The
 * levels are our own in dBm/Hz: one for each carrier, or one for all, -50 where none is given. Without a file, frame and
 * levels are those of the standard's example, in which a station asks for at most -78 dBm/Hz on carriers 2 and 3 of six.
 */
#include "lahzavar.h"

#include <stdio.h>
#include <stdlib.h>
#include <string.h>

#define TEXT_MOST (4 * LAHZAVAR_MAP_OCTETS)

static const char example[] = "02:00:00:00:00:01 02:00:00:00:00:AA 88E1 01 1C60 0000 0600 E00E00";

static uint8_t frame[TEXT_MOST], answer[LAHZAVAR_CONFIRMATION_OCTETS];
static uint8_t values[LAHZAVAR_CARRIERS], reductions[LAHZAVAR_CARRIERS];
/* Those of the example, until others are given; with room for one more than there can be carriers, which is refused. */
static int16_t levels[LAHZAVAR_CARRIERS + 1] = {-75, -75, -77, -77, -75, -75};

/* The frame by its hex digits, with blanks and colons between them; a text with anything else is the frame's octets. */
static size_t read_text(const char *text, size_t length)
{
    static const char known[] = "0123456789ABCDEFabcdef: \t\r\n";
    size_t digits = 0, at;
    for (at = 0; at < length; at++) {
        const char *found = text[at] == '\0' ? NULL : strchr(known, text[at]);
        if (found == NULL) {
            memcpy(frame, text, length);
            return length;
        }
        if (found < known + 22) {
            int digit = (int)(found - known), octet = frame[digits / 2] << 4 | (digit < 16 ? digit : digit - 6);
            frame[digits++ / 2] = (uint8_t)octet;
        }
    }
    return digits / 2;
}

static size_t read_file(const char *name)
{
    static char text[TEXT_MOST];
    FILE *file = fopen(name, "rb");
    size_t length = file == NULL ? 0 : fread(text, 1, sizeof text, file);
    if (file == NULL || ferror(file)) {
        perror(name);
        exit(1);
    }
    fclose(file);
    return read_text(text, length);
}

/* The levels that are given; one alone is that of each carrier. Gives how many there are. */
static size_t read_levels(char **given, size_t count, size_t carriers)
{
    size_t all = count < 2 ? carriers : count, at;
    for (at = 0; at < all && at <= LAHZAVAR_CARRIERS; at++) {
        const char *text = count == 0 ? "-50" : given[count == 1 ? 0 : at];
        char *end;
        long level = strtol(text, &end, 10);
        int is_number = end != text && *end == '\0' && level >= INT16_MIN && level <= INT16_MAX;
        levels[at] = (int16_t)(is_number ? level : INT16_MAX); /* which the library refuses */
    }
    return at;
}

static void print_octets(const char *before, const uint8_t *octets, size_t count, const char *between)
{
    size_t at;
    for (at = 0; at < count; at++) {
        printf("%s%02X", at == 0 ? before : between, octets[at]);
    }
}

static void print_carriers(size_t count)
{
    size_t at;
    printf("carrier  value  limit  our level  reduction  level to set\n");
    for (at = 0; at < count; at++) {
        printf("%7lu  %5u  %5d  %9d  %9u  %12d\n", (unsigned long)at + 1, values[at], -50 - 2 * values[at], levels[at],
               reductions[at], levels[at] - reductions[at]);
    }
}

/* Says why a call was refused, and leaves with 1. */
static void check(uint32_t refusal)
{
    if (refusal != LAHZAVAR_ACCEPTED) {
        fprintf(stderr, "refused with %u: %s\n", (unsigned)refusal, lahzavar_refusal_text(refusal));
        exit(1);
    }
}

/* What the request asks for, and the frame that answers it. */
static void print_request(const struct lahzavar_map *map, size_t length, size_t level_count)
{
    struct lahzavar_filled filled = lahzavar_map_values(frame, length, values, sizeof values);
    check(filled.refusal);
    filled = lahzavar_map_reduce(values, filled.count, levels, level_count, reductions, sizeof reductions);
    check(filled.refusal);
    print_carriers(filled.count);
    filled = lahzavar_map_confirm(map->sender, map->receiver, true, answer, sizeof answer);
    check(filled.refusal);
    print_octets("the CM_AMP_MAP.CNF that answers it: ", answer, filled.count, " ");
    printf("\n");
}

int main(int argc, char **argv)
{
    size_t length = argc > 1 ? read_file(argv[1]) : read_text(example, sizeof example - 1);
    struct lahzavar_map map = lahzavar_map_read(frame, length);
    check(map.refusal);
    print_octets(map.kind == LAHZAVAR_MAP_REQUEST ? "CM_AMP_MAP.REQ from " : "CM_AMP_MAP.CNF from ", frame + 6, 6, ":");
    print_octets(" to ", frame, 6, ":");
    if (map.kind == LAHZAVAR_MAP_CONFIRMATION) {
        printf(": %s\n", map.result == 0 ? "success" : "failure");
        return 0;
    }
    printf(": %u carriers\n", (unsigned)map.carriers);
    print_request(&map, length, argc > 1 ? read_levels(argv + 2, (size_t)argc - 2, map.carriers) : 6);
    return 0;
}
