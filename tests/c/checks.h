/* Numbers and octets compared with what is expected, for the programs of this folder. */
#ifndef CHECKS_H
#define CHECKS_H

#include <stddef.h>
#include <stdint.h>
#include <stdio.h>

static int faults;

/* Counts a number that is not the expected one, and says which. */
static inline void same(const char *what, size_t found, size_t expected)
{
    if (found != expected) {
        fprintf(stderr, "%s is %lu, not %lu\n", what, (unsigned long)found, (unsigned long)expected);
        faults++;
    }
}

/* The same for so many octets, all of which are to have one value. */
static inline void all_octets(const char *what, const uint8_t *octets, size_t count, uint8_t value)
{
    size_t at;
    for (at = 0; at < count; at++) {
        same(what, octets[at], value);
    }
}

#endif
