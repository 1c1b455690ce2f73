/*
 * Prints the density at 15 C of oil whose density a laboratory reports at its own temperature.
 * Ends with the refusal as its status where there is one.
 *
 * At the top of the repository, with a density in 0.1 kg/m3 and a temperature in 0.1 C:
 *     bin/library
 *     cc -std=c99 -Wall -Wextra -O2 -Iinclude examples/density.c target/staticlib/librack.a -o density
 *     ./density 9300 500
 */
#include <errno.h>
#include <inttypes.h>
#include <stdio.h>
#include <stdlib.h>

#include "rack.h"

/* The number that an argument is; ends the program where it is none of 32 bits. */
static uint32_t number_of(const char *text)
{
    char *end;
    errno = 0;
    unsigned long long n = strtoull(text, &end, 10);
    if (*text < '0' || *text > '9' || *end != 0 || errno != 0 || n > UINT32_MAX) {
        fprintf(stderr, "density: %s is no number from 0 to %" PRIu32 "\n", text, UINT32_MAX);
        exit(2);
    }
    return (uint32_t)n;
}

int main(int count, char **arguments)
{
    if (count != 3) {
        fprintf(stderr, "density: give the density reported and its temperature, both in tenths\n");
        return 2;
    }
    uint32_t density;
    uint32_t refusal = rack_density_at_15(number_of(arguments[1]), number_of(arguments[2]), &density);
    if (refusal != 0) {
        fprintf(stderr, "density: refusal %" PRIu32 "\n", refusal);
        return (int)refusal;
    }
    printf("%" PRIu32 ".%" PRIu32 " kg/m3 at 15 C\n", density / 10, density % 10);
    return 0;
}
