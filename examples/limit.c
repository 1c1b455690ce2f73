/*
 * Prints the gross mass of the first car of the rules' sheet with the limit of its permitted error.
 * Ends with the refusal as its status where there is one.
 *
 * At the top of the repository:
 *     bin/library
 *     cc -std=c99 -Wall -Wextra -O2 -Iinclude examples/limit.c target/staticlib/librack.a -o limit
 *     ./limit
 */
#include <inttypes.h>
#include <stdio.h>

#include "rack.h"

static const uint32_t types[RACK_TABLES] = { 1 };
static const uint32_t rows[RACK_TABLES] = { 4 };
static const uint32_t levels[RACK_PLACES] = { 0, 1000, 2000, 3000 };
static const uint32_t capacities[RACK_PLACES] = { 0, 20000, 50000, 70000 };

static const uint32_t car[RACK_FIELDS] = { 50000001, 1, 3, 1, 2, 1500, 1500, 0, 0, 0, 600, 9500, 50, 20 };

/* Capacity 0.50 %, density 0.16 %, processing 0.05 %, both temperatures 0.5 C, level 3.0 mm. */
static const uint32_t errors[RACK_ERRORS] = { 5000, 1600, 500, 5, 5, 30 };

int main(void)
{
    uint32_t figures[RACK_PERMITTED];
    uint32_t refusal = rack_permitted_error(1, types, RACK_TABLES, rows, RACK_TABLES, levels, RACK_PLACES,
                                            capacities, RACK_PLACES, car, RACK_FIELDS, errors, RACK_ERRORS,
                                            figures, RACK_PERMITTED);
    if (refusal != 0) {
        fprintf(stderr, "limit: refusal %" PRIu32 "\n", refusal);
        return (int)refusal;
    }
    uint32_t gross = figures[4], limit = figures[6];
    const char *allowed = gross < 100000 ? "0.65" : "0.50";
    printf("%" PRIu32 " kg, %" PRIu32 ".%04" PRIu32 " %%, %s %s %%\n", gross, limit / 10000, limit % 10000,
           figures[7] == 1 ? "within" : "not within", allowed);
    return 0;
}
