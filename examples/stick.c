/*
 * Prints how far a stick level of 1500.4 mm lies from the mean of sixteen tape readings, and whether it passes.
 * Ends with the refusal as its status where there is one.
 *
 * At the top of the repository:
 *     bin/library
 *     cc -std=c99 -Wall -Wextra -O2 -Iinclude examples/stick.c target/staticlib/librack.a -o stick
 *     ./stick
 */
#include <inttypes.h>
#include <stdio.h>

#include "rack.h"

/* Sixteen readings in mm; the last four places are not looked at. */
static const uint32_t readings[RACK_TAPE_READINGS] = {
    1500, 1500, 1500, 1500, 1500, 1500, 1500, 1500, 1500, 1500, 1501, 1501, 1501, 1501, 1501, 1501
};

/* The stick level in 0.1 mm. */
static const uint64_t stick = 15004;

int main(void)
{
    uint32_t figures[RACK_STICK];
    uint32_t refusal = rack_stick_against_tape(stick, 16, readings, RACK_TAPE_READINGS, figures, RACK_STICK);
    if (refusal != 0) {
        fprintf(stderr, "stick: refusal %" PRIu32 "\n", refusal);
        return (int)refusal;
    }
    uint32_t size = figures[1], allowance = figures[3];
    printf("%s%" PRIu32 ".%02" PRIu32 " mm, %s; tape allowance %" PRIu32 ".%02" PRIu32 " mm\n",
           figures[0] == 1 ? "-" : "", size / 100, size % 100, figures[2] == 1 ? "passes" : "does not pass",
           allowance / 100, allowance % 100);
    return 0;
}
