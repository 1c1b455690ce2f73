/*
 * Prints the set of a portable probe in tenths, the masses of its car alone, and the totals of a train that
 * holds the first car of the rules' sheet and, behind it, the probe's. Ends with the refusal as its status
 * where there is one.
 *
 * At the top of the repository, with a level in mm, a temperature in C and a density in kg/m3 at 15 C:
 *     bin/library
 *     cc -std=c99 -Wall -Wextra -O2 -Iinclude examples/probe.c target/staticlib/librack.a -o probe
 *     ./probe 1500.35 60.15 950.15
 */
#include <inttypes.h>
#include <stdio.h>
#include <stdlib.h>

#include "rack.h"

static const uint32_t types[RACK_TABLES] = { 1 };
static const uint32_t rows[RACK_TABLES] = { 4 };
static const uint32_t levels[RACK_PLACES] = { 0, 1000, 2000, 3000 };
static const uint32_t capacities[RACK_PLACES] = { 0, 20000, 50000, 70000 };

/* The tables, as every function takes them. */
#define TABLES 1, types, RACK_TABLES, rows, RACK_TABLES, levels, RACK_PLACES, capacities, RACK_PLACES

static const uint32_t dipped[RACK_FIELDS] = { 50000001, 1, 3, 1, 2, 1500, 1500, 0, 0, 0, 600, 9500, 50, 20 };

/* Number, type, grade, stick, water level in mm, water and impurities in 0.01 %. */
static const uint32_t car[RACK_PROBE_FIELDS] = { 50000003, 1, 3, 2, 0, 50, 20 };

/* The float that an argument is; ends the program where it is none. */
static float float_of(const char *text)
{
    char *end;
    float number = strtof(text, &end);
    if (end == text || *end != 0) {
        fprintf(stderr, "probe: %s is no number\n", text);
        exit(2);
    }
    return number;
}

/* Ends the program with a refusal, if there is one. */
static void check(uint32_t refusal)
{
    if (refusal != 0) {
        fprintf(stderr, "probe: refusal %" PRIu32 "\n", refusal);
        exit((int)refusal);
    }
}

static void print_set(float level, float temperature, float density)
{
    uint32_t set[RACK_SET];
    check(rack_set_tenths(level, temperature, density, set, RACK_SET));
    printf("%" PRIu32 ".%" PRIu32 " mm, %" PRIu32 ".%" PRIu32 " C, %" PRIu32 ".%" PRIu32 " kg/m3\n",
           set[0] / 10, set[0] % 10, set[1] / 10, set[1] % 10, set[2] / 10, set[2] % 10);
}

static void print_car(float level, float temperature, float density)
{
    uint32_t figures[RACK_FIGURES];
    check(rack_work_out_probe(TABLES, car, RACK_PROBE_FIELDS, level, temperature, density,
                              figures, RACK_FIGURES));
    printf("%" PRIu32 " kg gross, %" PRIu32 " kg net\n", figures[4], figures[5]);
}

/* No total needs its high 32 bits: none passes 12,000,000 kg. */
static void print_train(float level, float temperature, float density)
{
    uint32_t train[RACK_TRAIN], figures[RACK_FIGURES];
    check(rack_train_empty(train, RACK_TRAIN));
    check(rack_train_enter(train, RACK_TRAIN, TABLES, dipped, RACK_FIELDS, figures, RACK_FIGURES));
    check(rack_train_enter_probe(train, RACK_TRAIN, TABLES, car, RACK_PROBE_FIELDS,
                                 level, temperature, density, figures, RACK_FIGURES));
    printf("train: %" PRIu32 " cars, %" PRIu32 " kg gross, %" PRIu32 " kg net\n",
           train[RACK_TRAIN_ACCEPTED], train[RACK_TRAIN_GROSS], train[RACK_TRAIN_NET]);
}

int main(int count, char **arguments)
{
    if (count != 4) {
        fprintf(stderr, "probe: give a level in mm, a temperature in C and a density in kg/m3 at 15 C\n");
        return 2;
    }
    float level = float_of(arguments[1]), temperature = float_of(arguments[2]), density = float_of(arguments[3]);
    print_set(level, temperature, density);
    print_car(level, temperature, density);
    print_train(level, temperature, density);
    return 0;
}
