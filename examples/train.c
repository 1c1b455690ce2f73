/*
 * Enters the cars of a sheet in a train and strikes them from it, each as its line comes, and prints a
 * line for each, the totals and those of each grade: train [FILE]. Ends with the refusal of the first
 * line that cannot be read as its status, 100 for other trouble.
 *
 * At the top of the repository:
 *     bin/library
 *     cc -std=c99 -Wall -Wextra -O2 -Iinclude examples/train.c target/staticlib/librack.a -o train
 *     ./train examples/strikes.txt
 */
#include <stdio.h>
#include <string.h>

#include "rack.h"

enum { TROUBLE = 100, ROWS = RACK_PLACES / RACK_TABLES };

/* The tables read so far, and how many rows of the last. */
static uint32_t tables, row, types[RACK_TABLES], rows[RACK_TABLES];
static uint32_t levels[RACK_PLACES], capacities[RACK_PLACES];

static uint32_t train[RACK_TRAIN];

/* Prints a line of the letter, of which each number is small enough. */
static void print(uint8_t letter, const uint32_t numbers[RACK_FIELDS])
{
    uint8_t line[128];
    size_t length;
    if (rack_write_line(letter, numbers, RACK_FIELDS, line, sizeof line, &length) == 0)
        fwrite(line, 1, length, stdout);
}

static void enter(const uint32_t car[RACK_FIELDS])
{
    uint32_t answer[RACK_FIELDS] = { car[0] };
    uint32_t number = rack_train_enter(train, RACK_TRAIN, tables, types, RACK_TABLES, rows, RACK_TABLES,
                                       levels, RACK_PLACES, capacities, RACK_PLACES,
                                       car, RACK_FIELDS, answer, RACK_FIGURES);
    answer[1] = number == 0 ? answer[1] : number;
    print(number == 0 ? 'A' : 'X', answer);
}

/* Takes the car of a number out of the train, if it is held; its place and number may be used again. */
static void strike(uint32_t car_number)
{
    uint32_t number = rack_train_strike(train, RACK_TRAIN, car_number);
    uint32_t answer[RACK_FIELDS] = { car_number, number };
    print(number == 0 ? 'K' : 'X', answer);
}

/* Prints the S line and the four G lines. No total needs its high 32 bits: none passes 12,000,000 kg. */
static void print_totals(void)
{
    uint32_t all[RACK_FIELDS] = { train[RACK_TRAIN_ACCEPTED], train[RACK_TRAIN_GROSS], train[RACK_TRAIN_NET] };
    print('S', all);
    for (uint32_t grade = 1; grade <= 4; grade++) {
        const uint32_t *totals = train + RACK_TRAIN_GRADE(grade);
        uint32_t line[RACK_FIELDS] = {
            grade, totals[RACK_TRAIN_ACCEPTED], totals[RACK_TRAIN_GROSS], totals[RACK_TRAIN_NET]
        };
        print('G', line);
    }
}

/* Takes a line in; whether it had a place. */
static int take(uint8_t letter, const uint32_t numbers[RACK_FIELDS])
{
    if (letter == 'T' && tables < RACK_TABLES) {
        types[tables] = numbers[0];
        rows[tables] = numbers[1];
        tables++;
        row = 0;
    } else if (letter == 'R' && tables > 0 && row < ROWS) {
        levels[ROWS * (tables - 1) + row] = numbers[0];
        capacities[ROWS * (tables - 1) + row] = numbers[1];
        row++;
    } else if (letter == 'C') {
        enter(numbers);
    } else if (letter == 'K') {
        strike(numbers[0]);
    } else {
        return 0;
    }
    return 1;
}

int main(int argc, char **argv)
{
    static uint8_t sheet[RACK_SHEET_BYTES];
    FILE *file = argc > 1 ? fopen(argv[1], "rb") : stdin;
    if (file == NULL) {
        perror(argv[1]);
        return TROUBLE;
    }
    size_t length = fread(sheet, 1, sizeof sheet, file);

    rack_train_empty(train, RACK_TRAIN);
    uint8_t letter = 0;
    for (size_t at = 0; letter != 'E';) {
        uint32_t numbers[RACK_FIELDS];
        uint32_t number = rack_read_line(sheet + at, length - at, &letter, numbers, RACK_FIELDS);
        if (number != 0)
            return (int)number;
        if (letter != 'E' && !take(letter, numbers))
            return TROUBLE;
        at += (size_t)((uint8_t *)memchr(sheet + at, '\n', length - at) - (sheet + at)) + 1;
    }
    print_totals();
    return ferror(file) || fflush(stdout) != 0 ? TROUBLE : 0;
}
