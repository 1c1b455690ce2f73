/*
 * Makes one sheet of the sheets in two files, and prints it and behind it its listing: merge FIRST SECOND.
 * Ends with the refusal of the merge as its status, 0 where it has none, 100 for other trouble.
 *
 * At the top of the repository:
 *     bin/library
 *     cc -std=c99 -Wall -Wextra -O2 -Iinclude examples/merge.c target/staticlib/librack.a -o merge
 *     ./merge examples/front.txt examples/rear.txt
 */
#include <stdio.h>
#include <stdlib.h>

#include "rack.h"

enum { TROUBLE = 100 };

/* One byte more than the longest sheet, so that a longer one is seen to be too long. */
static uint8_t first[RACK_SHEET_BYTES + 1], second[RACK_SHEET_BYTES + 1];
static uint8_t merged[RACK_MERGE_BYTES], answer[RACK_ANSWER_BYTES];

static void trouble(const char *with)
{
    perror(with);
    exit(TROUBLE);
}

/* Reads the sheet in a file; its length. */
static size_t read_sheet(const char *name, uint8_t sheet[RACK_SHEET_BYTES + 1])
{
    FILE *file = fopen(name, "rb");
    if (file == NULL)
        trouble(name);
    size_t length = fread(sheet, 1, RACK_SHEET_BYTES + 1, file);
    if (ferror(file))
        trouble(name);
    fclose(file);
    return length;
}

static void print(const uint8_t *text, size_t length)
{
    if (fwrite(text, 1, length, stdout) != length || fflush(stdout) != 0)
        trouble("merge");
}

int main(int argc, char **argv)
{
    if (argc != 3) {
        fprintf(stderr, "usage: merge FIRST SECOND\n");
        return TROUBLE;
    }
    size_t first_length = read_sheet(argv[1], first), second_length = read_sheet(argv[2], second);

    uint32_t number, line;
    size_t length = rack_merge_sheets(first, first_length, second, second_length,
                                      merged, sizeof merged, &number, &line);
    if (number != 0) {
        fprintf(stderr, "merge: refusal %u, line %u\n", (unsigned)number, (unsigned)line);
        return (int)number;
    }
    print(merged, length);

    /* A merged sheet is a sheet, and no refusal turns it away whole. */
    length = rack_answer_sheet(merged, length, answer, sizeof answer, &number);
    print(answer, length);
    return (int)number;
}
