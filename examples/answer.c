/*
 * Answers the sheet in a file or on standard input: answer [FILE].
 * Ends with the sheet's refusal number as its status, 0 where it has none, 100 for other trouble.
 *
 * At the top of the repository:
 *     bin/library
 *     cc -std=c99 -Wall -Wextra -O2 -Iinclude examples/answer.c target/staticlib/librack.a -o answer
 *     ./answer crates/rack/stdin
 */
#include <stdio.h>

#include "rack.h"

enum { TROUBLE = 100 };

int main(int argc, char **argv)
{
    /* One byte more than the longest sheet, so that a longer one is seen to be too long. */
    static uint8_t sheet[RACK_SHEET_BYTES + 1];
    static uint8_t answer[RACK_ANSWER_BYTES];

    FILE *file = argc > 1 ? fopen(argv[1], "rb") : stdin;
    if (file == NULL) {
        perror(argv[1]);
        return TROUBLE;
    }
    size_t sheet_length = fread(sheet, 1, sizeof sheet, file);
    if (ferror(file)) {
        perror("answer");
        return TROUBLE;
    }

    uint32_t number;
    size_t length = rack_answer_sheet(sheet, sheet_length, answer, sizeof answer, &number);

    if (fwrite(answer, 1, length, stdout) != length || fflush(stdout) != 0) {
        perror("answer");
        return TROUBLE;
    }
    return (int)number;
}
