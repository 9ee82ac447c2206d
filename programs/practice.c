/* Writes a practice sheet, drawn from a seed, on standard output: the same drill at home as in class. From a checkout:
 *
 *     tools/build tugzeck
 *     cc -std=c99 -pedantic -Wall -Wextra -Werror -I include programs/practice.c target/staticlib/libtugzeck.a -o target/practice
 *     target/practice 3 20 0x2A > target/drill.sheet
 *
 * writes 20 questions of code 3, drawn from the state 42, and says on standard error with which SEED the drill goes on: 30 more from there have the rows that
 * 50 would have had. CODE is 1 to 5, COUNT 0 to 200, SEED any number below 2^32; each in decimal, or in hexadecimal behind 0x. Status 0: the sheet is
 * written; 1: it could not be; 2: an argument is wrong, and nothing is written.
 */
#include <stdio.h>

#include "tugzeck.h"

static const char usage[] = "usage: practice CODE COUNT SEED, numbers in decimal or as 0x...; the sheet goes to standard output\n";

enum { CODE, COUNT, SEED, ARGUMENTS };

static const struct {
    const char *name, *expected;
} arguments[ARGUMENTS] = {
    {"CODE", "a number from 1 to 5"},
    {"COUNT", "a number from 0 to 200"},
    {"SEED", "a number from 0 to 4294967295"},
};

/* Says on one line which argument is wrong and what is expected of it, then the usage. What is not printable ASCII shows as a question mark. */
static int wrong(int argument, const char *quote, const char *text) {
    fprintf(stderr, "practice: %s is %s", arguments[argument].name, quote);
    for (; *text != '\0'; text++)
        putc(*text >= ' ' && *text <= '~' ? *text : '?', stderr);
    fprintf(stderr, "%s; %s is expected\n%s", quote, arguments[argument].expected, usage);
    return 2;
}

/* The value of a digit, 16 for what is none. */
static unsigned digit(char c) {
    if (c >= '0' && c <= '9')
        return (unsigned)(c - '0');
    if (c >= 'a' && c <= 'f')
        return (unsigned)(c - 'a') + 10;
    if (c >= 'A' && c <= 'F')
        return (unsigned)(c - 'A') + 10;
    return 16;
}

/* Whether a text is a number below 2^32 and nothing else: decimal digits, or 0x and hexadecimal digits. If so, its value is stored. */
static int is_number(const char *text, uint32_t *value) {
    unsigned base = 10;
    uint64_t sum = 0;
    if (text[0] == '0' && text[1] == 'x') {
        base = 16;
        text += 2;
    }
    do {
        unsigned d = digit(*text);
        if (d >= base)
            return 0;
        sum = sum * base + d;
        if (sum > UINT32_MAX)
            return 0;
    } while (*++text != '\0');
    *value = (uint32_t)sum;
    return 1;
}

int main(int argc, char **argv) {
    static uint8_t sheet[TUGZECK_MOST_SHEET];
    uint32_t numbers[ARGUMENTS];
    if (argc != 1 + ARGUMENTS) {
        fputs(usage, stderr);
        return 2;
    }
    for (int i = 0; i < ARGUMENTS; i++)
        if (!is_number(argv[1 + i], &numbers[i]))
            return wrong(i, "'", argv[1 + i]);

    /* what would be longer than the longest sheet has more than 200 questions, and is refused by 12 whatever length is handed over */
    size_t length = TUGZECK_PRACTICE_BYTES(numbers[CODE], numbers[COUNT]);
    if (length > sizeof sheet)
        length = sizeof sheet;
    struct tugzeck_drawn d = tugzeck_practice(numbers[CODE], numbers[COUNT], numbers[SEED], sheet, length);
    if (d.number == TUGZECK_COUNT)
        return wrong(COUNT, "", argv[1 + COUNT]);
    if (d.number == TUGZECK_CODE)
        return wrong(CODE, "", argv[1 + CODE]);
    if (d.number != 0) {
        fprintf(stderr, "practice: refused by %u\n", (unsigned)d.number);
        return 1;
    }
    if (fwrite(sheet, 1, length, stdout) != length || fflush(stdout) != 0 || ferror(stdout)) {
        fputs("practice: the sheet could not be written to standard output\n", stderr);
        return 1;
    }
    fprintf(stderr, "practice: to go on from here, SEED is 0x%08lX\n", (unsigned long)d.state);
    return 0;
}
