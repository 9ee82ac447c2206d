/* Decodes two rows of code 1, and marks a word handed in for each. From a checkout:
 *
 *     tools/build tugzeck
 *     cc -Wall -Wextra -Werror -I include examples/decode.c target/staticlib/libtugzeck.a -o target/decode
 *     target/decode
 */
#include <stdio.h>

#include "tugzeck.h"

enum { CODE = 1, N = TUGZECK_WORD(CODE), BITS = TUGZECK_ROW(CODE) };

static int32_t scratch[TUGZECK_SCRATCH];

static int decode(const int16_t row[BITS]) {
    uint8_t word[N];
    int16_t soft[BITS];
    struct tugzeck_decoding d = tugzeck_decode(CODE, row, BITS, word, N, soft, BITS, scratch, TUGZECK_SCRATCH);
    if (d.number != 0) {
        printf("refused %u\n", (unsigned)d.number);
        return 1;
    }
    printf("word");
    for (int i = 0; i < N; i++)
        printf(" %d", word[i]);
    printf("\nmetric %d\nsoft outputs, a layer to a line\n", (int)d.metric);
    for (int j = 0; j < BITS / N; j++)
        for (int i = 0; i < N; i++)
            printf("%d%c", soft[i * (BITS / N) + j], i + 1 < N ? ' ' : '\n');
    return 0;
}

static int mark(const int16_t row[BITS], const uint8_t word[N]) {
    static const char *const verdicts[] = {"none", "short", "best"};
    struct tugzeck_marking m = tugzeck_mark(CODE, row, BITS, word, N, scratch, TUGZECK_SCRATCH);
    if (m.number != 0) {
        printf("refused %u\n", (unsigned)m.number);
        return 1;
    }
    printf("the word handed in is %s", verdicts[m.verdict]);
    if (m.verdict == TUGZECK_SHORT)
        printf(" by %d", (int)m.shortfall);
    printf("\n");
    return 0;
}

int main(void) {
    /* the codeword of the message 1 0 0 0 0 */
    static const uint8_t handed[N] = {3, 6, 1, 0, 0, 0, 0};
    int16_t row[BITS];
    for (int b = 0; b < BITS; b++)
        row[b] = 10;
    printf("every reliability 10\n");
    if (decode(row) != 0 || mark(row, handed) != 0)
        return 1;
    row[0] = -10;
    printf("bit 0 at -10\n");
    return decode(row) != 0 || mark(row, handed) != 0;
}
