/* A word of code 1 as a quadrature receiver delivers it: ten symbols of two bits and one of one, the first and the last lost. Turns what was
 * received into a row, and decodes it. From a checkout:
 *
 *     tools/build tugzeck
 *     cc -Wall -Wextra -Werror -I include examples/receive.c target/staticlib/libtugzeck.a -o target/receive
 *     target/receive
 */
#include <stdio.h>

#include "tugzeck.h"

enum { CODE = 1, N = TUGZECK_WORD(CODE), BITS = TUGZECK_ROW(CODE), SYMBOLS = 11 };

int main(void) {
    /* the bits of the codeword 3 6 1 0 0 0 0, lowest first: 11 00 11 10 and zeros; 0 is sent as 1, 1 as -1 */
    static const uint8_t kinds[SYMBOLS] = {TUGZECK_LOST_TWO, TUGZECK_PAIR, TUGZECK_PAIR, TUGZECK_PAIR, TUGZECK_PAIR,    TUGZECK_PAIR,
                                           TUGZECK_PAIR,     TUGZECK_PAIR, TUGZECK_PAIR, TUGZECK_PAIR, TUGZECK_LOST_ONE};
    static const float samples[] = {0.9f, 1.1f, -1.2f, -0.8f, -1.0f, 0.7f, 1.0f, 1.3f, 0.9f, -0.2f, 1.1f, 1.0f, 0.8f, 0.9f, 1.2f, 1.0f, 1.1f, 0.6f};
    int16_t row[BITS], soft[BITS];
    uint8_t word[N];
    static int32_t scratch[TUGZECK_SCRATCH];

    uint32_t refusal = tugzeck_receive(CODE, kinds, SYMBOLS, samples, sizeof samples / sizeof *samples, row, BITS);
    if (refusal != 0) {
        printf("refused %u\n", (unsigned)refusal);
        return 1;
    }
    printf("row");
    for (int b = 0; b < BITS; b++)
        printf(" %d", row[b]);
    struct tugzeck_decoding d = tugzeck_decode(CODE, row, BITS, word, N, soft, BITS, scratch, TUGZECK_SCRATCH);
    if (d.number != 0) {
        printf("refused %u\n", (unsigned)d.number);
        return 1;
    }
    printf("\nword");
    for (int i = 0; i < N; i++)
        printf(" %d", word[i]);
    printf("\nmetric %d\n", (int)d.metric);
    return 0;
}
