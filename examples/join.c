/* Splits a word of code 1, edits the BCH word of layer 2, and joins the parts to a codeword again. Then what joining refuses: a layer that is no BCH
 * word, and a configuration that no codeword has. From a checkout:
 *
 *     tools/build tugzeck
 *     cc -Wall -Wextra -Werror -I include examples/join.c target/staticlib/libtugzeck.a -o target/join
 *     target/join
 */
#include <stdio.h>

#include "tugzeck.h"

enum { CODE = 1, N = TUGZECK_WORD(CODE), BITS = TUGZECK_ROW(CODE), LAYERS = BITS / N };

static void show(const char *what, const uint8_t values[N]) {
    printf("%s", what);
    for (int i = 0; i < N; i++)
        printf(" %d", values[i]);
    printf("\n");
}

static int join(const uint16_t configuration[4], const uint8_t bch[BITS]) {
    uint8_t word[N];
    uint32_t refusal = tugzeck_join(CODE, configuration, bch, BITS, word, N);
    if (refusal != 0) {
        printf("refused %u\n", (unsigned)refusal);
        return 1;
    }
    show("word", word);
    printf("it is %s\n", tugzeck_check_word(CODE, word, N) == 0 ? "a codeword" : "no codeword");
    return 0;
}

int main(void) {
    static const uint8_t word[N] = {1, 1, 5, 4, 6, 2, 2};
    /* a word of the (7, 4) code of the layers: added to a BCH word, it gives another one */
    static const uint8_t added[N] = {1, 1, 0, 1, 0, 0, 0};
    static const char *const layers[LAYERS] = {"layer 1:", "layer 2:", "layer 3:"};
    uint8_t bch[BITS], *second = bch + N;

    show("word", word);
    struct tugzeck_splitting s = tugzeck_split(CODE, word, N, bch, BITS);
    if (s.number != 0) {
        printf("refused %u\n", (unsigned)s.number);
        return 1;
    }
    printf("configuration %d %d %d\nBCH words\n", s.configuration[0], s.configuration[1], s.configuration[2]);
    for (int j = 0; j < LAYERS; j++)
        show(layers[j], bch + j * N);

    for (int i = 0; i < N; i++)
        second[i] ^= added[i];
    printf("another BCH word\n");
    show(layers[1], second);
    if (join(s.configuration, bch) != 0)
        return 1;

    second[0] ^= 1;
    printf("one bit changed\n");
    show(layers[1], second);
    if (join(s.configuration, bch) == 0)
        return 1;

    second[0] ^= 1;
    s.configuration[2] = 0;
    printf("the bit as it was, and another configuration\n");
    printf("configuration %d %d %d\n", s.configuration[0], s.configuration[1], s.configuration[2]);
    return join(s.configuration, bch) == 0;
}
