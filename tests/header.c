/* Every call through include/tugzeck.h, with every field of every result. Says how many answers it compared; stops at the first that differs. */
#include <stdio.h>
#include <string.h>

#include "tugzeck.h"

static unsigned compared;

#define SAME(a, b)                                                                            \
    do {                                                                                      \
        long long x = (long long)(a), y = (long long)(b);                                     \
        if (x != y) {                                                                         \
            printf("line %d: %s is %lld and not %lld\n", __LINE__, #a, x, y);                 \
            return 1;                                                                         \
        }                                                                                     \
        compared++;                                                                           \
    } while (0)

static const char listing[] =
    "question code best verdict short bits least\n"
    "7 1 180 short 84 ?00?00000?00000000000 0\n"
    "16777215 3 600 best 0 000000000000000000000000000000000000000000000000000000000000 60\n"
    "8 4 600 short 200 000000000000000000000000000000000000000000000000000000000000 100\n"
    "9 5 600 none - 000000000000000000000000000000000000000000000000000000000000 140\n"
    "4 questions\n";

int main(void) {
    static const uint8_t message[5] = {1, 0, 0, 0, 0}, codeword[7] = {3, 6, 1, 0, 0, 0, 0}, other[7] = {1, 0, 0, 0, 0, 0, 0};
    uint8_t word[TUGZECK_MOST_WORD], read[TUGZECK_MOST_MESSAGE], bch[TUGZECK_MOST_ROW];
    int16_t row[TUGZECK_MOST_ROW], soft[TUGZECK_MOST_ROW];

    SAME(tugzeck_encode(1, message, 5, word, 7), 0);
    SAME(memcmp(word, codeword, 7), 0);
    SAME(tugzeck_encode(0, message, 5, word, 7), TUGZECK_CODE);
    SAME(tugzeck_encode(6, message, 5, word, 7), TUGZECK_CODE);
    SAME(tugzeck_encode(1, message, 4, word, 7), TUGZECK_WORD_LENGTH);
    SAME(tugzeck_encode(1, message, 5, word, 8), TUGZECK_OUTPUT);

    SAME(tugzeck_read_word(1, codeword, 7, read, 5), 0);
    SAME(memcmp(read, message, 5), 0);
    SAME(tugzeck_read_word(1, other, 7, read, 5), TUGZECK_NO_CODEWORD);
    SAME(tugzeck_check_word(1, codeword, 7), 0);
    SAME(tugzeck_check_word(1, other, 7), TUGZECK_NO_CODEWORD);
    SAME(tugzeck_check_word(1, other, 6), TUGZECK_WORD_LENGTH);

    /* Message 1 then zeros of (15, 11) and (15, 9): by number, by m and r, and the refusals of the choice. */
    static const uint8_t eleven[TUGZECK_MESSAGE_BY(4, 4)] = {1}, nine[TUGZECK_MESSAGE(5)] = {1};
    static const uint8_t by_four[TUGZECK_WORD_BY(4)] = {7, 8, 12, 13, 1}, by_six[TUGZECK_WORD(5)] = {12, 10, 12, 3, 9, 7, 1};
    SAME(tugzeck_encode(4, eleven, TUGZECK_MESSAGE(4), word, TUGZECK_WORD(4)), 0);
    SAME(memcmp(word, by_four, 15), 0);
    SAME(tugzeck_encode(5, nine, TUGZECK_MESSAGE(5), word, TUGZECK_WORD(5)), 0);
    SAME(memcmp(word, by_six, 15), 0);
    SAME(tugzeck_read_word(4, by_four, 15, read, 11), 0);
    SAME(memcmp(read, eleven, 11), 0);
    SAME(tugzeck_read_word(5, by_four, 15, read, 9), TUGZECK_NO_CODEWORD);
    SAME(tugzeck_check_word(4, by_six, 15), 0);
    SAME(tugzeck_check_word(5, by_six, 15), 0);
    SAME(tugzeck_check_word(5, by_four, 15), TUGZECK_NO_CODEWORD);
    memset(word, 0, sizeof word);
    SAME(tugzeck_encode_by(4, 4, eleven, 11, word, 15), 0);
    SAME(memcmp(word, by_four, 15), 0);
    SAME(tugzeck_encode_by(5, 9, eleven, 11, word, 15), TUGZECK_CODE);
    SAME(tugzeck_encode_by(4, 3, eleven, 12, word, 15), TUGZECK_ROOTS);
    SAME(tugzeck_encode_by(4, 4, eleven, 10, word, 15), TUGZECK_WORD_LENGTH);
    SAME(tugzeck_read_word_by(4, 4, by_four, 15, read, 11), 0);
    SAME(memcmp(read, eleven, 11), 0);
    SAME(tugzeck_read_word_by(4, 6, by_four, 15, read, 9), TUGZECK_NO_CODEWORD);
    SAME(tugzeck_check_word_by(4, 4, by_four, 15), 0);
    SAME(tugzeck_check_word_by(4, 6, by_four, 15), TUGZECK_NO_CODEWORD);
    SAME(tugzeck_check_word_by(3, 7, by_four, 15), TUGZECK_ROOTS);
    struct tugzeck_splitting b = tugzeck_split_by(4, 4, by_four, 15, bch, TUGZECK_ROW_BY(4));
    SAME(b.number, 0);
    SAME(b.configuration[0], 74);
    SAME(b.configuration[1], 17);
    SAME(b.configuration[2], 125);
    SAME(b.configuration[3], 238);
    SAME(bch[0], 1);
    SAME(bch[1], 0);
    memset(word, 0, sizeof word);
    SAME(tugzeck_join_by(4, 4, b.configuration, bch, TUGZECK_ROW_BY(4), word, TUGZECK_WORD_BY(4)), 0);
    SAME(memcmp(word, by_four, 15), 0);
    SAME(tugzeck_join_by(5, 4, b.configuration, bch, 60, word, 15), TUGZECK_CODE);
    SAME(tugzeck_join_by(4, 3, b.configuration, bch, 60, word, 15), TUGZECK_ROOTS);
    SAME(tugzeck_join_by(4, 6, b.configuration, bch, 60, word, 15), TUGZECK_NO_BCH_WORD);
    SAME(tugzeck_join_by(4, 2, b.configuration, bch, 60, word, 15), TUGZECK_CONFIGURATION);
    SAME(memcmp(word, by_four, 15), 0);
    b = tugzeck_split_by(4, 5, by_four, 15, bch, 60);
    SAME(b.number, TUGZECK_ROOTS);
    SAME(b.configuration[0] | b.configuration[1] | b.configuration[2] | b.configuration[3], 0);

    struct tugzeck_splitting s = tugzeck_split(4, by_four, 15, bch, TUGZECK_ROW(4));
    SAME(s.number, 0);
    SAME(s.configuration[0], 74);
    SAME(s.configuration[3], 238);
    s = tugzeck_split(1, codeword, 7, bch, 21);
    SAME(s.number, 0);
    SAME(s.configuration[0], 5);
    SAME(s.configuration[1], 3);
    SAME(s.configuration[2], 2);
    SAME(s.configuration[3], 0);
    memset(word, 9, sizeof word);
    SAME(tugzeck_join(6, s.configuration, bch, 20, word, 6), TUGZECK_CODE);
    SAME(tugzeck_join(1, s.configuration, bch, 20, word, 6), TUGZECK_WORD_LENGTH);
    SAME(tugzeck_join(1, s.configuration, bch, 21, word, 6), TUGZECK_OUTPUT);
    s.configuration[3] = 1;
    bch[20] = 2;
    SAME(tugzeck_join(1, s.configuration, bch, 21, word, 7), TUGZECK_NO_BCH_WORD);
    bch[20] = 1;
    SAME(tugzeck_join(1, s.configuration, bch, 21, word, 7), TUGZECK_NO_BCH_WORD);
    bch[20] = 0;
    SAME(tugzeck_join(1, s.configuration, bch, 21, word, 7), TUGZECK_CONFIGURATION);
    s.configuration[3] = 0;
    s.configuration[2] = 3;
    SAME(tugzeck_join(1, s.configuration, bch, 21, word, 7), TUGZECK_CONFIGURATION);
    s.configuration[2] = 8 + 2;
    SAME(tugzeck_join(1, s.configuration, bch, 21, word, 7), TUGZECK_CONFIGURATION);
    for (int i = 0; i < TUGZECK_MOST_WORD; i++)
        SAME(word[i], 9);
    s.configuration[2] = 2;
    SAME(tugzeck_join(1, s.configuration, bch, 21, word, 7), 0);
    SAME(memcmp(word, codeword, 7), 0);
    SAME(word[7], 9);
    s = tugzeck_split(1, other, 7, bch, 21);
    SAME(s.number, TUGZECK_NO_CODEWORD);
    SAME(s.configuration[0] | s.configuration[1] | s.configuration[2] | s.configuration[3], 0);

    float samples[21];
    for (int i = 0; i < 21; i++)
        samples[i] = 0;
    samples[0] = 1.0f;
    samples[1] = 1.0f / 64;
    samples[2] = -1.0f / 64;
    samples[20] = 3.984375f;
    SAME(tugzeck_quantise(1, samples, 21, row, 21), 0);
    SAME(row[0], 32);
    SAME(row[1], 1);
    SAME(row[2], -1);
    SAME(row[3], 0);
    SAME(row[20], 127);
    row[20] = 0;
    SAME(tugzeck_quantise_by(3, 6, samples, 21, row, 21), 0);
    SAME(row[20], 127);
    SAME(tugzeck_quantise_by(4, 6, samples, 21, row, 60), TUGZECK_ROW_LENGTH);
    SAME(tugzeck_quantise_by(3, 0, samples, 21, row, 21), TUGZECK_ROOTS);
    samples[20] = samples[3] / samples[3];
    SAME(tugzeck_quantise(1, samples, 21, row, 21), TUGZECK_SAMPLE);

    static const uint8_t kinds[13] = {TUGZECK_PAIR, TUGZECK_LOST_TWO, TUGZECK_SINGLE, TUGZECK_LOST_ONE, 1, 1, 1, 1, 1, 1, 1, 0, 0},
                         kind_4[1] = {4};
    static const float received[4] = {1.0f, -1.0f / 64, 3.984375f, 0};
    SAME(tugzeck_receive(1, kinds, 11, received, 3, row, 21), TUGZECK_FILL);
    SAME(tugzeck_receive(1, kinds, 13, received, 3, row, 21), TUGZECK_FILL);
    SAME(tugzeck_receive(1, kinds, 12, received, 2, row, 21), TUGZECK_FILL);
    SAME(tugzeck_receive(1, kinds, 12, received, 4, row, 21), TUGZECK_FILL);
    SAME(tugzeck_receive(1, kinds, 12, received, 3, row, 21), 0);
    SAME(row[0], 32);
    SAME(row[1], -1);
    SAME(row[2] | row[3], 0);
    SAME(row[4], 127);
    row[4] = 0;
    SAME(tugzeck_receive_by(3, 1, kinds, 12, received, 3, row, 21), 0);
    SAME(row[4], 127);
    SAME(tugzeck_receive_by(2, 1, kinds, 12, received, 3, row, 21), TUGZECK_CODE);
    SAME(tugzeck_receive(1, kind_4, 1, received, 3, row, 21), TUGZECK_SYMBOL_KIND);
    SAME(tugzeck_receive(1, kind_4, 1, received, 3, row, 20), TUGZECK_OUTPUT);

    for (int i = 0; i < TUGZECK_MOST_ROW; i++)
        row[i] = -10;
    static int32_t scratch[TUGZECK_SCRATCH];
    scratch[0] = scratch[TUGZECK_SCRATCH - 1] = 9;
    struct tugzeck_decoding d = tugzeck_decode(1, row, 21, word, 7, soft, 21, scratch, TUGZECK_SCRATCH - 1);
    SAME(d.number, TUGZECK_SCRATCH_LENGTH);
    SAME(d.metric, 0);
    SAME(scratch[0], 9);
    d = tugzeck_decode(1, row, 21, word, 7, soft, 21, scratch, TUGZECK_SCRATCH);
    SAME(d.number, 0);
    SAME(d.metric, 210);
    for (int i = 0; i < 7; i++)
        SAME(word[i], 7);
    for (int i = 0; i < 21; i++)
        SAME(soft[i], -60);
    for (int i = 0; i < TUGZECK_SCRATCH; i++)
        SAME(scratch[i], 0);
    scratch[0] = scratch[TUGZECK_SCRATCH - 1] = 9;
    d = tugzeck_decode_by(3, 2, row, 21, word, 7, soft, 21, scratch, TUGZECK_SCRATCH - 1);
    SAME(d.number, TUGZECK_SCRATCH_LENGTH);
    SAME(scratch[0], 9);
    d = tugzeck_decode_by(3, 2, row, 21, word, 7, soft, 21, scratch, TUGZECK_SCRATCH);
    SAME(d.number, 0);
    SAME(d.metric, 210);
    SAME(soft[20], -60);
    for (int i = 0; i < TUGZECK_SCRATCH; i++)
        SAME(scratch[i], 0);
    for (uint32_t code = 4; code <= 5; code++) {
        d = tugzeck_decode(code, row, TUGZECK_ROW(code), word, TUGZECK_WORD(code), soft, TUGZECK_ROW(code), scratch, TUGZECK_SCRATCH);
        SAME(d.number, 0);
        SAME(d.metric, 600);
        SAME(word[14], 15);
        SAME(soft[59], code == 4 ? -100 : -140);
    }
    row[20] = -128;
    scratch[0] = 9;
    d = tugzeck_decode(1, row, 21, word, 7, soft, 21, scratch, TUGZECK_SCRATCH);
    SAME(d.number, TUGZECK_RELIABILITY);
    SAME(d.metric, 0);
    SAME(scratch[0], 9);

    for (int i = 0; i < TUGZECK_MOST_ROW; i++)
        row[i] = 10;
    struct tugzeck_marking m = tugzeck_mark(1, row, 21, codeword, 7, scratch, TUGZECK_SCRATCH - 1);
    SAME(m.number, TUGZECK_SCRATCH_LENGTH);
    SAME(m.verdict, 0);
    SAME(m.shortfall, 0);
    SAME(scratch[0], 9);
    m = tugzeck_mark(1, row, 21, codeword, 7, scratch, TUGZECK_SCRATCH);
    SAME(m.number, 0);
    SAME(m.verdict, TUGZECK_SHORT);
    SAME(m.shortfall, 100);
    SAME(scratch[0], 0);
    m = tugzeck_mark(4, row, 60, by_six, 15, scratch, TUGZECK_SCRATCH);
    SAME(m.number, 0);
    SAME(m.verdict, TUGZECK_SHORT);
    SAME(m.shortfall, 280);
    m = tugzeck_mark(5, row, 60, by_four, 15, scratch, TUGZECK_SCRATCH);
    SAME(m.number, 0);
    SAME(m.verdict, TUGZECK_NONE);
    m = tugzeck_mark_by(3, 2, row, 21, codeword, 7, scratch, TUGZECK_SCRATCH);
    SAME(m.number, 0);
    SAME(m.shortfall, 100);
    m = tugzeck_mark(1, row, 21, other, 7, scratch, TUGZECK_SCRATCH);
    SAME(m.number, 0);
    SAME(m.verdict, TUGZECK_NONE);
    SAME(m.shortfall, 0);
    m = tugzeck_mark(2, row, 20, other, 7, scratch, TUGZECK_SCRATCH);
    SAME(m.number, TUGZECK_ROW_LENGTH);
    SAME(m.verdict, 0);
    SAME(m.shortfall, 0);

    enum {
        BYTES = TUGZECK_QUESTION_BYTES(1) + TUGZECK_QUESTION_BYTES(3) + TUGZECK_QUESTION_BYTES(4) + TUGZECK_QUESTION_BYTES(5) + TUGZECK_END_BYTES,
        ROWS = TUGZECK_ROW(1) + TUGZECK_ROW(3) + TUGZECK_ROW(4) + TUGZECK_ROW(5),
        WORDS = TUGZECK_WORD(1) + TUGZECK_WORD(3) + TUGZECK_WORD(4) + TUGZECK_WORD(5)
    };
    static const uint32_t codes[4] = {1, 3, 4, 5}, numbers[4] = {7, TUGZECK_QUESTION_NUMBERS - 1, 8, 9}, code_6[4] = {1, 3, 6, 5};
    uint8_t sheet[BYTES], words[WORDS] = {3, 6, 1};
    memcpy(words + 22, by_four, 15);
    memcpy(words + 37, by_four, 15);
    int16_t rows[ROWS];
    for (int i = 0; i < ROWS; i++)
        rows[i] = 10;
    /* the zero word and 1 1 0 1 0 0 0 are best */
    rows[0] = 2;
    rows[3] = rows[9] = -1;
    SAME(tugzeck_write_sheet(codes, 4, numbers, 4, rows, ROWS, words, WORDS, sheet, BYTES), 0);
    SAME(sheet[0] | sheet[1] << 8 | sheet[2] << 16 | sheet[3] << 24, 0x11000007);
    SAME(sheet[BYTES - 1], 0xF0);
    SAME(tugzeck_write_sheet(codes, 4, numbers, 3, rows, ROWS, words, WORDS, sheet, BYTES), TUGZECK_COUNT);
    SAME(tugzeck_write_sheet(code_6, 4, numbers, 4, rows, ROWS, words, WORDS, sheet, BYTES), TUGZECK_CODE);
    SAME(tugzeck_write_sheet(codes, 4, numbers, 4, rows, ROWS, words, WORDS, sheet, BYTES - 1), TUGZECK_OUTPUT);

    struct tugzeck_judgement j = tugzeck_judge_sheet(sheet, BYTES);
    SAME(j.number, 0);
    SAME(j.questions, 4);
    j = tugzeck_judge_sheet(sheet, BYTES - 4);
    SAME(j.number, TUGZECK_RUNS_OUT);
    SAME(j.questions, 0);

    struct tugzeck_asked q = tugzeck_question(sheet, BYTES, 1, row, 60, word, 15);
    SAME(q.number, 0);
    SAME(q.found, 1);
    SAME(q.code, 3);
    SAME(q.question, TUGZECK_QUESTION_NUMBERS - 1);
    q = tugzeck_question(sheet, BYTES, 3, row, 60, word, 15);
    SAME(q.number, 0);
    SAME(q.code, 5);
    SAME(q.question, 9);
    SAME(memcmp(word, by_four, 15), 0);
    q = tugzeck_question(sheet, BYTES, 0, row, 21, word, 7);
    SAME(q.number, 0);
    SAME(q.found, 1);
    SAME(q.code, 1);
    SAME(q.question, 7);
    SAME(memcmp(word, codeword, 7), 0);
    SAME(memcmp(row, rows, sizeof(int16_t) * 21), 0);
    q = tugzeck_question(sheet, BYTES, 4, row, 21, word, 7);
    SAME(q.number | q.found | q.code | q.question, 0);
    q = tugzeck_question(sheet, BYTES, 1, row, 21, word, 7);
    SAME(q.number, TUGZECK_OUTPUT);
    SAME(q.found | q.code | q.question, 0);

    /* 0x61C88647 advances to 0, of which the draw is 0. Two questions and then one have the rows of three. */
    static const int16_t drawn[6] = {-127, -51, 23, 71, -81, -83};
    enum { DRILL = TUGZECK_PRACTICE_BYTES(1, 3), FIRST = TUGZECK_PRACTICE_BYTES(1, 2), SECOND = TUGZECK_PRACTICE_BYTES(1, 1) };
    uint8_t drill[DRILL], first[FIRST], second[SECOND];
    struct tugzeck_drawn p = tugzeck_practice(1, 3, 0x61C88647, drill, DRILL);
    SAME(p.number, 0);
    SAME(p.state, 0x516F7ACE);
    SAME(drill[0] | drill[1] << 8 | drill[2] << 16 | drill[3] << 24, 0x11000001);
    SAME(drill[DRILL - 4], 3);
    j = tugzeck_judge_sheet(drill, DRILL);
    SAME(j.number, 0);
    SAME(j.questions, 3);
    memset(word, 9, sizeof word);
    q = tugzeck_question(drill, DRILL, 0, row, 21, word, 7);
    SAME(q.number, 0);
    SAME(q.code, 1);
    SAME(q.question, 1);
    SAME(memcmp(row, drawn, sizeof drawn), 0);
    for (int i = 0; i < 7; i++)
        SAME(word[i], 0);
    q = tugzeck_question(drill, DRILL, 2, row, 21, word, 7);
    SAME(q.question, 3);
    p = tugzeck_practice(1, 2, 0x61C88647, first, FIRST);
    SAME(p.number, 0);
    SAME(memcmp(first, drill, 80), 0);
    SAME(first[FIRST - 4], 2);
    p = tugzeck_practice(1, 1, p.state, second, SECOND);
    SAME(p.number, 0);
    SAME(p.state, 0x516F7ACE);
    SAME(second[0], 1);
    SAME(memcmp(second + 4, drill + 84, 36), 0);
    memset(drill, 9, sizeof drill);
    p = tugzeck_practice(6, TUGZECK_MOST_QUESTIONS + 1, 7, drill, 3);
    SAME(p.number, TUGZECK_COUNT);
    SAME(p.state, 7);
    p = tugzeck_practice(6, 0, 0xFFFFFFFF, drill, 3);
    SAME(p.number, TUGZECK_CODE);
    SAME(p.state, 0xFFFFFFFF);
    p = tugzeck_practice(3, 0, 7, drill, 3);
    SAME(p.number, TUGZECK_OUTPUT);
    SAME(p.state, 7);
    for (int i = 0; i < DRILL; i++)
        SAME(drill[i], 9);
    p = tugzeck_practice(3, 0, 7, drill, TUGZECK_PRACTICE_BYTES(3, 0));
    SAME(p.number, 0);
    SAME(p.state, 7);
    SAME(drill[0] | drill[1] | drill[2], 0);
    SAME(drill[3], 0xF0);
    SAME(drill[4], 9);
    static uint8_t most[TUGZECK_MOST_SHEET];
    SAME(TUGZECK_PRACTICE_BYTES(5, TUGZECK_MOST_QUESTIONS), TUGZECK_MOST_SHEET);
    p = tugzeck_practice(5, TUGZECK_MOST_QUESTIONS, 0, most, TUGZECK_MOST_SHEET);
    SAME(p.number, 0);
    SAME(p.state, 0x6869BFE0);
    SAME(most[TUGZECK_MOST_SHEET - 4], 200);

    static uint8_t text[TUGZECK_LISTING];
    struct tugzeck_listed l = tugzeck_list(sheet, BYTES, text, TUGZECK_LISTING);
    SAME(l.number, 0);
    SAME(l.length, sizeof listing - 1);
    SAME(memcmp(text, listing, sizeof listing), 0);
    l = tugzeck_list(sheet, BYTES, text, TUGZECK_LISTING - 1);
    SAME(l.number, TUGZECK_OUTPUT);
    SAME(l.length, 0);

    printf("compared: %u answers of all twenty-three calls through the header\n", compared);
    return 0;
}
