/* Most-likely words of ten short Reed-Solomon codes, each by its parameters and five by a number too: the calls of libtugzeck.a for C and C++, on
 * x86-64 Linux.
 *
 * Every call is proved for every input: it ends, answers what is said here, refuses bad input by the first number in the order stated at
 * the call, and changes no output then. crates/tugzeck/src/lib.rt has the promises.
 *
 * What no proof covers, and a caller must see to:
 *   - A pointer is valid for as many elements as the count behind it says: outputs and scratches to be written, all others to be read. One to a
 *     configuration has no count, and is valid for four numbers to be read.
 *   - A pointer is aligned for its type and never null, even where its count is 0.
 *   - An output or a scratch overlaps nothing else that the call is handed; nobody else reads or writes it, and nobody writes an input, while the
 *     call runs.
 *   - A count is at most PTRDIFF_MAX bytes' worth of elements, as that of any C object is.
 *
 * Every pointer belongs to the caller, and no call keeps one. Nothing is allocated, there is no global state, and nothing is locked: any
 * number of threads may call at once, each with its own outputs and scratch. A call takes less than 64 KiB of stack, tugzeck_list less than 192 KiB, and of
 * the C library memset alone (both tested, not proved). Counts are in elements.
 */
#ifndef TUGZECK_H
#define TUGZECK_H

#include <stddef.h>
#include <stdint.h>

#ifdef __cplusplus
extern "C" {
#endif

/* LENGTHS. They hold for the codes 1 to 5: (7, 5), (7, 3), (15, 13), (15, 11) and (15, 9). */

/* Symbols to a word (n) and to a message (k), and bits to a word (n*m), which is how long a row is. */
#define TUGZECK_WORD(code) ((code) < 3 ? 7 : 15)
#define TUGZECK_MESSAGE(code) ((code) == 1 ? 5 : (code) == 2 ? 3 : (code) == 3 ? 13 : (code) == 4 ? 11 : 9)
#define TUGZECK_ROW(code) ((code) < 3 ? 21 : 60)

/* The same for a code by its parameters: m bits to a symbol (3 or 4) and roots alpha to alpha^r. It may be chosen if r is from 1 to 6 and m times the
 * difference of the dimensions of the Reed-Solomon and the BCH code is at most 16: with m = 3 each r from 1 to 6, with m = 4 the r 1, 2, 4, 6. */
#define TUGZECK_WORD_BY(m) ((m) == 4 ? 15 : 7)
#define TUGZECK_MESSAGE_BY(m, r) (TUGZECK_WORD_BY(m) - (r))
#define TUGZECK_ROW_BY(m) ((m) == 4 ? 60 : 21)

/* The greatest of these. */
#define TUGZECK_MOST_WORD 15
#define TUGZECK_MOST_MESSAGE 14
#define TUGZECK_MOST_ROW 60

/* Numbers of a scratch, which decoder and marker are lent: they may hold anything, and are all 0 after the call, unchanged where it refuses. */
#define TUGZECK_SCRATCH 16384

/* The greatest size of a reliability. */
#define TUGZECK_MOST_RELIABILITY 127

/* A sheet has so many bytes for each of its questions, and so many for its end; at most 200 questions, so at most 19204 bytes. */
#define TUGZECK_QUESTION_BYTES(code) ((code) < 3 ? 40 : 96)
#define TUGZECK_END_BYTES 4
#define TUGZECK_MOST_QUESTIONS 200
#define TUGZECK_MOST_SHEET 19204

/* How long the output of tugzeck_practice is: so many questions of one code, and the end. */
#define TUGZECK_PRACTICE_BYTES(code, count) ((size_t)(count) * TUGZECK_QUESTION_BYTES(code) + TUGZECK_END_BYTES)

/* Question numbers are below this. */
#define TUGZECK_QUESTION_NUMBERS 16777216

/* How long the output of tugzeck_list is: room for the longest listing. */
#define TUGZECK_LISTING 19058

/* REFUSALS. 0 stands for none. */
enum tugzeck_refusal {
    TUGZECK_CODE = 1,         /* the code is not 1 to 5, or m is not 3 or 4 */
    TUGZECK_ROW_LENGTH = 2,   /* a row is not n*m long */
    TUGZECK_WORD_LENGTH = 3,  /* a word is not n, a message not k, or BCH words end to end not n*m, long */
    TUGZECK_OUTPUT = 4,       /* an output has not exactly its length */
    TUGZECK_RELIABILITY = 5,  /* a reliability is outside -127..127 */
    TUGZECK_SYMBOL = 6,       /* a symbol is not below 2^m */
    TUGZECK_SAMPLE = 7,       /* a sample is not a number */
    TUGZECK_NO_CODEWORD = 8,  /* a word is no codeword */
    TUGZECK_RUNS_OUT = 9,     /* the bytes of a sheet are no multiple of four, or its words run out */
    TUGZECK_KIND = 10,        /* wrong kind at this word of a sheet */
    TUGZECK_UNUSED_BITS = 11, /* unused bits of a sheet are not zero */
    TUGZECK_COUNT = 12,       /* a 201st question, or a count that differs */
    TUGZECK_AFTER_END = 13,   /* words after the end of a sheet */
    TUGZECK_SYMBOL_KIND = 14, /* a received symbol's kind is above 3 */
    TUGZECK_FILL = 15,        /* received symbols and samples do not fill the row exactly */
    TUGZECK_ROOTS = 16,       /* with this m, a code of r roots may not be chosen */
    TUGZECK_SCRATCH_LENGTH = 17, /* a scratch is not TUGZECK_SCRATCH long */
    TUGZECK_NO_BCH_WORD = 18, /* a layer has a value other than 0 and 1, or is no BCH word */
    TUGZECK_CONFIGURATION = 19 /* a configuration is not valid: no codeword has it */
};

/* The kinds of received symbols, a byte each. */
enum tugzeck_received {
    TUGZECK_LOST_ONE = 0, /* lost, one bit */
    TUGZECK_LOST_TWO = 1, /* lost, two bits */
    TUGZECK_SINGLE = 2,   /* one bit, by one sample */
    TUGZECK_PAIR = 3      /* two bits, by an in-phase sample and then a quadrature sample */
};

enum tugzeck_verdict { TUGZECK_NONE = 0, TUGZECK_SHORT = 1, TUGZECK_BEST = 2 };

/* RESULTS. `number` is 0 or the refusal; refused, every other field is 0, but for a state, which is then the one that was lent. */
struct tugzeck_splitting {
    uint32_t number;
    uint16_t configuration[4]; /* the syndromes of layers 1 to m; with m = 3 the fourth is 0 */
};

struct tugzeck_decoding {
    uint32_t number;
    int32_t metric; /* the best metric */
};

struct tugzeck_marking {
    uint32_t number;
    uint32_t verdict; /* enum tugzeck_verdict */
    int32_t shortfall; /* above 0 for TUGZECK_SHORT, else 0 */
};

struct tugzeck_judgement {
    uint32_t number;
    uint32_t questions; /* how many the sheet has */
};

struct tugzeck_asked {
    uint32_t number;
    uint32_t found;    /* 1, or 0 where no question is left; then the fields below are 0 */
    uint32_t code;     /* the question's code */
    uint32_t question; /* the question's number */
};

struct tugzeck_drawn {
    uint32_t number;
    uint32_t state; /* the state after the last draw; refused, as it was lent */
};

struct tugzeck_listed {
    uint32_t number;
    size_t length; /* bytes of the text */
};

/* CODES. A call whose name ends in _by takes the code's m and r in place of its number. It does what the call without _by does, and refuses by the same
 * numbers in the same order; only, its code is refused by 1 for an m other than 3 and 4, and directly after that by 16. */

/* WORDS. A symbol is a byte; position 0 first. The message stands at the last k positions. */

/* Writes the codeword of a message of k symbols into the n places of `output`. Answers 0, or refuses by 1, 3, 4, 6. */
uint32_t tugzeck_encode(uint32_t code, const uint8_t *message, size_t message_count, uint8_t *output, size_t output_count);
uint32_t tugzeck_encode_by(uint32_t m, uint32_t r, const uint8_t *message, size_t message_count, uint8_t *output, size_t output_count);

/* Writes the message of a codeword into the k places of `output`. Answers 0, or refuses by 1, 3, 4, 6, 8. */
uint32_t tugzeck_read_word(uint32_t code, const uint8_t *word, size_t word_count, uint8_t *output, size_t output_count);
uint32_t tugzeck_read_word_by(uint32_t m, uint32_t r, const uint8_t *word, size_t word_count, uint8_t *output, size_t output_count);

/* Answers 0 for a codeword and 8 for another word, or refuses by 1, 3, 6. */
uint32_t tugzeck_check_word(uint32_t code, const uint8_t *word, size_t word_count);
uint32_t tugzeck_check_word_by(uint32_t m, uint32_t r, const uint8_t *word, size_t word_count);

/* Splits a codeword into layers: 0 and its configuration, and in the n*m places of `bch`, layer 1 first, the word of bits that is left of
 * each layer when the leader of its coset is added: of the coset's words of least weight the one with the smallest number, position i weighing 2^i.
 * A syndrome is the value at alpha, from three roots on + 2^m times that at alpha^3, and for m = 4 from five on + 256 times the number of that at
 * alpha^5, where 0, 1, 6, 7 are numbered 0 to 3. Refuses by 1, 3, 4, 6, 8. */
struct tugzeck_splitting tugzeck_split(uint32_t code, const uint8_t *word, size_t word_count, uint8_t *bch, size_t bch_count);
struct tugzeck_splitting tugzeck_split_by(uint32_t m, uint32_t r, const uint8_t *word, size_t word_count, uint8_t *bch, size_t bch_count);

/* Joins what was split, edited or not: writes into the n places of `output` the codeword whose layer j is BCH word j with the leader of the coset of
 * syndrome j added. `bch` has m BCH words of n values end to end, layer 1 first. `configuration` points to the first of exactly four numbers, as
 * s.configuration of a struct tugzeck_splitting s does; with m = 3 the fourth is 0. Splitting what was joined gives the same parts, and joining the parts
 * of a codeword gives that codeword. Answers 0, or refuses by 1, 3 (`bch`), 4, 18, 19 (a place that is no syndrome, with m = 3 a fourth other than 0, or
 * syndromes that no codeword has together). */
uint32_t tugzeck_join(uint32_t code, const uint16_t configuration[4], const uint8_t *bch, size_t bch_count, uint8_t *output, size_t output_count);
uint32_t tugzeck_join_by(uint32_t m, uint32_t r, const uint16_t configuration[4], const uint8_t *bch, size_t bch_count, uint8_t *output,
                         size_t output_count);

/* ROWS. Entry i*m + (j-1) of a row, and of soft outputs, belongs to layer j, the bit of weight 2^(j-1), at position i. A positive reliability
 * favours 0. */

/* Turns the n*m samples of a row into reliabilities, in the n*m places of `row`: each the nearest whole number to 32 times the sample,
 * halves away from zero, clipped to -127 or 127. Answers 0, or refuses by 1, 2 (`samples`), 4 (`row`), 7. */
uint32_t tugzeck_quantise(uint32_t code, const float *samples, size_t samples_count, int16_t *row, size_t row_count);
uint32_t tugzeck_quantise_by(uint32_t m, uint32_t r, const float *samples, size_t samples_count, int16_t *row, size_t row_count);

/* Turns received symbols into the n*m reliabilities of `row`, one symbol after another: `kinds` has a byte for each (enum tugzeck_received),
 * and a symbol takes the samples that come next. A lost bit gives 0, a sample what tugzeck_quantise gives it, a pair in-phase first. Answers 0, or
 * refuses by 1, 4 (`row`), 14, 15 (the symbols have more or fewer than n*m bits, or take more or fewer samples than there are), 7. */
uint32_t tugzeck_receive(uint32_t code, const uint8_t *kinds, size_t kinds_count, const float *samples, size_t samples_count, int16_t *row,
                         size_t row_count);
uint32_t tugzeck_receive_by(uint32_t m, uint32_t r, const uint8_t *kinds, size_t kinds_count, const float *samples, size_t samples_count,
                            int16_t *row, size_t row_count);

/* Decodes a row of n*m reliabilities: 0 and the best metric, in the n places of `word` the codeword that has it or, of several, the first when
 * symbols are compared from position 0, and in the n*m places of `soft` the soft outputs: the greatest metric of a codeword with 0 at that bit
 * less the greatest with 1. A bit is decided as 1 where its soft output is negative and as 0 where it is positive, which every codeword with the
 * best metric then has there; where it is 0 the bit is undecided, and some of them have 0 there and some 1. So no soft output is 0 exactly when one
 * codeword has the best metric, and the decided bits are then its bits. Refuses by 1, 2, 4 (`word` or `soft`), 17 (`scratch`), 5. */
struct tugzeck_decoding tugzeck_decode(uint32_t code, const int16_t *row, size_t row_count, uint8_t *word, size_t word_count, int16_t *soft,
                                       size_t soft_count, int32_t *scratch, size_t scratch_count);
struct tugzeck_decoding tugzeck_decode_by(uint32_t m, uint32_t r, const int16_t *row, size_t row_count, uint8_t *word, size_t word_count,
                                          int16_t *soft, size_t soft_count, int32_t *scratch, size_t scratch_count);

/* Marks a word of n symbols, handed in for a row of n*m reliabilities: 0 and the verdict, none (no codeword), short (with the best metric less
 * the word's own) or best, which every codeword with the best metric is. Refuses by 1, 2, 3, 17 (`scratch`), 5, 6. */
struct tugzeck_marking tugzeck_mark(uint32_t code, const int16_t *row, size_t row_count, const uint8_t *word, size_t word_count,
                                    int32_t *scratch, size_t scratch_count);
struct tugzeck_marking tugzeck_mark_by(uint32_t m, uint32_t r, const int16_t *row, size_t row_count, const uint8_t *word, size_t word_count,
                                       int32_t *scratch, size_t scratch_count);

/* SHEETS. A sheet is bytes: 32-bit words, low byte first. */

/* Judges a whole sheet: 0 and the count of its questions. Refuses by 9 for the byte count, then by the first offending word: 9 where words run
 * out, and within a word 10, 12 (a 201st head), 11, 1, then 5 or 6, then 12 (the end's count); last 13. */
struct tugzeck_judgement tugzeck_judge_sheet(const uint8_t *sheet, size_t sheet_count);

/* Reads the question that has `index` others before it: 0, found 1, its code and its number, its row in the n*m places of `row`, and the word
 * handed in in the n places of `word`. Where there is none: 0 and found 0, whatever the outputs, which are kept. Refuses by the sheet's
 * refusal, then by 4 (`row` or `word`). The whole sheet is judged at every call. */
struct tugzeck_asked tugzeck_question(const uint8_t *sheet, size_t sheet_count, size_t index, int16_t *row, size_t row_count, uint8_t *word,
                                      size_t word_count);

/* Writes a question list as a sheet into `output`, which has exactly the sheet's length: TUGZECK_QUESTION_BYTES of each code, and
 * TUGZECK_END_BYTES. The list is its codes, its question numbers, all rows end to end and all handed-in words end to end. Answers 0, or
 * refuses by 12 (more than 200 codes, or another count of numbers); then, question by question, by 1, 11 (a question number of 2^24 or
 * more), 2 and 3 (the row or the word runs short, or something is left over after the last question), 5, 6; then by 4. */
uint32_t tugzeck_write_sheet(const uint32_t *codes, size_t codes_count, const uint32_t *numbers, size_t numbers_count, const int16_t *rows,
                             size_t rows_count, const uint8_t *words, size_t words_count, uint8_t *output, size_t output_count);

/* Writes a practice sheet into `output`, which is TUGZECK_PRACTICE_BYTES long: `count` questions of one code, 0 to 200, numbered from 1, with rows drawn
 * from `state`, any 32-bit number, and zero words as the words handed in. Answers 0 and the state after the last draw. For each reliability, question by
 * question and entry by entry, the state advances by 0x9E3779B9, wrapping at 2^32; the draw is the new state, exclusive or with itself shifted right by 16,
 * and its remainder by 255, less 127, is the reliability. So 20 questions, and then 30 from the state handed back, have the rows of 50. Refuses by 12 (more
 * than 200 questions), 1 (even for no questions), 4. */
struct tugzeck_drawn tugzeck_practice(uint32_t code, uint32_t count, uint32_t state, uint8_t *output, size_t output_count);

/* Writes the listing of a sheet at the start of `output`, which is TUGZECK_LISTING bytes long: 0 and the length of the text; the bytes behind
 * it are kept, and no zero byte is added. Decided bits show as 0 and 1, undecided ones as a question mark. The listing of a refused sheet is the
 * line `refused N`. Refuses by 4 alone. */
struct tugzeck_listed tugzeck_list(const uint8_t *sheet, size_t sheet_count, uint8_t *output, size_t output_count);

#ifdef __cplusplus
}
#endif

#endif
