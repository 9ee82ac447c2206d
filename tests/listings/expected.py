#!/usr/bin/env python3
"""The sheets that the programs `test_listings` and `test_long_listing` list, and the texts that they must print.

    tests/listings/expected.py          compare the committed files with what is computed here
    tests/listings/expected.py --write  write them anew

Everything is computed here from documents 01 and 02 alone: field products bit by bit, and every code by the layers of its words,
over the valid configurations. That is held to the codewords one after another of codes 1 and 2, to a trellis over the values that a
word can have at its roots (the Wolf trellis) for codes 1 to 3 on every row and for code 4 on two, and in every code to the number of best
words: no soft output is 0 where that is 1, and only there, and their signs then spell the word. A refusal stands beside its sheet, and the
reader below must find it too.
It needs Python alone and takes some 30 seconds.
"""
import array
import itertools
import math
import os
import sys

ROOT = os.path.join(os.path.dirname(os.path.abspath(__file__)), "..", "..", "crates")

# --- codes: (n, k, m, roots, the field's polynomial)
CODES = {
    1: (7, 5, 3, 2, 0b1011),
    2: (7, 3, 3, 4, 0b1011),
    3: (15, 13, 4, 2, 0b10011),
    4: (15, 11, 4, 4, 0b10011),
    5: (15, 9, 4, 6, 0b10011),
}


def product(code, a, b):
    _, _, m, _, polynomial = CODES[code]
    r = 0
    while b:
        if b & 1:
            r ^= a
        a <<= 1
        if a >> m:
            a ^= polynomial
        b >>= 1
    return r


def power(code, e):
    r = 1
    for _ in range(e):
        r = product(code, r, 2)
    return r


def is_codeword(code, word):
    n, _, _, roots, _ = CODES[code]
    for t in range(1, roots + 1):
        value = 0
        for i in range(n):
            value ^= product(code, word[i], power(code, i * t))
        if value:
            return False
    return True


def parities(code):
    """For each message position the parity symbols of a 1 there: what is left of that power of X when it is divided by all X - alpha^t."""
    _, k, _, roots, _ = CODES[code]
    generator = [1]
    for t in range(1, roots + 1):
        by_root = [product(code, c, power(code, t)) for c in generator]
        generator = [a ^ b for a, b in zip([0] + generator, by_root + [0])]
    found = [generator[:-1]]
    for _ in range(1, k):
        top = found[-1][-1]
        found.append([a ^ product(code, top, g) for a, g in zip([0] + found[-1][:-1], generator)])
    return found


PARITIES = {code: parities(code) for code in CODES}


def codeword(code, message):
    roots = CODES[code][3]
    word = [0] * roots + list(message)
    for p, s in enumerate(message):
        for j in range(roots):
            word[j] ^= product(code, s, PARITIES[code][p][j])
    assert is_codeword(code, word)
    return word


# --- metrics
def bits(code, word):
    m = CODES[code][2]
    return [s >> j & 1 for s in word for j in range(m)]


def metric(code, row, word):
    return sum(-r if b else r for r, b in zip(row, bits(code, word)))


def all_codewords(code):
    """Every codeword as a number, bit b of weight 2^b: sums of a basis, each of which is tested at the roots."""
    n, k, m, _, _ = CODES[code]
    words = [0]
    for p in range(k):
        for j in range(m):
            w = codeword(code, [1 << j if q == p else 0 for q in range(k)])
            v = sum(b << i for i, b in enumerate(bits(code, w)))
            words += [x ^ v for x in words]
    return words


EVERY = {1: all_codewords(1), 2: all_codewords(2)}
NONE = -(10**9)


def one_after_another(code, row):
    """The best metric and the soft outputs over every codeword."""
    long = len(row)
    total = sum(row)
    best = [[None, None] for _ in range(long)]
    for w in EVERY[code]:
        v = total - 2 * sum(row[b] for b in range(long) if w >> b & 1)
        for b in range(long):
            x = w >> b & 1
            if best[b][x] is None or best[b][x] < v:
                best[b][x] = v
    return max(best[0]), [zero - one for zero, one in best]


def trellis(code, row):
    """The same over the values at all roots at once."""
    n, _, m, roots, _ = CODES[code]
    columns = []
    for i in range(n):
        for j in range(m):
            column = 0
            for t in range(1, roots + 1):
                column |= product(code, 1 << j, power(code, i * t)) << (m * (t - 1))
            columns.append(column)
    states = 1 << (m * roots)

    def step(table, r, c):
        return array.array("i", [max(table[s] + r, table[s ^ c] - r) for s in range(states)])

    start = [0] + [NONE] * (states - 1)
    ahead = [start]
    for r, c in zip(row, columns):
        ahead.append(step(ahead[-1], r, c))
    behind = [start]
    for r, c in zip(row[::-1], columns[::-1]):
        behind.append(step(behind[-1], r, c))
    soft = []
    for b, (r, c) in enumerate(zip(row, columns)):
        f, g = ahead[b], behind[len(row) - 1 - b]
        zero = max(f[s] + g[s] for s in range(states)) + r
        one = max(f[s] + g[s ^ c] for s in range(states)) - r
        soft.append(zero - one)
    return ahead[-1][0], soft


def taken_at(code):
    """The t of the values alpha^t that make a syndrome, each with the values that a layer can have there, as they are numbered."""
    _, _, m, roots, _ = CODES[code]
    every = list(range(1 << m))
    return [(t, values) for t, values in ((1, every), (3, every), (5, [0, 1, 6, 7])) if t <= roots and (t < 5 or m == 4)]


def valid_values(code, t, values):
    """The values of all layers at alpha^t with which the sum over layers is zero at every root whose value follows by squaring."""
    n, _, m, roots, _ = CODES[code]
    valid = list(itertools.product(values, repeat=m))
    squared = {v: v for v in values}
    for e in range(m):
        if (t << e) % n in range(1, roots + 1):
            times = [{v: product(code, power(code, j), squared[v]) for v in values} for j in range(m)]

            def total(layers):
                s = 0
                for j, v in enumerate(layers):
                    s ^= times[j][v]
                return s

            valid = [layers for layers in valid if total(layers) == 0]
        squared = {v: product(code, x, x) for v, x in squared.items()}
    return valid


def configurations(code):
    """Every valid tuple of syndromes."""
    m = CODES[code][2]
    found, size = [(0,) * m], 1
    for t, values in taken_at(code):
        places = [[size * values.index(v) for v in layers] for layers in valid_values(code, t, values)]
        found = [tuple(map(sum, zip(s, place))) for s in found for place in places]
        size *= len(values)
    return size, found


CONFIGURATIONS = {code: configurations(code) for code in CODES}
assert [len(found) for _, found in CONFIGURATIONS.values()] == [8, 64, 256, 65536, 65536]


def layer_columns(code):
    """The syndrome of a 1 at each position."""
    n = CODES[code][0]
    columns = []
    for i in range(n):
        column, weight = 0, 1
        for t, values in taken_at(code):
            column += weight * values.index(power(code, i * t % n))
            weight *= len(values)
        columns.append(column)
    return columns


def layer(code, row):
    """For each position and bit value: by the syndrome, the greatest metric of a binary word that has it there."""
    n = CODES[code][0]
    size = CONFIGURATIONS[code][0]
    columns = layer_columns(code)
    found = []
    for i in range(n):
        table = [0] + [NONE] * (size - 1)
        for r, c in zip(row[:i] + row[i + 1 :], columns[:i] + columns[i + 1 :]):
            table = [max(table[s] + r, table[s ^ c] - r) for s in range(size)]
        found.append(([x + row[i] for x in table], [table[s ^ columns[i]] - row[i] for s in range(size)]))
    return found


def by_layers(code, row):
    """The same over the valid configurations."""
    n, _, m, _, _ = CODES[code]
    size, tuples = CONFIGURATIONS[code]
    layers = [layer(code, row[j::m]) for j in range(m)]
    best = [[max(zero, one) for zero, one in zip(*layers[j][0])] for j in range(m)]
    others = [[NONE] * size for _ in range(m)]
    for syndromes in tuples:
        own = [best[j][s] for j, s in enumerate(syndromes)]
        total = sum(own)
        for j, s in enumerate(syndromes):
            rest = total - own[j]
            if rest > others[j][s]:
                others[j][s] = rest

    def greatest(j, held):
        return max(a + b for a, b in zip(others[j], held))

    pairs = [[greatest(j, held) for held in layers[j][i]] for i in range(n) for j in range(m)]
    return max(pairs[0]), [zero - one for zero, one in pairs]


def best_words(code, row):
    """How many words have the best metric: by the layers, in how many ways each has its greatest metric with a syndrome."""
    m = CODES[code][2]
    size, tuples = CONFIGURATIONS[code]
    columns = layer_columns(code)
    layers = []
    for j in range(m):
        table = [(0, 1)] + [(NONE, 0)] * (size - 1)
        for r, c in zip(row[j::m], columns):
            both = [((table[s][0] + r, table[s][1]), (table[s ^ c][0] - r, table[s ^ c][1])) for s in range(size)]
            table = [(max(a, b), x * (a >= b) + y * (a <= b)) for (a, x), (b, y) in both]
        layers.append(table)
    best, ways = NONE, 0
    for syndromes in tuples:
        own = [layers[j][s] for j, s in enumerate(syndromes)]
        total = sum(value for value, _ in own)
        if total > best:
            best, ways = total, 0
        if total == best:
            ways += math.prod(count for _, count in own)
    return ways


def decoded(code, row):
    best, soft = found = by_layers(code, row)
    ways = best_words(code, row)
    if code in EVERY:
        assert found == one_after_another(code, row)
        total = sum(row)
        assert ways == sum(total - 2 * sum(r for b, r in enumerate(row) if w >> b & 1) == best for w in EVERY[code])
    if code < 4:
        assert found == trellis(code, row)
    assert all(soft) == (ways == 1)
    assert all(soft) or soft.count(0) >= len(FEWEST[code])
    if all(soft):
        m = CODES[code][2]
        word = [sum((s < 0) << j for j, s in enumerate(soft[i : i + m])) for i in range(0, len(soft), m)]
        assert is_codeword(code, word) and metric(code, row, word) == best
    return found


# --- sheets
def worded(kind, body):
    return kind << 28 | body


def question_words(code, number, row, word):
    words = [worded(1, code << 24 | number)]
    for i in range(0, len(row), 3):
        words.append(worded(2, sum((r & 255) << (8 * j) for j, r in enumerate(row[i : i + 3]))))
    for i in range(0, len(word), 6):
        words.append(worded(3, sum(s << (4 * j) for j, s in enumerate(word[i : i + 6]))))
    return words


def as_bytes(words):
    return b"".join(w.to_bytes(4, "little") for w in words)


def sheet_words(questions):
    return [w for q in questions for w in question_words(*q)] + [worded(15, len(questions))]


def sheet(questions):
    return as_bytes(sheet_words(questions))


class Refused(Exception):
    pass


def read(data):
    """The questions of a sheet, or Refused."""
    if len(data) % 4:
        raise Refused(9)
    words = [int.from_bytes(data[i : i + 4], "little") for i in range(0, len(data), 4)]
    at, questions = 0, []

    def word():
        nonlocal at
        if at == len(words):
            raise Refused(9)
        at += 1
        return words[at - 1]

    def items(kind, each, width, count, good, refusal):
        found = []
        while len(found) < count:
            w = word()
            here = min(each, count - len(found))
            if w >> 28 != kind:
                raise Refused(10)
            if (w & 0xFFFFFFF) >> (width * here):
                raise Refused(11)
            new = [w >> (width * j) & ((1 << width) - 1) for j in range(here)]
            if not all(good(x) for x in new):
                raise Refused(refusal)
            found += new
        return found

    while True:
        w = word()
        if w >> 28 == 15:
            if w >> 24 & 15:
                raise Refused(11)
            if w & 0xFFFFFF != len(questions):
                raise Refused(12)
            if at != len(words):
                raise Refused(13)
            return questions
        if w >> 28 != 1:
            raise Refused(10)
        if len(questions) == 200:
            raise Refused(12)
        code = w >> 24 & 15
        if code not in CODES:
            raise Refused(1)
        n, _, m, _, _ = CODES[code]
        row = items(2, 3, 8, n * m, lambda x: x != 128, 5)
        row = [x - 256 if x > 127 else x for x in row]
        questions.append((code, w & 0xFFFFFF, row, items(3, 6, 4, n, lambda x: x < 1 << m, 6)))


# --- listings
MET = set()


def line(code, number, row, word):
    best, soft = decoded(code, row)
    verdict, short = "none", "-"
    if is_codeword(code, word):
        short = best - metric(code, row, word)
        verdict = "short" if short else "best"
    shown = "".join("1" if s < 0 else "0" if s > 0 else "?" for s in soft)
    MET.update([(code, verdict), (code, "one best word" if all(soft) else "tied")])
    return f"{number} {code} {best} {verdict} {short} {shown} {min(abs(s) for s in soft)}\n"


def listing(data):
    try:
        questions = read(data[:19208])
    except Refused as r:
        return f"refused {r}\n"
    lines = "".join(line(*q) for q in questions)
    return f"question code best verdict short bits least\n{lines}{len(questions)} questions\n"


# --- the questions
STATE = 1


def draw(below):
    """The next number of a fixed sequence."""
    global STATE
    STATE = STATE * 48271 % 2147483647
    return STATE % below


def any_row(code):
    n, _, m, _, _ = CODES[code]
    return [draw(255) - 127 for _ in range(n * m)]


def any_word(code):
    n, k, m, _, _ = CODES[code]
    return codeword(code, [draw(1 << m) for _ in range(k)])


def near(code, word, size):
    """A row that favours a word, with noise."""
    row = [(-size if b else size) + draw(121) - 60 for b in bits(code, word)]
    return [max(-127, min(127, r)) for r in row]


def flat(code, r):
    n, _, m, _, _ = CODES[code]
    return [r] * (n * m)


def same(code, s):
    return [s] * CODES[code][0]


def spoilt(code, word):
    """The word with one symbol changed, so no codeword."""
    i = draw(len(word))
    return word[:i] + [word[i] ^ 1] + word[i + 1 :]


def of_code(code):
    word = any_word(code)
    other = any_word(code)
    return [
        (code, 1, near(code, word, 50), word),  # likely the best
        (code, 2, near(code, word, 50), other),
        (code, 3, near(code, word, 50), spoilt(code, word)),
        (code, 4, any_row(code), any_word(code)),
        (code, 5, any_row(code), same(code, 0)),
        (code, 6, flat(code, -10), same(code, (1 << CODES[code][2]) - 1)),
        (code, 7, near(code, other, 20), spoilt(code, other)),
        (code, 8, [r // 60 for r in any_row(code)], other),  # small reliabilities: many zeros and ties
    ]


def ties():
    found = []
    for code in CODES:
        word = any_word(code)
        one = flat(code, 0)
        one[4] = -9  # a single bit that is not 0
        found += [
            (code, 10 * code + 1, flat(code, 0), same(code, 0)),
            (code, 10 * code + 2, flat(code, 0), word),
            (code, 10 * code + 3, flat(code, 0), spoilt(code, word)),
            (code, 10 * code + 4, one, same(code, 0)),
        ]
    return found


# the 1 bits of a codeword that has the fewest. Two codewords differ in no fewer bits, so no row has fewer undecided bits, unless it has none: they
# differ in more symbols than there are roots; of code 2, by all its words
FEWEST = {1: [0, 3, 9], 2: [0, 1, 7, 12, 15, 19], 3: [0, 4, 16], 4: [0, 4, 8, 36, 52], 5: [0, 4, 8, 16, 20, 32, 40]}
assert min(bin(w).count("1") for w in EVERY[2] if w) == len(FEWEST[2])
assert all(len(FEWEST[code]) == CODES[code][3] + 1 for code in CODES if code != 2)


def two_best():
    """For each code a row with two best words, and one in which the first of them is best by 2, the least that can be."""
    found = []
    for code in CODES:
        m, few = CODES[code][2], FEWEST[code]
        word = any_word(code) if code > 1 else same(code, 0)
        other = [s ^ sum(1 << j for j in range(m) if i * m + j in few) for i, s in enumerate(word)]
        assert is_codeword(code, other)
        sign = [-1 if b else 1 for b in bits(code, word)]
        tied = [s * (40 + draw(88)) for s in sign]
        for i, b in enumerate(few):
            tied[b] = sign[b] * (7 if i % 2 else -7 if i or len(few) % 2 == 0 else 0)  # in sum for neither word
        assert [b for b, s in enumerate(decoded(code, tied)[1]) if s == 0] == few
        decisive = list(tied)
        decisive[few[0]] += sign[few[0]]
        found += [(code, 10 * code + i, row, w) for i, (row, w) in enumerate(itertools.product((tied, decisive), (word, other)))]
    return found


def largest():
    found = []
    last = (1 << 24) - 1
    for code in CODES:
        ones = same(code, (1 << CODES[code][2]) - 1)
        word = any_word(code)
        found += [
            (code, last, flat(code, 127), same(code, 0)),
            (code, last, flat(code, 127), ones),  # the greatest shortfall, and a negative metric
            (code, 0, flat(code, -127), ones),
            (code, last - 1, flat(code, -127), same(code, 0)),
            (code, last, [-127 if b else 127 for b in bits(code, word)], word),
            (code, 1 << 23, [127 if b else -127 for b in bits(code, word)], word),
        ]
    return found


def cases():
    """Each sheet's name, its bytes, and its refusal where it has one."""
    for code in CODES:
        yield f"code_{code}", sheet(of_code(code)), None
    yield "zero_questions", sheet([]), None
    yield "ties", sheet(ties()), None
    yield "largest_numbers", sheet(largest()), None
    five = [(code, 7, any_row(code), any_word(code)) for code in CODES]
    yield "all_codes", sheet(five), None
    yield "codes_1_and_2", sheet(five[:2]), None
    yield "codes_5_and_4", sheet(five[:2:-1]), None

    def at_127(code, r):
        row = flat(code, 1)
        row[-1] = r
        return (code, 1, row, same(code, 0))

    yield "last_reliability_127", sheet([at_127(1, 127)]), None
    yield "last_reliability_minus_127", sheet([at_127(1, -127)]), None
    yield "last_reliability_minus_128", sheet([at_127(1, -128)]), 5
    yield "last_reliability_minus_127_of_codes_4_and_5", sheet([at_127(4, -127), at_127(5, -127)]), None
    yield "last_reliability_minus_128_of_code_5", sheet([at_127(4, -127), at_127(5, -128)]), 5

    # words 0 to 9: the question of code 1; 10 to 19: of code 2; 20 to 43: of code 3; 44 to 67: of code 4; 68 to 91: of code 5; 92: the end
    words = sheet_words(five)

    def with_word(i, w):
        return as_bytes(words[:i] + [w] + words[i + 1 :])

    def with_bits(i, mask):
        return with_word(i, words[i] | mask)

    def reliability_128(i):
        return words[i] & 0xFFFF00FF | 0x8000

    yield "empty_file", b"", 9
    yield "three_bytes_short", as_bytes(words)[:-3], 9
    yield "a_byte_too_many", as_bytes(words) + b"\0", 9
    yield "ends_before_the_row", as_bytes(words[:1]), 9
    yield "ends_in_a_row", as_bytes(words[:13]), 9
    yield "ends_in_a_word", as_bytes(words[:42]), 9
    yield "ends_in_the_last_word", as_bytes(words[:91]), 9
    yield "no_end", as_bytes(words[:92]), 9
    yield "no_end_after_two", as_bytes(words[:20]), 9
    yield "code_0", with_word(10, 0x10000002), 1
    yield "code_6", with_word(20, 0x16000003), 1
    yield "code_15", with_word(0, 0x1F000001), 1
    yield "code_1_for_code_4", with_word(44, 0x11000007), 10
    yield "minus_128", with_word(23, reliability_128(23)), 5
    yield "minus_128_of_code_4", with_word(64, reliability_128(64)), 5
    yield "symbol_8", with_word(8, words[8] & ~0xF00 | 0x800), 6
    yield "symbol_8_of_code_2", with_word(19, 0x30000008), 6
    yield "row_for_a_head", with_word(0, words[1]), 10
    yield "symbols_for_a_head", with_word(10, words[8]), 10
    yield "symbols_in_a_row", with_word(30, words[42]), 10
    yield "row_in_a_word", with_word(9, words[1]), 10
    yield "end_in_a_row", with_word(4, 0xF0000000), 10
    yield "row_in_a_word_of_code_5", with_word(91, words[90] & 0xFFFFFFF | 0x20000000), 10
    yield "kind_0", with_word(92, 5), 10
    yield "above_three_reliabilities", with_bits(6, 0x1000000), 11
    yield "above_six_symbols", with_bits(41, 0x8000000), 11
    yield "above_the_last_symbol", with_bits(9, 0x10), 11
    yield "above_three_symbols", with_bits(43, 0x800000), 11
    yield "above_three_symbols_of_code_4", with_bits(67, 0x1000), 11
    yield "above_the_end_count", with_bits(92, 0x4000000), 11
    yield "end_counts_four", with_word(92, 0xF0000004), 12
    yield "end_counts_six", with_word(92, 0xF0000006), 12
    yield "one_question_counted_for_none", as_bytes([0xF0000001]), 12
    yield "a_word_after_the_end", as_bytes(words + [0]), 13
    yield "a_second_end", as_bytes(words + [words[92]]), 13

    # which comes first
    yield "bytes_before_kind", with_word(0, 0)[:-1], 9
    yield "kind_before_unused_bits", with_word(6, 0x48000000), 10
    yield "unused_bits_before_reliability", with_word(23, reliability_128(23) | 0x1000000), 11
    yield "unused_bits_before_symbol", with_word(9, 0x30000098), 11
    yield "unused_bits_before_count", with_word(92, 0xF1000004), 11
    yield "count_before_what_follows", as_bytes(words[:92] + [0xF0000004, 0]), 12
    yield "first_word_counts", as_bytes(words[:8] + [0x30000008] + words[9:10] + [0x10000002] + words[11:]), 6
    yield "row_before_word", as_bytes(words[:7] + [reliability_128(7), 0x30000008] + words[9:]), 5

    zero = same(3, 0)
    full = []
    for i in range(0, 200, 4):
        full += [
            (3, 1000 + i, near(3, zero, 90), zero),  # likely the best
            (3, 1001 + i, any_row(3), spoilt(3, any_word(3))),
            (3, 1002 + i, any_row(3), any_word(3)),
            (3, 1003 + i, near(3, zero, 30), zero),
        ]
    ones = [(1, i, flat(1, 10), same(1, 0)) for i in range(200)]
    head = question_words(*ones[0])
    yield "two_hundred_questions", sheet(full), None
    yield "two_hundred_and_one", as_bytes(sheet_words(ones)[:-1] + head + [0xF00000C9]), 12
    yield "a_201st_head_alone", as_bytes(sheet_words(ones)[:-1] + head[:1]), 12
    yield "a_201st_head_before_its_code", as_bytes(sheet_words(ones)[:-1] + [0x16000001, 0xF00000C9]), 12
    yield "a_201st_word_of_another_kind", as_bytes(sheet_words(ones)[:-1] + head[1:]), 10
    yield LONG, sheet(full) + b"\1\2\3\4\5\6", 13  # 19,210 bytes, of which 19,208 are judged; all of them would be refused by 9
    yield "two_best_words", sheet(two_best()), None


LONG = "longer_than_is_read"


def texts():
    """The files of both programs."""
    files, names, out = {}, "", ""
    for name, data, refusal in cases():
        text = listing(data)
        assert (text == f"refused {refusal}\n") == (refusal is not None), (name, text)
        files[f"test_listings/data/{name}"] = data
        names += name + "\n"
        out += f"{name}\n{text}"
        if name == LONG:
            files["test_long_listing/stdin"] = data
            files["test_long_listing/stdout"] = text.encode()
    assert MET == {(code, v) for code in CODES for v in ("none", "short", "best", "one best word", "tied")}, MET
    for row in (any_row(4), [r // 60 for r in any_row(4)]):
        assert by_layers(4, row) == trellis(4, row)
    files["test_listings/args"] = names.encode()
    files["test_listings/stdout"] = out.encode()
    return files


def main():
    files = texts()
    data = os.path.join(ROOT, "test_listings", "data")
    there = set(os.listdir(data)) if os.path.isdir(data) else set()
    wrong = [f"test_listings/data/{n} is of no case" for n in sorted(there) if f"test_listings/data/{n}" not in files]
    for name, content in files.items():
        path = os.path.join(ROOT, name)
        if "--write" in sys.argv[1:]:
            os.makedirs(os.path.dirname(path), exist_ok=True)
            with open(path, "wb") as f:
                f.write(content)
        elif not os.path.exists(path) or open(path, "rb").read() != content:
            wrong.append(f"{name} differs")
    print("\n".join(wrong) if wrong else f"{len(files)} files agree")
    sys.exit(1 if wrong else 0)


main()
