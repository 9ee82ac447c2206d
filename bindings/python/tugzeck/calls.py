"""One function a call of include/tugzeck.h. The library decides; what is done here is to hand numbers over and to bring answers back.

Outputs and scratches are made here, with the lengths that they must have, so that refusals 4 and 17 are met by nobody. A list of numbers may be anything
that has the buffer protocol or can be gone through. A number that the library's type cannot hold is handed over as the greatest that it can, which the
library refuses by the number that the true one would meet: nothing is cut.
"""

from __future__ import annotations

import operator
from ctypes import c_float, c_int16, c_int32, c_size_t, c_uint8, c_uint16, c_uint32
from typing import Any, Iterable, Iterator, NamedTuple, Optional, SupportsFloat, SupportsIndex, Union

from . import library

Numbers = Iterable[SupportsIndex]
Samples = Iterable[SupportsFloat]
Bytes = Union[bytes, bytearray, memoryview]

SCRATCH = 16_384
LISTING = 19_058
MOST_RELIABILITY = 127
MOST_QUESTIONS = 200
MOST_SHEET = 19_204

#: The kinds of received symbols: lost with one bit, lost with two, a single sample, an in-phase and a quadrature sample.
LOST_ONE, LOST_TWO, SINGLE, PAIR = range(4)

#: m and r of the codes that have a number: m bits to a symbol, and roots α to α^r.
PARAMETERS = {1: (3, 2), 2: (3, 4), 3: (4, 2), 4: (4, 4), 5: (4, 6)}

WORDS = {
    1: "the code is not 1 to 5, or m is not 3 or 4",
    2: "a row is not n·m long",
    3: "a word is not n, a message not k, or BCH words end to end not n·m, long",
    4: "an output has not exactly its length",
    5: "a reliability is outside -127 to 127",
    6: "a symbol is not below 2^m",
    7: "a sample is not a number",
    8: "a word is no codeword",
    9: "the bytes of a sheet are no multiple of four, or its words run out",
    10: "a word of a sheet has the wrong kind",
    11: "unused bits of a sheet are not zero, or a question number is 2^24 or more",
    12: "there are more than 200 questions, or a count differs",
    13: "a sheet has words after its end",
    14: "the kind of a received symbol is above 3",
    15: "received symbols and samples do not fill the row exactly",
    16: "with this m, a code of r roots may not be chosen",
    17: "a scratch has not exactly its length",
    18: "a layer has a value other than 0 and 1, or is no BCH word",
    19: "a configuration is not valid: no codeword has it",
}


class Refusal(ValueError):
    """Why a call is refused: `number`, as the documents number it, and `words`."""

    def __init__(self, number: int) -> None:
        super().__init__(number)
        self.number = number
        self.words = WORDS[number]

    def __str__(self) -> str:
        return f"refused by {self.number}: {self.words}"


class Splitting(NamedTuple):
    """The syndromes of layers 1 to m in four places, with m = 3 a 0 in the fourth; and m BCH words end to end, layer 1 first."""

    configuration: list[int]
    bch: list[int]


class Decoding(NamedTuple):
    """The best metric, the first codeword that has it, and the soft outputs."""

    metric: int
    word: list[int]
    soft: list[int]


class Marking(NamedTuple):
    """The verdict, 'none', 'short' or 'best', and by how much the word is short, else 0."""

    verdict: str
    shortfall: int


class Question(NamedTuple):
    """A question of a sheet: its code, its number, its row, and the word handed in."""

    code: int
    number: int
    row: list[int]
    word: list[int]


class Drawn(NamedTuple):
    """A practice sheet, and the state after its last draw."""

    sheet: bytes
    state: int


class Lengths(NamedTuple):
    """Symbols to a word (n) and to a message (k), and reliabilities to a row (n·m)."""

    word: int
    message: int
    row: int


# --- handing over

_GREATEST = {c_uint8: 2**8 - 1, c_uint16: 2**16 - 1, c_uint32: 2**32 - 1, c_int16: 2**15 - 1, c_size_t: c_size_t(-1).value}


def _items(values: Any) -> Iterable[Any]:
    try:
        view = memoryview(values)
    except TypeError:
        return iter(values)
    if view.ndim != 1:
        raise TypeError(f"a list of numbers has one dimension, not {view.ndim}")
    try:
        return view.tolist()
    except NotImplementedError:
        return iter(values)


def _fitting(element: Any, value: SupportsIndex) -> int:
    number = operator.index(value)
    return number if element(number).value == number else _GREATEST[element]


def _counted(array: Any) -> tuple[Any, int]:
    """A buffer, as a call takes it."""
    return array, len(array)


def _numbers(element: Any, values: Numbers) -> tuple[Any, int]:
    handed = [_fitting(element, value) for value in _items(values)]
    return _counted((element * len(handed))(*handed))


def _samples(values: Samples) -> tuple[Any, int]:
    handed = [float(value) for value in _items(values)]
    return _counted((c_float * len(handed))(*handed))


def _bytes(sheet: Bytes) -> tuple[Any, int]:
    view = memoryview(sheet)
    if view.itemsize != 1:
        raise TypeError("a sheet is bytes")
    return _counted((c_uint8 * view.nbytes).from_buffer_copy(view.tobytes()))


def _room(element: Any, count: int) -> tuple[Any, int]:
    return _counted((element * count)())


def _ask(name: str, *arguments: Any) -> Any:
    """What the library answers, where it does not refuse."""
    answer = getattr(library.load(), "tugzeck_" + name)(*arguments)
    number = answer if isinstance(answer, int) else answer.number
    if number:
        raise Refusal(number)
    return answer


class _Code(NamedTuple):
    """A code as it was chosen, with m and r from which lengths follow; of a choice that is refused they say nothing."""

    suffix: str
    chosen: tuple[int, ...]
    m: int
    r: int

    def ask(self, name: str, *arguments: Any) -> Any:
        return _ask(name + self.suffix, *self.chosen, *arguments)

    @property
    def lengths(self) -> Lengths:
        n = 15 if self.m == 4 else 7
        return Lengths(n, max(n - self.r, 0), n * (4 if self.m == 4 else 3))


def _by_number(code: SupportsIndex) -> _Code:
    chosen = _fitting(c_uint32, code)
    return _Code("", (chosen,), *PARAMETERS.get(chosen, (3, 2)))


def _by_parameters(m: SupportsIndex, r: SupportsIndex) -> _Code:
    chosen = _fitting(c_uint32, m), _fitting(c_uint32, r)
    return _Code("_by", chosen, *chosen)


# --- codes


def _lengths(code: _Code) -> Lengths:
    try:
        code.ask("check_word", *_room(c_uint8, 0))
    except Refusal as refused:
        if refused.number != 3:  # no word is empty: a code that may be chosen refuses it by its length, and not before
            raise
    return code.lengths


def lengths(code: SupportsIndex) -> Lengths:
    """How long the words, messages and rows of a code are. Refuses by 1.

    >>> lengths(3)
    Lengths(word=15, message=13, row=60)
    """
    return _lengths(_by_number(code))


def lengths_by(m: SupportsIndex, r: SupportsIndex) -> Lengths:
    """`lengths`, by m and r. Refuses by 1, 16."""
    return _lengths(_by_parameters(m, r))


# --- words


def _encode(code: _Code, message: Numbers) -> list[int]:
    output = _room(c_uint8, code.lengths.word)
    code.ask("encode", *_numbers(c_uint8, message), *output)
    return list(output[0])


def encode(code: SupportsIndex, message: Numbers) -> list[int]:
    """The codeword of a message of k symbols, which stand at its last k positions. Refuses by 1, 3, 6.

    >>> encode(1, [1, 0, 0, 0, 0])
    [3, 6, 1, 0, 0, 0, 0]
    """
    return _encode(_by_number(code), message)


def encode_by(m: SupportsIndex, r: SupportsIndex, message: Numbers) -> list[int]:
    """`encode`, by m and r. Refuses by 1, 16, 3, 6."""
    return _encode(_by_parameters(m, r), message)


def _read_word(code: _Code, word: Numbers) -> list[int]:
    output = _room(c_uint8, code.lengths.message)
    code.ask("read_word", *_numbers(c_uint8, word), *output)
    return list(output[0])


def read_word(code: SupportsIndex, word: Numbers) -> list[int]:
    """The message of a codeword. Refuses by 1, 3, 6, 8.

    >>> read_word(1, [3, 6, 1, 0, 0, 0, 0])
    [1, 0, 0, 0, 0]
    """
    return _read_word(_by_number(code), word)


def read_word_by(m: SupportsIndex, r: SupportsIndex, word: Numbers) -> list[int]:
    """`read_word`, by m and r. Refuses by 1, 16, 3, 6, 8."""
    return _read_word(_by_parameters(m, r), word)


def _check_word(code: _Code, word: Numbers) -> bool:
    try:
        code.ask("check_word", *_numbers(c_uint8, word))
    except Refusal as refused:
        if refused.number != 8:
            raise
        return False
    return True


def check_word(code: SupportsIndex, word: Numbers) -> bool:
    """Whether a word is a codeword. Refuses by 1, 3, 6.

    >>> check_word(1, [3, 6, 1, 0, 0, 0, 0]), check_word(1, [1, 0, 0, 0, 0, 0, 0])
    (True, False)
    """
    return _check_word(_by_number(code), word)


def check_word_by(m: SupportsIndex, r: SupportsIndex, word: Numbers) -> bool:
    """`check_word`, by m and r. Refuses by 1, 16, 3, 6."""
    return _check_word(_by_parameters(m, r), word)


def _split(code: _Code, word: Numbers) -> Splitting:
    bch = _room(c_uint8, code.lengths.row)
    answer = code.ask("split", *_numbers(c_uint8, word), *bch)
    return Splitting(list(answer.configuration), list(bch[0]))


def split(code: SupportsIndex, word: Numbers) -> Splitting:
    """A codeword by its layers: its configuration, and for each layer the BCH word that is left when the leader of its coset is added.

    The leader is, of the coset's words of least weight, the one with the smallest number, position i weighing 2^i. A syndrome is the value at α, from three
    roots on + 2^m times that at α^3, and for m = 4 from five on + 256 times the number of that at α^5, where 0, 1, 6, 7 are numbered 0 to 3. Refuses by 1, 3,
    6, 8.

    >>> split(1, [3, 6, 1, 0, 0, 0, 0]).configuration
    [5, 3, 2, 0]
    """
    return _split(_by_number(code), word)


def split_by(m: SupportsIndex, r: SupportsIndex, word: Numbers) -> Splitting:
    """`split`, by m and r. Refuses by 1, 16, 3, 6, 8."""
    return _split(_by_parameters(m, r), word)


def _join(code: _Code, configuration: Numbers, bch: Numbers) -> list[int]:
    places = [_fitting(c_uint16, place) for place in _items(configuration)]
    if len(places) == code.m == 3:
        places.append(0)
    if len(places) != 4:
        raise ValueError(f"a configuration has four places, or m; {len(places)} are handed over")
    output = _room(c_uint8, code.lengths.word)
    code.ask("join", library.Configuration(*places), *_numbers(c_uint8, bch), *output)
    return list(output[0])


def join(code: SupportsIndex, configuration: Numbers, bch: Numbers) -> list[int]:
    """The codeword whose layer j is BCH word j with the leader of the coset of syndrome j added: what was split, edited or not.

    The configuration has its four places or, with m = 3, the first three of them; another number of places is a ValueError. Refuses by 1, 3, 18, 19.

    >>> join(1, *split(1, [3, 6, 1, 0, 0, 0, 0]))
    [3, 6, 1, 0, 0, 0, 0]
    """
    return _join(_by_number(code), configuration, bch)


def join_by(m: SupportsIndex, r: SupportsIndex, configuration: Numbers, bch: Numbers) -> list[int]:
    """`join`, by m and r. Refuses by 1, 16, 3, 18, 19."""
    return _join(_by_parameters(m, r), configuration, bch)


# --- rows


def _quantise(code: _Code, samples: Samples) -> list[int]:
    row = _room(c_int16, code.lengths.row)
    code.ask("quantise", *_samples(samples), *row)
    return list(row[0])


def quantise(code: SupportsIndex, samples: Samples) -> list[int]:
    """The reliabilities of n·m samples: each the nearest whole number to 32 times the sample, halves away from zero, clipped to -127 or 127.

    A sample is a 32-bit float; one of 64 bits is rounded to that first. Refuses by 1, 2, 7.

    >>> quantise(1, [1.0, 1 / 64, -1 / 64, 3.984375] + 17 * [0.0])[:4]
    [32, 1, -1, 127]
    """
    return _quantise(_by_number(code), samples)


def quantise_by(m: SupportsIndex, r: SupportsIndex, samples: Samples) -> list[int]:
    """`quantise`, by m and r. Refuses by 1, 16, 2, 7."""
    return _quantise(_by_parameters(m, r), samples)


def _receive(code: _Code, kinds: Numbers, samples: Samples) -> list[int]:
    row = _room(c_int16, code.lengths.row)
    code.ask("receive", *_numbers(c_uint8, kinds), *_samples(samples), *row)
    return list(row[0])


def receive(code: SupportsIndex, kinds: Numbers, samples: Samples) -> list[int]:
    """The reliabilities of received symbols, one after another: each has a kind, and takes the samples that come next.

    `LOST_ONE` gives a 0, `LOST_TWO` two, `SINGLE` what `quantise` gives its sample, `PAIR` the same of two samples, in-phase first. Refuses by 1, 14, 15 (the
    symbols have more or fewer than n·m bits, or take more or fewer samples than there are), 7.

    >>> receive(1, [PAIR, LOST_TWO, SINGLE] + 16 * [LOST_ONE], [1.0, -1.0, 0.5])[:6]
    [32, -32, 0, 0, 16, 0]
    """
    return _receive(_by_number(code), kinds, samples)


def receive_by(m: SupportsIndex, r: SupportsIndex, kinds: Numbers, samples: Samples) -> list[int]:
    """`receive`, by m and r. Refuses by 1, 16, 14, 15, 7."""
    return _receive(_by_parameters(m, r), kinds, samples)


def _decode(code: _Code, row: Numbers) -> Decoding:
    word, soft = _room(c_uint8, code.lengths.word), _room(c_int16, code.lengths.row)
    answer = code.ask("decode", *_numbers(c_int16, row), *word, *soft, *_room(c_int32, SCRATCH))
    return Decoding(answer.metric, list(word[0]), list(soft[0]))


def decode(code: SupportsIndex, row: Numbers) -> Decoding:
    """The best metric of a row of n·m reliabilities; the codeword that has it, of several the first when symbols are compared from position 0; and the soft
    outputs, each the greatest metric of a codeword with 0 at that bit less the greatest with 1.

    Entry i·m + (j - 1) of a row and of soft outputs belongs to layer j, the bit of weight 2^(j-1), at position i. A positive reliability favours 0. A bit is
    decided as 1 where its soft output is negative and as 0 where it is positive; where it is 0 the bit is undecided, and some codewords with the best metric
    have 0 there and some 1. Refuses by 1, 2, 5.

    >>> decode(1, 21 * [10]) == Decoding(metric=210, word=7 * [0], soft=21 * [60])
    True
    """
    return _decode(_by_number(code), row)


def decode_by(m: SupportsIndex, r: SupportsIndex, row: Numbers) -> Decoding:
    """`decode`, by m and r. Refuses by 1, 16, 2, 5."""
    return _decode(_by_parameters(m, r), row)


def _mark(code: _Code, row: Numbers, word: Numbers) -> Marking:
    answer = code.ask("mark", *_numbers(c_int16, row), *_numbers(c_uint8, word), *_room(c_int32, SCRATCH))
    return Marking(("none", "short", "best")[answer.verdict], answer.shortfall)


def mark(code: SupportsIndex, row: Numbers, word: Numbers) -> Marking:
    """What a word handed in for a row is worth: 'none' (no codeword), 'short' (by the best metric less its own) or 'best'. Refuses by 1, 2, 3, 5, 6.

    >>> mark(1, 21 * [10], [3, 6, 1, 0, 0, 0, 0])
    Marking(verdict='short', shortfall=100)
    """
    return _mark(_by_number(code), row, word)


def mark_by(m: SupportsIndex, r: SupportsIndex, row: Numbers, word: Numbers) -> Marking:
    """`mark`, by m and r. Refuses by 1, 16, 2, 3, 5, 6."""
    return _mark(_by_parameters(m, r), row, word)


# --- sheets


def _sheet_length(codes: Iterable[int]) -> int:
    return 4 + sum(96 if PARAMETERS.get(code, (3, 2))[0] == 4 else 40 for code in codes)


def judge_sheet(sheet: Bytes) -> int:
    """How many questions a sheet has; the whole of it is judged. Refuses by 9 to 13, 1, 5, 6.

    >>> judge_sheet(practice(1, 3, 7).sheet)
    3
    """
    count: int = _ask("judge_sheet", *_bytes(sheet)).questions
    return count


def question(sheet: Bytes, index: SupportsIndex) -> Optional[Question]:
    """The question of a sheet that has `index` others before it, or None where there is none. Refuses as `judge_sheet` does.

    A negative index is a ValueError.
    """
    if operator.index(index) < 0:
        raise ValueError("an index is 0 or more")
    handed, place = _bytes(sheet), _fitting(c_size_t, index)
    # whether it has 7 symbols or 15, only the sheet knows: an output of another length is refused, and nothing comes before that
    try:
        return _question(handed, place, _by_parameters(3, 2).lengths)
    except Refusal as refused:
        if refused.number != 4:
            raise
    return _question(handed, place, _by_parameters(4, 2).lengths)


def _question(sheet: tuple[Any, int], index: int, of: Lengths) -> Optional[Question]:
    row, word = _room(c_int16, of.row), _room(c_uint8, of.word)
    asked = _ask("question", *sheet, index, *row, *word)
    return Question(asked.code, asked.question, list(row[0]), list(word[0])) if asked.found else None


def questions(sheet: Bytes) -> Iterator[Question]:
    """The questions of a sheet, in their order. Refuses as `judge_sheet` does."""
    for index in range(judge_sheet(sheet)):
        found = question(sheet, index)
        assert found is not None
        yield found


def write_sheet(codes: Numbers, numbers: Numbers, rows: Numbers, words: Numbers) -> bytes:
    """A question list as a sheet: its codes, its question numbers, all rows end to end and all handed-in words end to end.

    Refuses by 12 (more than 200 codes, or another count of numbers); then, question by question, by 1, 11 (a question number of 2^24 or more), 2 and 3 (the row
    or the word runs short, or something is left over after the last question), 5, 6.
    """
    handed = _numbers(c_uint32, codes)
    output = _room(c_uint8, _sheet_length(handed[0]))
    _ask("write_sheet", *handed, *_numbers(c_uint32, numbers), *_numbers(c_int16, rows), *_numbers(c_uint8, words), *output)
    return bytes(output[0])


def write_questions(of: Iterable[Question]) -> bytes:
    """`write_sheet` of questions. Where a row or a word has another length, what is refused is the list that they make end to end.

    >>> sheet = practice(2, 5, 7).sheet
    >>> write_questions(questions(sheet)) == sheet
    True
    """
    asked = list(of)
    rows, words = ([number for q in asked for number in _items(part(q))] for part in (operator.itemgetter(2), operator.itemgetter(3)))
    return write_sheet([q.code for q in asked], [q.number for q in asked], rows, words)


def practice(code: SupportsIndex, count: SupportsIndex, state: SupportsIndex) -> Drawn:
    """A practice sheet of `count` questions of one code, with rows drawn from a state, and the state after the last draw.

    20 questions, and then 30 from the state that is answered, have the rows of 50. A state that is no 32-bit number is a ValueError. Refuses by 12 (more than
    200 questions), 1 (even for no questions).

    >>> practice(1, 3, 7).state
    4020696206
    """
    begun = operator.index(state)
    if _fitting(c_uint32, begun) != begun:
        raise ValueError("a state is from 0 to 4294967295")
    chosen, asked = _fitting(c_uint32, code), _fitting(c_uint32, count)
    # more than 200 are refused whatever the output
    output = _room(c_uint8, _sheet_length(min(asked, MOST_QUESTIONS) * [chosen]))
    answer = _ask("practice", chosen, asked, begun, *output)
    return Drawn(bytes(output[0]), answer.state)


def list_sheet(sheet: Bytes) -> str:
    """The listing of a sheet (tugzeck_list): a header, a line a question, the count. That of a refused sheet is the line `refused N`; nothing is refused here.

    >>> list_sheet(b"")
    'refused 9\\n'
    """
    output = _room(c_uint8, LISTING)
    answer = _ask("list", *_bytes(sheet), *output)
    return bytes(output[0][: answer.length]).decode("ascii")
