"""Most-likely words of short Reed-Solomon codes, by a library that is proved for every input.

One function a call of include/tugzeck.h; a function whose name ends in `_by` takes a code's parameters m and r in place of its number. A call that the
library refuses raises `Refusal`, with the number and its words. Lists of numbers may be anything that has the buffer protocol or can be gone through; words,
rows and soft outputs come back as lists, sheets as bytes. Calls keep nothing and may run in any number of threads at once.

    >>> import tugzeck
    >>> tugzeck.encode(1, [1, 0, 0, 0, 0])
    [3, 6, 1, 0, 0, 0, 0]
    >>> tugzeck.decode(1, 21 * [10]).metric
    210
    >>> tugzeck.encode(1, [8, 0, 0, 0, 0])
    Traceback (most recent call last):
    tugzeck.calls.Refusal: refused by 6: a symbol is not below 2^m

What the proofs do not cover is this package: that it declares the calls as they are, hands numbers over and brings them back. Its tests compare every function
with a program in C and with independent Python.
"""

from .calls import (
    LOST_ONE,
    LOST_TWO,
    MOST_QUESTIONS,
    MOST_RELIABILITY,
    MOST_SHEET,
    PAIR,
    PARAMETERS,
    SINGLE,
    WORDS,
    Decoding,
    Drawn,
    Lengths,
    Marking,
    Question,
    Refusal,
    Splitting,
    check_word,
    check_word_by,
    decode,
    decode_by,
    encode,
    encode_by,
    join,
    join_by,
    judge_sheet,
    lengths,
    lengths_by,
    list_sheet,
    mark,
    mark_by,
    practice,
    quantise,
    quantise_by,
    question,
    questions,
    read_word,
    read_word_by,
    receive,
    receive_by,
    split,
    split_by,
    write_questions,
    write_sheet,
)
from .library import LibraryMissing

__version__ = "0.1.0"
