"""Sheets as a text that a person writes by hand; `FORM` says how."""

from __future__ import annotations

from typing import Iterable, Iterator, Union

from . import calls
from .calls import Question, Refusal
from .entry import Entry, Mistake, Token, code_of, row_in, unexpected, whole, word_in

FORM = """\
    # what follows a # is a comment
    question 1 code 1
    row 10 10 10  10 10 10  10 10 10  10 10 10  10 10 10  10 10 10  10 10 10
    word 0 0 0 0 0 0 0

    question 2 code 1
    samples 0.9 1.1 0.8  1 1 1  1.2 0.7 0.9  1 1 1  1 1 1  -0.1 1 1  1 1 1
    message 1 0 0 0 0

A question is `question` with its number, `code` with its code, its row, and the word handed in, in this order. The row is `row` with reliabilities, `samples`
with samples, which are quantised, or `kinds` with the kinds of received symbols (0 lost, one bit; 1 lost, two bits; 2 one sample; 3 in-phase and quadrature
sample) and then `samples` with their samples. The word is `word` with its symbols, or `message` with a message, which is encoded. Between questions stands a
blank line; other line breaks mean nothing, and neither does how much white space there is.

In the normal form rows are reliabilities, words are symbols, and there are no comments.
"""

#: How many numbers a line of a row has in the normal form.
ACROSS = 12


def sheet_of(text: Union[str, bytes]) -> bytes:
    """The sheet that a text stands for, or a Mistake."""
    asked, heads = [], []
    for entry in _entries(_decoded(text)):
        heads.append(entry.tokens[0])
        asked.append(_question(entry))
    try:
        return calls.write_questions(asked)
    except Refusal as refused:
        # every question has been taken alone: what is left is that there are too many
        raise unexpected(heads[calls.MOST_QUESTIONS], f"a paper of at most {calls.MOST_QUESTIONS} questions", refused.number) from None


def text_of(sheet: calls.Bytes) -> str:
    """The text of a sheet, in its normal form, or a Refusal."""
    return "\n".join(map(_normal, calls.questions(sheet)))


# --- reading a text


def _decoded(text: Union[str, bytes]) -> str:
    if isinstance(text, str):
        return text
    try:
        return text.decode("utf-8-sig")
    except UnicodeDecodeError as wrong:
        line = len(_lines(text[: wrong.start].decode("utf-8")))
        raise Mistake(line, f"the byte 0x{text[wrong.start]:02X} stands here", "text in UTF-8") from None


def _lines(text: str) -> list[str]:
    return text.replace("\r\n", "\n").replace("\r", "\n").split("\n")


def _entries(text: str) -> Iterator[Entry]:
    """The tokens of each question: lines with no blank one between them. A line that has a comment is not blank."""
    tokens: list[Token] = []
    last = 0
    for number, line in enumerate([*_lines(text), ""], 1):
        stands, comment, _ = line.partition("#")
        found = [Token(word, number) for word in stands.split()]
        if found:
            tokens += found
            last = number
        elif tokens and not comment:
            yield Entry(tokens, last)
            tokens = []


def _question(entry: Entry) -> Question:
    entry.name("question")
    number_token = entry.take("a question's number")
    number = whole(number_token, "a question's number")
    entry.name("code")
    code_token = entry.take("a code's number")
    code = code_of(code_token, whole(code_token, "a code's number"))
    no_row, no_word = code.lengths.row * [0], code.lengths.word * [0]

    def written(row: Iterable[int], word: Iterable[int]) -> bytes:
        return calls.write_sheet(code.chosen, [number], row, word)

    try:
        written(no_row, no_word)
    except Refusal as refused:
        raise unexpected(number_token, "a question's number from 0 to 16777215", refused.number) from None
    row = row_in(entry, code, lambda row: written(row, no_word), ["word", "message"])
    word = word_in(entry, code, lambda word: written(no_row, word))
    entry.ends()
    return Question(code.chosen[0], number, row.values, word.values)


# --- writing one


def _normal(question: Question) -> str:
    m = len(question.row) // len(question.word)
    return f"question {question.number} code {question.code}\n{listed('row', question.row, m)}word {spaced(question.word)}\n"


def spaced(numbers: Iterable[int]) -> str:
    return " ".join(map(str, numbers))


def listed(name: str, numbers: list[int], m: int) -> str:
    """A list of n·m numbers behind its name, symbol by symbol, in lines below each other."""
    wide = max(4, *(len(str(number)) for number in numbers))
    symbols = [" ".join(f"{number:{wide}}" for number in numbers[i : i + m]) for i in range(0, len(numbers), m)]
    across = ACROSS // m
    lines = ["  ".join(symbols[i : i + across]) for i in range(0, len(symbols), across)]
    return "".join(f"{' ' * len(name) if i else name} {line}\n" for i, line in enumerate(lines))
