"""Numbers as a person writes them, in a text or on the command line: lists behind their names, judged by the library.

A mistake is told with what stands there and what is expected. What may stand there is the library's to say: a list is handed to a call, and where the call
refuses it, the place that the refusal is about is found by asking again, with one number of the list at a time.
"""

from __future__ import annotations

import re
from typing import Any, Callable, Iterable, NamedTuple, Optional, Sequence

from . import calls
from .calls import Lengths, Refusal

#: What begins a list, or a single number.
NAMES = ("question", "code", "row", "samples", "kinds", "word", "message", "configuration", "bch")

_WHOLE = re.compile(r"[+-]?[0-9]+")
_SAMPLE = re.compile(r"[+-]?(([0-9]+\.?[0-9]*|\.[0-9]+)(e[+-]?[0-9]+)?|inf|nan)", re.IGNORECASE)


class Token(NamedTuple):
    """What stands between white space, and in which line of a text; 0 where there are no lines."""

    text: str
    line: int = 0


class Mistake(ValueError):
    """What stands in a line, and what was expected; with the number of the refusal where the library has refused it, else 0."""

    def __init__(self, line: int, stands: str, expected: str, number: int = 0) -> None:
        super().__init__(line, stands, expected, number)
        self.line, self.stands, self.expected, self.number = line, stands, expected, number

    def __str__(self) -> str:
        where = f"line {self.line}: " if self.line else ""
        refused = f" (refused by {self.number})" if self.number else ""
        return f"{where}{self.stands}; {self.expected} is expected{refused}"


def shown(text: str) -> str:
    """A text as a message shows it: on one line, and short."""
    plain = "".join(c if c.isprintable() else "\N{REPLACEMENT CHARACTER}" for c in text)
    return f"'{plain if len(plain) <= 40 else plain[:39] + '…'}'"


def unexpected(token: Token, expected: str, number: int = 0) -> Mistake:
    return Mistake(token.line, f"{shown(token.text)} stands here", expected, number)


def either(*choices: str) -> str:
    return " or ".join([", ".join(choices[:-1])] * (len(choices) > 1) + [choices[-1]])


def whole(token: Token, expected: str = "a whole number") -> int:
    if not _WHOLE.fullmatch(token.text):
        raise unexpected(token, expected)
    # no call takes a number of 20 digits, whatever digits follow
    digits = token.text.lstrip("+-").lstrip("0")[:20] or "0"
    return -int(digits) if token.text[0] == "-" else int(digits)


def sample(token: Token, expected: str = "a sample") -> float:
    if not _SAMPLE.fullmatch(token.text):
        raise unexpected(token, expected)
    return float(token.text)


class Listed(NamedTuple):
    """A list behind its name: its numbers, and where each stands."""

    name: Token
    tokens: list[Token]
    values: list[Any]


class Entry:
    """The tokens of a question or of a command line, taken one after another."""

    def __init__(self, tokens: Iterable[Token], last: int = 0) -> None:
        self.tokens = list(tokens)
        self.last = last
        self.at = 0

    def peek(self) -> Optional[Token]:
        return self.tokens[self.at] if self.at < len(self.tokens) else None

    def take(self, expected: str) -> Token:
        token = self.peek()
        if token is None:
            raise Mistake(self.last, "nothing more stands here", expected)
        self.at += 1
        return token

    def name(self, *names: str) -> Token:
        expected = either(*map(shown, names))
        token = self.take(expected)
        if token.text not in names:
            raise unexpected(token, expected)
        return token

    def named(self, *names: str) -> Token:
        """The same, where the first of the names may be left out before its list."""
        token = self.peek()
        if token is not None and token.text in NAMES:
            return self.name(*names)
        return Token(names[0], token.line if token else self.last)

    def list(self, name: Token, then: Sequence[str] = ()) -> Listed:
        """The numbers up to the next name; `then` are the names that may come."""
        tokens = []
        while (token := self.peek()) is not None and token.text not in NAMES:
            tokens.append(self.take(""))
        number = sample if name.text == "samples" else whole
        expected = either("a sample" if name.text == "samples" else "a whole number", *map(shown, then))
        return Listed(name, tokens, [number(token, expected) for token in tokens])

    def ends(self) -> None:
        token = self.peek()
        if token is not None:
            raise unexpected(token, "nothing more" if token.line == 0 else "a blank line before the next question")


class Code(NamedTuple):
    """A code that may be chosen, by its number or by its m and r."""

    chosen: tuple[int, ...]
    lengths: Lengths

    @property
    def m(self) -> int:
        return self.lengths.row // self.lengths.word

    def call(self, name: str) -> Callable[..., Any]:
        function = getattr(calls, name + ("_by" if len(self.chosen) == 2 else ""))
        return lambda *lists: function(*self.chosen, *lists)


def code_of(token: Token, *chosen: int) -> Code:
    try:
        return Code(chosen, calls.lengths(*chosen) if len(chosen) == 1 else calls.lengths_by(*chosen))
    except Refusal as refused:
        expected = "a code from 1 to 5" if len(chosen) == 1 else "m,r with m = 3 and r from 1 to 6, or with m = 4 and r 1, 2, 4 or 6,"
        raise unexpected(token, expected, refused.number) from None


# --- lists, judged by a call


def _content(code: Code, name: str, number: int) -> Optional[str]:
    """What a number of a list must be, where a refusal is about one number of that list."""
    return {
        ("row", 5): "a reliability from -127 to 127",
        ("word", 6): f"a symbol from 0 to {2 ** code.m - 1}",
        ("message", 6): f"a symbol from 0 to {2 ** code.m - 1}",
        ("samples", 7): "a number",
        ("kinds", 14): "a kind from 0 to 3",
    }.get((name, number))


def _length(code: Code, name: str, number: int) -> Optional[int]:
    """How long a list must be, where a refusal is about its length."""
    n, k, bits = code.lengths
    return {("row", 2): bits, ("samples", 2): bits, ("word", 3): n, ("message", 3): k, ("bch", 3): bits}.get((name, number))


def judged(code: Code, call: Callable[..., Any], *lists: Listed) -> Any:
    """What a call answers of these lists. A refusal that is about one of them is a mistake at its place; any other stays what it is."""
    try:
        return call(*(each.values for each in lists))
    except Refusal as refused:
        number = refused.number
        for at, each in enumerate(lists):
            long = _length(code, each.name.text, number)
            if long is not None and long != len(each.values):
                stands = f"'{each.name.text}' stands here with {len(each.values)} numbers"
                raise Mistake(each.name.line, stands, f"a list of {long}", number) from None
            expected = _content(code, each.name.text, number)
            if expected is not None:
                for place, token in enumerate(each.tokens):
                    alone = [value if i == place else 0 for i, value in enumerate(each.values)]
                    if _refused(call, [alone if i == at else other.values for i, other in enumerate(lists)]) == number:
                        raise unexpected(token, expected, number) from None
        if number == 15:
            kinds, samples = (each.values for each in lists[:2])
            stands = f"{len(kinds)} kinds with {len(samples)} samples stand here"
            expected = f"a list of kinds that has {code.lengths.row} bits in all (1, 2, 1, 2 for kinds 0 to 3) and takes every sample (0, 0, 1, 2)"
            raise Mistake(lists[0].name.line, stands, expected, number) from None
        raise


def _refused(call: Callable[..., Any], lists: Iterable[Any]) -> int:
    try:
        call(*lists)
    except Refusal as refused:
        return refused.number
    return 0


def row_in(entry: Entry, code: Code, taken: Callable[..., Any], then: Sequence[str], may_go_without: bool = False) -> Listed:
    """The reliabilities of a row, of samples, or of kinds with samples. `taken` is the call that must take them."""
    choices = ("row", "samples", "kinds")
    name = entry.named(*choices) if may_go_without else entry.name(*choices)
    if name.text == "row":
        row = entry.list(name, then)
        judged(code, taken, row)
        return row
    if name.text == "samples":
        samples = entry.list(name, then)
        return samples._replace(values=judged(code, code.call("quantise"), samples))
    kinds = entry.list(name, ["samples"])
    samples = entry.list(entry.name("samples"), then)
    return kinds._replace(values=judged(code, code.call("receive"), kinds, samples))


def word_in(entry: Entry, code: Code, taken: Callable[..., Any]) -> Listed:
    """The symbols of a word, or of a message to be encoded. `taken` is the call that must take them."""
    listed = entry.list(entry.name("word", "message"))
    if listed.name.text == "message":
        return listed._replace(values=judged(code, code.call("encode"), listed))
    judged(code, taken, listed)
    return listed
