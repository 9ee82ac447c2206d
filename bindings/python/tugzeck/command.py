"""The command of the desk: `tugzeck`, or `python -m tugzeck`."""

from __future__ import annotations

import os
import re
import sys
from typing import Callable, NamedTuple, Optional, Sequence

from . import __version__, calls, page, text
from .calls import Refusal
from .entry import Code, Entry, Mistake, Token, code_of, judged, row_in, shown, unexpected, word_in
from .library import LibraryMissing
from .text import listed, spaced

DONE, REFUSED, USAGE = range(3)

#: So much of a sheet is read and judged, as by the listing program: the longest sheet, and a word more.
MOST_READ = calls.MOST_SHEET + 4


class Wrong(Exception):
    """The command was given wrongly."""


class Failed(Exception):
    """Something could not be read, written or judged."""


# --- standard input and output, and files


def _input(arguments: Sequence[str], most: int = -1) -> tuple[bytes, str]:
    """The bytes of the file that is named, or of standard input, and what they are called."""
    if len(arguments) > 1:
        raise Wrong(f"{shown(arguments[1])} stands behind the file's name; nothing more is expected")
    name = arguments[0] if arguments else "-"
    try:
        if name != "-":
            with open(name, "rb") as file:
                return file.read(most), os.path.basename(name)
        if not arguments and (sys.stdin is None or sys.stdin.isatty()):
            raise Wrong("nothing stands here; a file's name is expected, or a file on standard input")
        return (sys.stdin.buffer.read(most) if sys.stdin else b""), "standard input"
    except OSError as wrong:
        raise Wrong(f"{shown(name)} cannot be read: {wrong.strerror}") from wrong


def _output(data: bytes) -> None:
    try:
        if sys.stdout is None:
            raise OSError
        sys.stdout.buffer.write(data)
        sys.stdout.buffer.flush()
    except BrokenPipeError:
        # who reads has seen enough; nothing is left to be flushed at the end
        os.dup2(os.open(os.devnull, os.O_WRONLY), sys.stdout.fileno())
    except OSError:
        raise Failed("standard output cannot be written") from None


def _say(lines: str) -> None:
    _output(lines.encode("utf-8"))


def _tell(lines: str) -> None:
    if sys.stderr is not None:
        sys.stderr.write(lines)


def _not_on_a_terminal(example: str) -> None:
    if sys.stdout is not None and sys.stdout.isatty():
        raise Wrong(f"a sheet is no text for a terminal; a file is expected behind it, as in `{example}`")


# --- sheets


def _write(arguments: list[str]) -> int:
    _not_on_a_terminal("tugzeck write paper.txt > paper.sheet")
    data, name = _input(arguments)
    try:
        sheet = text.sheet_of(data)
    except Mistake as mistake:
        raise Failed(f"{name}, {mistake}") from None
    _output(sheet)
    return DONE


def _read(arguments: list[str]) -> int:
    data, name = _input(arguments, MOST_READ)
    try:
        lines = text.text_of(data)
    except Refusal as refused:
        raise Failed(f"{name} is {refused}") from None
    _say(lines)
    return DONE


def _list(arguments: list[str]) -> int:
    data, name = _input(arguments, MOST_READ)
    _say(calls.list_sheet(data))
    return _judge(data, name)


def _page(arguments: list[str]) -> int:
    data, name = _input(arguments, MOST_READ)
    _say(page.page_of(data, name))
    return _judge(data, name)


def _judge(data: bytes, name: str) -> int:
    try:
        calls.judge_sheet(data)
    except Refusal as refused:
        raise Failed(f"{name} is {refused}") from None
    return DONE


_SEED = re.compile(r"0x[0-9A-Fa-f]+|[0-9]+")


def _practice(arguments: list[str]) -> int:
    expected = {"CODE": "a number from 1 to 5", "COUNT": "a number from 0 to 200", "SEED": "a number from 0 to 4294967295"}
    if len(arguments) != 3:
        raise Wrong(f"{len(arguments)} arguments stand here; three are expected")
    numbers = []
    for name, argument in zip(expected, arguments):
        number = int(argument, 16 if argument[:2] == "0x" else 10) if _SEED.fullmatch(argument) and len(argument) < 4000 else -1
        if not 0 <= number < 2**32:
            raise Wrong(f"{name} is {shown(argument)}; {expected[name]} is expected")
        numbers.append(number)
    _not_on_a_terminal("tugzeck practice 3 20 0x2A > drill.sheet")
    try:
        sheet, state = calls.practice(*numbers)
    except Refusal as refused:
        name, argument = ("CODE", arguments[0]) if refused.number == 1 else ("COUNT", arguments[1])
        raise Wrong(f"{name} is {argument}; {expected[name]} is expected") from None
    _output(sheet)
    _tell(f"tugzeck practice: to go on from here, SEED is 0x{state:08X}\n")
    return DONE


# --- one word or row


def _code(entry: Entry) -> Code:
    expected = "a code's number from 1 to 5, or m,r"
    token = entry.take(expected)
    chosen = re.fullmatch(r"([0-9]{1,10})(?:,([0-9]{1,10}))?", token.text)
    if not chosen:
        raise unexpected(token, expected)
    return code_of(token, *(int(number) for number in chosen.groups() if number is not None))


def _entry(arguments: Sequence[str]) -> Entry:
    return Entry(Token(word) for argument in arguments for word in argument.split())


def _encode(arguments: list[str]) -> int:
    entry = _entry(arguments)
    code = _code(entry)
    message = entry.list(entry.named("message"))
    entry.ends()
    _say(f"word {spaced(judged(code, code.call('encode'), message))}\n")
    return DONE


def _decode(arguments: list[str]) -> int:
    entry = _entry(arguments)
    code = _code(entry)
    row = row_in(entry, code, code.call("decode"), (), may_go_without=True)
    entry.ends()
    metric, word, soft = code.call("decode")(row.values)
    message = code.call("read_word")(word)
    _say(f"word {spaced(word)}\nmessage {spaced(message)}\nmetric {metric}\n{listed('soft', soft, code.m)}")
    return DONE


def _mark(arguments: list[str]) -> int:
    entry = _entry(arguments)
    code = _code(entry)
    no_row, no_word = code.lengths.row * [0], code.lengths.word * [0]
    row = row_in(entry, code, lambda row: code.call("mark")(row, no_word), ("word", "message"), may_go_without=True)
    word = word_in(entry, code, lambda word: code.call("mark")(no_row, word))
    entry.ends()
    verdict, shortfall = code.call("mark")(row.values, word.values)
    _say(f"{verdict} {'-' if verdict == 'none' else shortfall}\n")
    return DONE


def _split(arguments: list[str]) -> int:
    entry = _entry(arguments)
    code = _code(entry)
    word = entry.list(entry.named("word"))
    entry.ends()
    configuration, bch = judged(code, code.call("split"), word)
    n = code.lengths.word
    layers = "\n    ".join(spaced(bch[i : i + n]) for i in range(0, len(bch), n))
    _say(f"configuration {spaced(configuration[: code.m])}\nbch {layers}\n")
    return DONE


def _join(arguments: list[str]) -> int:
    entry = _entry(arguments)
    code = _code(entry)
    configuration = entry.list(entry.named("configuration"), ["bch"])
    bch = entry.list(entry.name("bch"))
    entry.ends()
    if len(configuration.values) not in (code.m, 4):
        raise Wrong(f"'configuration' stands here with {len(configuration.values)} numbers; a list of {code.m} is expected")
    _say(f"word {spaced(judged(code, code.call('join'), configuration, bch))}\n")
    return DONE


# --- the commands


class Command(NamedTuple):
    run: Callable[[list[str]], int]
    takes: str
    does: str
    more: str


_CODE = "CODE is 1 to 5, or m,r: m bits to a symbol and r roots, with m = 3 each r from 1 to 6, with m = 4 the r 1, 2, 4 and 6."
_ROW = """\
The row is n·m reliabilities behind `row`, which may be left out; or behind `samples` n·m samples, which are quantised; or behind `kinds` the kinds of
received symbols (0 lost, one bit; 1 lost, two bits; 2 one sample; 3 in-phase and quadrature sample) and then behind `samples` their samples."""
_FILE = "Without FILE, or where it is -, standard input is read."

COMMANDS = {
    "write": Command(
        _write,
        "[FILE] > SHEET",
        "writes the sheet of a paper that is written as a text",
        f"""\
{_FILE} A mistake is told with its line, and nothing is written then. The text form:

{text.FORM}
    $ tugzeck write examples/paper.txt > paper.sheet""",
    ),
    "read": Command(
        _read,
        "[FILE] > TEXT",
        "writes a sheet as a text, in its normal form",
        f"""\
{_FILE} `tugzeck write` makes the same sheet of the text again.

    $ tugzeck read examples/paper.sheet > paper.txt""",
    ),
    "list": Command(
        _list,
        "[FILE]",
        "marks a sheet: a line a question",
        f"""\
{_FILE} Fields: question number, code, best metric, verdict, shortfall or a dash, bits (a question mark where undecided), least magnitude of a soft output.

    $ tugzeck list examples/paper.sheet""",
    ),
    "page": Command(
        _page,
        "[FILE] > PAGE",
        "marks a sheet: a page for a browser and for print",
        f"""\
{_FILE} The page is one file, with no outside parts. That of a refused sheet shows the refusal.

    $ tugzeck page examples/paper.sheet > paper.html""",
    ),
    "practice": Command(
        _practice,
        "CODE COUNT SEED > SHEET",
        "draws a practice sheet from a seed",
        """\
CODE is 1 to 5, COUNT 0 to 200, SEED any number below 2^32; each in decimal, or in hexadecimal behind 0x. With which SEED the drill goes on is said on
standard error.

    $ tugzeck practice 3 20 0x2A > drill.sheet""",
    ),
    "encode": Command(
        _encode,
        "CODE [message] SYMBOL...",
        "the codeword of a message",
        f"""\
{_CODE}

    $ tugzeck encode 1 1 0 0 0 0
    word 3 6 1 0 0 0 0""",
    ),
    "decode": Command(
        _decode,
        "CODE [row] NUMBER... | CODE [kinds KIND...] samples SAMPLE...",
        "the first best word of a row, its message, its metric and the soft outputs",
        f"""\
{_CODE}
{_ROW}

    $ tugzeck decode 1 row -10 10 10 10 10 10 10 10 10 10 10 10 10 10 10 10 10 10 10 10 10
    word 0 0 0 0 0 0 0
    message 0 0 0 0 0
    metric 190
    soft   20   40   40    20   40   40    20   40   20    20   40   40
           20   20   40    20   40   40    20   40   40""",
    ),
    "mark": Command(
        _mark,
        "CODE [row] NUMBER... word SYMBOL...",
        "what a word handed in for a row is worth: none -, short N or best 0",
        f"""\
{_CODE}
{_ROW}
In place of `word` and its n symbols may stand `message` and k symbols, which are encoded.

    $ tugzeck mark 1 row 9 9 9 9 9 9 9 9 9 9 9 9 9 9 9 9 9 9 9 9 9 word 3 6 1 0 0 0 0
    short 90""",
    ),
    "split": Command(
        _split,
        "CODE [word] SYMBOL...",
        "a codeword by its layers: its configuration, and a BCH word to a line",
        f"""\
{_CODE}
What it prints may stand behind `tugzeck join CODE`.

    $ tugzeck split 1 1 1 5 4 6 2 2
    configuration 7 4 1
    bch 1 1 1 0 0 1 0
        0 0 1 0 1 1 1
        1 0 1 1 1 0 0""",
    ),
    "join": Command(
        _join,
        "CODE [configuration] SYNDROME... bch BIT...",
        "the codeword of a configuration and m BCH words",
        f"""\
{_CODE}
The m BCH words of n bits stand end to end, layer 1 first.

    $ tugzeck join 1 7 4 1 bch 1 1 1 0 0 1 0 0 0 1 0 1 1 1 1 0 1 1 1 0 0
    word 1 1 5 4 6 2 2""",
    ),
}


def _help() -> str:
    lines = "".join(f"    {name:10}{command.does}\n" for name, command in COMMANDS.items())
    return f"""\
usage: tugzeck COMMAND ...

{lines}
`tugzeck COMMAND --help` says more, with an example; `tugzeck --version` says which version this is.
Status 0: done; 1: a sheet, a text or a word is refused, or something cannot be written; 2: the command was given wrongly, or a file cannot be read.
"""


def _usage(name: str) -> str:
    return f"usage: tugzeck {name} {COMMANDS[name].takes}\n"


def main(arguments: Optional[Sequence[str]] = None) -> int:
    """Runs a command and answers its status."""
    given = list(sys.argv[1:] if arguments is None else arguments)
    name = given[0] if given else ""
    try:
        if name in ("--help", "-h", "help"):
            _say(_help())
            return DONE
        if name == "--version":
            _say(f"tugzeck {__version__}\n")
            return DONE
        if name not in COMMANDS:
            _tell(f"tugzeck: {shown(name)} is no command\n{_help()}" if given else _help())
            return USAGE
        rest = given[1:]
        if "--help" in rest or "-h" in rest:
            command = COMMANDS[name]
            _say(f"{_usage(name)}\n{command.does[0].upper()}{command.does[1:]}.\n{command.more}\n")
            return DONE
        for argument in rest:
            if argument.startswith("--"):
                raise Wrong(f"{shown(argument)} is no option; --help is the only one")
        return COMMANDS[name].run(rest)
    except Wrong as wrong:
        _tell(f"tugzeck {name}: {wrong}\n{_usage(name)}")
        return USAGE
    except Mistake as mistake:
        _tell(f"tugzeck {name}: {mistake}\n{'' if mistake.number else _usage(name)}")
        return REFUSED if mistake.number else USAGE
    except (Refusal, Failed, LibraryMissing) as refused:
        _tell(f"tugzeck{f' {name}' if name in COMMANDS else ''}: {refused}\n")
        return REFUSED

