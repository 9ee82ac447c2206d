#!/usr/bin/env python3
"""The sheets that the program `practice` must write, with what seed it must say the drill goes on, and what it must say of wrong arguments.

    tests/practice/expected.py PROGRAM

runs the program, compares all that it writes with what is computed here, says how much that was, and stops at the first that differs.
Everything is computed here from documents 01 and 02 alone. A draw is found by its place, without those before it, and its remainder by 255 by the sum of
its bytes.
It needs Python alone and takes some seconds.
"""
import subprocess
import sys

# --- sheets
ROWS = {1: 21, 2: 21, 3: 60, 4: 60, 5: 60}
WORDS = {1: 7, 2: 7, 3: 15, 4: 15, 5: 15}


def reliability(seed, place):
    """The reliability at a place of all rows end to end, from 0: so many advances and one more lie behind it."""
    state = (seed + (place + 1) * 0x9E3779B9) % 2**32
    high, low = divmod(state, 2**16)
    left = sum(high.to_bytes(2, "big")) + sum((high ^ low).to_bytes(2, "big"))
    while left >= 255:
        left -= 255
    return left - 127


def packed(kind, size, each, items):
    """Words of a kind, so many items of so many bits in each, the first lowest."""
    parts = [items[i : i + each] for i in range(0, len(items), each)]
    return [kind << 28 | sum(item % 2**size << size * i for i, item in enumerate(part)) for part in parts]


def sheet(code, count, seed):
    words = []
    for i in range(count):
        row = [reliability(seed, i * ROWS[code] + entry) for entry in range(ROWS[code])]
        words += [1 << 28 | code << 24 | i + 1] + packed(2, 8, 3, row) + packed(3, 4, 6, [0] * WORDS[code])
    return b"".join(word.to_bytes(4, "little") for word in words + [15 << 28 | count])


def goes_on(code, count, seed):
    """What is said of the state after the last draw."""
    return b"practice: to go on from here, SEED is 0x%08X\n" % ((seed + count * ROWS[code] * 0x9E3779B9) % 2**32)


# --- what is said of wrong arguments
USAGE = b"usage: practice CODE COUNT SEED, numbers in decimal or as 0x...; the sheet goes to standard output\n"
UNWRITTEN = b"practice: the sheet could not be written to standard output\n"
NAMES = ["CODE", "COUNT", "SEED"]
EXPECTED = ["a number from 1 to 5", "a number from 0 to 200", "a number from 0 to 4294967295"]


def refused(argument, shown):
    return f"practice: {NAMES[argument]} is {shown}; {EXPECTED[argument]} is expected\n".encode() + USAGE


# --- numbers, and texts that are none
def spellings(value):
    """A number as it may be given."""
    mixed = "".join(c.upper() if i % 2 else c for i, c in enumerate(f"{value:x}"))
    return [str(value), "0" + str(value), "0" * 21 + str(value), f"0x{value:x}", f"0x{value:X}", "0x" + mixed, "0x" + "0" * 10 + f"{value:x}"]


NO_NUMBERS = (
    # signs, spaces and what else may stand before or behind; a newline would make two lines of one
    ["", " ", "+", "-", "+1", "-1", "-0", "--1", " 1", "1 ", "\t1", "1\t", "\n1", "1\n", "1\r", "1\v", "1 2", "'1'", '"1"', "1;", "1,"]
    + ["1.", "1.0", "1e0"]
    # digits of no base, or of another one
    + ["a", "f", "1a", "1f", "x", "x1", "1x", "g", "0b1", "0o1", "1u", "1L", "1_0", "1,000", "one", "inf", "nan"]
    + ["--help", "-h", "/", ":", "1/", "1:", "1@", "1`"]
    # hexadecimal digits that are missing, or are none; 0x is small and stands once and first
    + ["0x", "0X", "0X1", "0xx1", "0x0x1", "00x1", "0x ", "0x 1", "0x1 ", " 0x1", "0x+1", "0x-1", "-0x1", "+0x1"]
    + ["0xg", "0x1g", "0xG", "0x@", "0x`", "0x/", "0x:", "0x1.", "0x1p0"]
    # 2^32 and more: with the bits above left out, most would be 0 or 1
    + [str(x) for e in (32, 33, 63, 64, 65, 96, 128) for x in (2**e, 2**e + 1)]
    + [hex(x) for e in (32, 33, 63, 64, 65, 96, 128) for x in (2**e, 2**e + 1)]
    + [str(10**10 + 1), "1" * 400, "0x" + "1" * 400, "0" * 400 + str(2**32 + 1), "9" * 5000]
    # no ASCII: a wide 1, an Arabic 1, a byte of no text
    + ["\uff11".encode(), "\u0661".encode(), b"\xb1", b"1\xa0", b"\x7f", b"\x1b[31m"]
)


def shown(text):
    data = text if isinstance(text, bytes) else text.encode()
    return "'" + "".join(chr(b) if 32 <= b < 127 else "?" for b in data) + "'"


# --- runs
def run(arguments, status, out, err, **where):
    done = subprocess.run([PROGRAM, *arguments], stdin=subprocess.DEVNULL, stderr=subprocess.PIPE, **(where or {"stdout": subprocess.PIPE}))
    for what, found, expected in (("status", done.returncode, status), ("output", done.stdout, out), ("message", done.stderr, err)):
        if found != expected:
            sys.exit(f"{arguments}: the {what} is {found!r} and not {expected!r}")


def accepted():
    """Sheets of every code; each number in each of its spellings."""
    triples = [(3, 20, 0x2A), (1, 3, 7), (4, 10, 10)]
    seeds = [0, 1, 2**16 - 1, 2**16, 2**31, 2**32 - 1, 0x61C88647, 0x61C88646, 0x89ABCDEF]
    triples += [(code, count, seeds[(code + i) % len(seeds)]) for code in ROWS for i, count in enumerate((0, 1, 2, 7, 20, 50, 199, 200))]
    triples += [(code, 2, seed) for code in ROWS for seed in seeds]
    questions = 0
    for triple in triples:
        expected, state = sheet(*triple), goes_on(*triple)
        for i, spelt in enumerate(zip(*map(spellings, triple))):
            # the three numbers in spellings of their own
            run(spelt, 0, expected, state)
            run((spellings(triple[0])[i - 1], spellings(triple[1])[i - 2], spelt[2]), 0, expected, state)
            questions += 2 * triple[1]
    run(("3", "20", "0x2A"), 0, sheet(3, 20, 42), goes_on(3, 20, 42))
    run(("1", "010", "0010"), 0, sheet(1, 10, 10), goes_on(1, 10, 10))
    return 2 * len(spellings(0)) * len(triples) + 2, questions + 30


def wrong():
    """Wrong arguments: what is said of each, and nothing on standard output."""
    runs = 0

    def refuses(arguments, message):
        nonlocal runs
        run(arguments, 2, b"", message)
        runs += 1

    for at in range(3):
        for text in NO_NUMBERS:
            # whatever the numbers beside it are
            for good in (["1", "1", "1"], ["0", "201", "0"]):
                refuses(good[:at] + [text] + good[at + 1 :], refused(at, shown(text)))
    # of several texts that are no numbers, the first is named
    refuses(["", "", ""], refused(0, "''"))
    refuses(["1", "-1", "x"], refused(1, "'-1'"))

    no_codes = [0, 6, 7, 8, 15, 255, 256, 257, 0x01000003, 0x80000001, 2**32 - 1]
    too_many = [201, 202, 255, 256, 456, 480, 481, 2**16, 2**24, 2**29, 44739242, 44739243, 107374182, 2**31, 2**32 - 2, 2**32 - 1]
    for code in no_codes:
        for count in (0, 1, 200):
            for spelt in spellings(code):
                refuses([spelt, str(count), "7"], refused(0, spelt))
    # more than 200 questions come before the code
    for code in [*ROWS, *no_codes]:
        for count in too_many:
            refuses([str(code), str(count), "7"], refused(1, count))
    for count in too_many:
        for spelt in spellings(count):
            refuses(["3", spelt, "7"], refused(1, spelt))

    for arguments in ([], ["3"], ["3", "20"], ["3", "20", "42", ""], ["3", "20", "42", "42"], ["x", "20"], ["0", "201", "x", "x"], ["--help"], [""] * 9):
        refuses(arguments, USAGE)
    return runs


def unwritten():
    """A full device, and no standard output at all."""
    runs = 0
    for arguments in (["3", "0", "1"], ["1", "1", "1"], ["5", "200", "1"]):
        with open("/dev/full", "wb") as full:
            run(arguments, 1, None, UNWRITTEN, stdout=full)
        closed = subprocess.run(["sh", "-c", '"$0" "$@" >&-', PROGRAM, *arguments], stderr=subprocess.PIPE)
        if (closed.returncode, closed.stderr) != (1, UNWRITTEN):
            sys.exit(f"{arguments}: {closed} without a standard output")
        runs += 2
    return runs


if len(sys.argv) != 2:
    sys.exit("usage: tests/practice/expected.py PROGRAM")
PROGRAM = sys.argv[1]
sheets, questions = accepted()
print(
    f"compared: {sheets} practice sheets of {questions} questions that the program writes, {wrong()} runs with wrong arguments, "
    f"{unwritten()} that cannot write"
)
