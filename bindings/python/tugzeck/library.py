"""The shared library: where it is found, and its calls as include/tugzeck.h declares them."""

from __future__ import annotations

import ctypes
import functools
import os
from ctypes import POINTER, c_float, c_int16, c_int32, c_size_t, c_uint8, c_uint16, c_uint32
from typing import Any

NAME = "libtugzeck.so"
MAKE = (
    "tools/build tugzeck",
    "cc -shared -Wl,--whole-archive target/staticlib/libtugzeck.a -Wl,--no-whole-archive -o bindings/python/tugzeck/libtugzeck.so",
)


class LibraryMissing(ImportError):
    """The shared library is not there or cannot be loaded; the message says what to run."""


Configuration = c_uint16 * 4


class Splitting(ctypes.Structure):
    _fields_ = [("number", c_uint32), ("configuration", Configuration)]


class Decoding(ctypes.Structure):
    _fields_ = [("number", c_uint32), ("metric", c_int32)]


class Marking(ctypes.Structure):
    _fields_ = [("number", c_uint32), ("verdict", c_uint32), ("shortfall", c_int32)]


class Judgement(ctypes.Structure):
    _fields_ = [("number", c_uint32), ("questions", c_uint32)]


class Asked(ctypes.Structure):
    _fields_ = [("number", c_uint32), ("found", c_uint32), ("code", c_uint32), ("question", c_uint32)]


class Drawn(ctypes.Structure):
    _fields_ = [("number", c_uint32), ("state", c_uint32)]


class Listed(ctypes.Structure):
    _fields_ = [("number", c_uint32), ("length", c_size_t)]


def _lent(*types: Any) -> list[Any]:
    """The arguments for buffers of these elements: each a pointer and a count."""
    return [argument for element in types for argument in (POINTER(element), c_size_t)]


# what a call answers and what it takes; those over a code also stand with _by
_OF_A_CODE = {
    "encode": (c_uint32, _lent(c_uint8, c_uint8)),
    "read_word": (c_uint32, _lent(c_uint8, c_uint8)),
    "check_word": (c_uint32, _lent(c_uint8)),
    "split": (Splitting, _lent(c_uint8, c_uint8)),
    "join": (c_uint32, [POINTER(c_uint16), *_lent(c_uint8, c_uint8)]),
    "quantise": (c_uint32, _lent(c_float, c_int16)),
    "receive": (c_uint32, _lent(c_uint8, c_float, c_int16)),
    "decode": (Decoding, _lent(c_int16, c_uint8, c_int16, c_int32)),
    "mark": (Marking, _lent(c_int16, c_uint8, c_int32)),
}
_OF_SHEETS = {
    "judge_sheet": (Judgement, _lent(c_uint8)),
    "question": (Asked, [*_lent(c_uint8), c_size_t, *_lent(c_int16, c_uint8)]),
    "write_sheet": (c_uint32, _lent(c_uint32, c_uint32, c_int16, c_uint8, c_uint8)),
    "practice": (Drawn, [c_uint32, c_uint32, c_uint32, *_lent(c_uint8)]),
    "list": (Listed, _lent(c_uint8, c_uint8)),
}
CALLS = {
    **{name: (answer, [c_uint32, *taken]) for name, (answer, taken) in _OF_A_CODE.items()},
    **{name + "_by": (answer, [c_uint32, c_uint32, *taken]) for name, (answer, taken) in _OF_A_CODE.items()},
    **_OF_SHEETS,
}


@functools.lru_cache(maxsize=None)
def load() -> ctypes.CDLL:
    """The library, from the folder that TUGZECK_LIB names, else from beside this file, with its calls declared."""
    path = os.path.join(os.environ.get("TUGZECK_LIB") or os.path.dirname(os.path.abspath(__file__)), NAME)
    try:
        library = ctypes.CDLL(path)
        for name, (answer, taken) in CALLS.items():
            function = getattr(library, "tugzeck_" + name)
            function.restype, function.argtypes = answer, taken
    except (OSError, AttributeError) as wrong:
        is_there = os.path.exists(path)
        raise LibraryMissing(
            f"{path} {f'cannot be loaded ({wrong})' if is_there else 'is not there'}. From a checkout, run\n    "
            + " &&\n    ".join(MAKE)
            + f"\nor set TUGZECK_LIB to the folder that has {NAME}."
        ) from wrong
    return library
