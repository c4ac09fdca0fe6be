"""The shared library: where it is found, and its structs and calls as kovrelna.h declares them.

Assumes that the library found is the one of that header.
"""

import ctypes
import os
from ctypes import POINTER, Structure, c_double, c_size_t, c_uint16, c_uint32, c_uint64, c_void_p
from typing import Any, Type

NAME = "libkovrelna.so.0"


class Tolerance(Structure):
    _fields_ = [
        ("form", c_uint64),
        ("p", c_uint64),
        ("q", c_uint64),
        ("x", c_double),
        ("y", c_double),
        ("below_p", c_uint64),
        ("below_q", c_uint64),
    ]


class Limits(Structure):
    _fields_ = [("tolerance", Tolerance), ("gap", c_uint32)]


# The most tolerances of a scan.
TOLERANCES = 16


class Tolerances(Structure):
    _fields_ = [("count", c_uint64), ("list", Tolerance * TOLERANCES)]


# The most samples that a view keeps.
VIEW_SAMPLES = 66


class View(Structure):
    """The state of a view: its kept list is the first `count` samples."""

    _fields_ = [("k", c_uint32), ("count", c_uint32), ("samples", c_uint16 * VIEW_SAMPLES)]


class Answer(Structure):
    _fields_ = [("number", c_uint32), ("value", c_uint64)]


class Galloped(Structure):
    _fields_ = [("number", c_uint32), ("value", c_uint64), ("probes", c_uint64)]


class Scanned(Structure):
    _fields_ = [("number", c_uint32), ("value", c_uint64), ("kept", c_uint64 * TOLERANCES)]


class Begun(Structure):
    _fields_ = [("number", c_uint32), ("value", c_uint64), ("view", View)]


class Measured(Structure):
    _fields_ = [
        ("number", c_uint32),
        ("side", c_uint32),
        ("value", c_uint64),
        ("p", c_uint64),
        ("q", c_uint64),
        ("sample", c_uint64),
    ]


class Judged(Structure):
    _fields_ = [
        ("number", c_uint32),
        ("passed", c_uint32),
        ("value", c_uint64),
        ("p", c_uint64),
        ("q", c_uint64),
        ("sample", c_uint64),
        ("side", c_uint32),
    ]


class JudgedGreedy(Structure):
    _fields_ = [
        ("number", c_uint32),
        ("passed", c_uint32),
        ("value", c_uint64),
        ("fault", c_uint32),
    ]


class Verdict(Structure):
    _fields_ = [("number", c_uint32), ("passed", c_uint32), ("value", c_uint64)]


class Closest(Structure):
    _fields_ = [("number", c_uint32), ("value", c_uint64), ("p", c_uint64), ("q", c_uint64)]


class Held(Structure):
    """An answer with the two parts of a tolerance: those of hold and read."""

    _fields_ = [
        ("number", c_uint32),
        ("value", c_uint64),
        ("p", c_uint64),
        ("q", c_uint64),
        ("below_p", c_uint64),
        ("below_q", c_uint64),
    ]


class Summary(Structure):
    """A row of a report."""

    _fields_ = [
        ("samples", c_size_t),
        ("kept", c_size_t),
        ("p", c_uint64),
        ("q", c_uint64),
        ("sample", c_size_t),
        ("number", c_uint32),
    ]


class Totals(Structure):
    _fields_ = [
        ("number", c_uint32),
        ("value", c_uint64),
        ("samples", c_uint64),
        ("kept", c_uint64),
        ("p", c_uint64),
        ("q", c_uint64),
    ]


class Compared(Structure):
    _fields_ = [
        ("number", c_uint32),
        ("value", c_uint64),
        ("moved", c_uint64),
        ("noisy", c_uint64),
    ]


# An entry of the lists that pedestals writes.
Channel = c_uint16


def _load() -> ctypes.CDLL:
    """The library that KOVRELNA_LIBRARY names, else the one beside this file, else the one that the
    system's loader finds."""
    beside = os.path.join(os.path.dirname(os.path.abspath(__file__)), NAME)
    path = os.environ.get("KOVRELNA_LIBRARY") or (beside if os.path.exists(beside) else NAME)
    try:
        return ctypes.CDLL(path)
    except OSError as error:
        raise ImportError(
            f"the shared library of Kovrelna cannot be loaded ({error}): install it beside the "
            "module (make install-python) or where the system's loader looks, or set "
            "KOVRELNA_LIBRARY to its path"
        ) from error


_LIBRARY = _load()
_LIST = (c_void_p, c_size_t)
_CRATE = _LIST + _LIST + _LIST


def _declare(name: str, answer: Type[Structure], *parameters: Any) -> Any:
    try:
        call = getattr(_LIBRARY, f"kovrelna_{name}")
    except AttributeError as error:
        raise ImportError(f"{_LIBRARY._name} is no library of this version: {error}") from error
    call.restype = answer
    call.argtypes = parameters
    return call


hold = _declare("hold", Held, Tolerance)
measure = _declare("measure", Measured, *_LIST, *_LIST, c_size_t, c_size_t)
judge = _declare("judge", Judged, *_LIST, *_LIST, *_LIST, Limits)
judge_greedy = _declare("judge_greedy", JudgedGreedy, *_LIST, *_LIST, *_LIST, Limits)
walk = _declare("walk", Answer, *_LIST, *_LIST, Limits, *_LIST)
gallop = _declare("gallop", Galloped, *_LIST, *_LIST, Limits, *_LIST)
minimum = _declare("minimum", Answer, *_LIST, *_LIST, Limits, *_LIST)
least = _declare("least", Closest, *_LIST, *_LIST, c_uint32, c_uint64, *_LIST)
scan = _declare("scan", Scanned, *_LIST, *_LIST, Tolerances, c_uint32, *_LIST)
view_begin = _declare("view_begin", Begun, c_uint64)
view_add = _declare("view_add", Answer, POINTER(View), *_LIST, *_LIST)
sum = _declare("sum", Answer, *(8 * _LIST))
report = _declare("report", Totals, *_CRATE, Limits, *_LIST)
pedestals = _declare("pedestals", Compared, *_CRATE, *_CRATE, Tolerance, c_uint64, *_LIST, *_LIST)
expand = _declare("expand", Answer, *_LIST, *_LIST)
expand_with = _declare("expand_with", Answer, *_LIST, *_LIST, *_LIST)
write = _declare("write", Answer, *_LIST, *_LIST, *_LIST, Limits, *_LIST, c_size_t)
read = _declare("read", Held, *_LIST, *_LIST, *_LIST)
same = _declare("same", Verdict, *_LIST, *_LIST)
