"""The shared library of proved calls, by ctypes. Inner: the package's functions are in `pelshaqu`."""

from __future__ import annotations

import ctypes
import os
from array import array
from typing import Any, Callable, Iterable, Sequence

try:
    from . import _build  # type: ignore[attr-defined]  # written by `make install`
except ImportError:
    _build = None

SONAME = "libpelshaqu.so.1"
_U32 = 0xFFFFFFFF
_U64 = 0xFFFFFFFFFFFFFFFF


class LibraryMissing(OSError):
    """The shared library could not be loaded."""


def _candidates() -> list[str]:
    """Where the library may be, the first that is there is taken."""
    here = os.path.dirname(os.path.realpath(__file__))
    named = os.environ.get("PELSHAQU_LIBRARY")
    if named:
        return [named]
    if _build is not None:
        return [os.path.normpath(os.path.join(here, _build.LIBRARY))]
    checkout = os.path.normpath(os.path.join(here, "..", "..", "target", "lib", SONAME))
    return ([checkout] if os.path.exists(checkout) else []) + [SONAME]


_SLICE = (ctypes.c_void_p, ctypes.c_size_t)
_JOB = (ctypes.c_bool, ctypes.c_uint32) + 3 * _SLICE
_ARGUMENTS: dict[str, tuple[Any, ...]] = {
    "pelshaqu_test_job": _JOB,
    "pelshaqu_read_job": 5 * _SLICE,
    "pelshaqu_write_job": _JOB + 2 * _SLICE,
    "pelshaqu_list_job": 3 * _SLICE,
    "pelshaqu_measure": _JOB + 2 * _SLICE,
    "pelshaqu_trial": _JOB + (ctypes.c_uint64, ctypes.c_uint64) + 2 * _SLICE,
    "pelshaqu_quick_plan": _JOB + 2 * _SLICE,
    "pelshaqu_halve_row": _JOB + 2 * _SLICE,
    "pelshaqu_plan": (ctypes.c_uint32,) + _JOB + 3 * _SLICE,
    "pelshaqu_write_plan": _JOB + 3 * _SLICE,
    "pelshaqu_grade": _JOB + 2 * _SLICE,
    "pelshaqu_plan_job": _SLICE + (ctypes.c_uint32,) + _SLICE,
    "pelshaqu_grade_plan": 3 * _SLICE,
}

_loaded: dict[str, Callable[..., int]] = {}


def _load() -> None:
    tried = []
    for path in _candidates():
        try:
            library = ctypes.CDLL(path)
            break
        except OSError as error:
            tried.append(str(error))
    else:
        raise LibraryMissing(
            f"no {SONAME}: {'; '.join(tried)}. 'make' in the repository builds it, 'make install' installs it; "
            "PELSHAQU_LIBRARY may name its path"
        )
    for name, arguments in _ARGUMENTS.items():
        function = getattr(library, name)
        function.argtypes = arguments
        function.restype = ctypes.c_uint32
        _loaded[name] = function


def call(name: str, *words: Any) -> int:
    """Calls a function of the library: an array is lent as its address and length, a number is passed as it is."""
    if not _loaded:
        _load()
    passed: list[Any] = []
    for word in words:
        if isinstance(word, array):
            passed += word.buffer_info()
        else:
            passed.append(word)
    return _loaded[name](*passed)


def numbers32(values: Sequence[int]) -> array[int]:
    """Numbers as the library takes them. One that has no 32 bits becomes the greatest that has, which is out of each range too."""
    try:
        return array("I", values)
    except OverflowError:
        return array("I", [word32(value) for value in values])


def word32(value: int) -> int:
    """A number of 32 bits; one that has not is out of every range, and so is the greatest, which stands for it."""
    return value if 0 <= value <= _U32 else _U32


def word64(value: int) -> int:
    """The same of 64 bits."""
    return value if 0 <= value <= _U64 else _U64


def zeros(code: str, count: int) -> array[int]:
    """A list of so many zeros, of 8, 16, 32 or 64 bits: 'B', 'H', 'I', 'Q'."""
    return array(code, bytes(array(code).itemsize * count))


def octets(data: Iterable[int]) -> array[int]:
    """Bytes to lend."""
    return array("B", data)
