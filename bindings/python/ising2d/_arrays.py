"""Arrays of whole numbers: of numpy if it is installed, else of the module ``array``.

What a caller hands in is converted here, once, or refused: a float, a bool, a set, a text, an array of
another shape, a number that does not fit. Arrays that answers carry are read-only if they are numpy's.
"""

from __future__ import annotations

import ctypes
import importlib
import sys
from array import array
from collections.abc import Mapping, Set
from typing import Any, List, Sequence, Tuple

numpy: Any
try:
    numpy = importlib.import_module("numpy")
except ImportError:  # numpy is optional
    numpy = None

# For each kind of number its letter in the module array, and its range.
_LETTERS = {"int8": "b", "int64": "q", "uint32": "I", "uint64": "Q"}
_RANGES = {
    "int8": (-(2**7), 2**7 - 1),
    "int64": (-(2**63), 2**63 - 1),
    "uint32": (0, 2**32 - 1),
    "uint64": (0, 2**64 - 1),
}

# Buffers of so many bytes have pages of their own.
_LARGE = 2**20


def zeros(kind: str, count: int) -> Any:
    """An array of so many zeros."""
    if numpy is not None:
        return numpy.zeros(count, dtype=kind)
    letter = _LETTERS[kind]
    return array(letter, bytes(count * array(letter).itemsize))


def buffer(kind: str, count: int) -> Any:
    """Uninitialized room for so many numbers, which no caller sees. Pages that are not written take no
    memory."""
    if numpy is not None:
        return numpy.empty(count, dtype=kind)
    letter = _LETTERS[kind]
    return memoryview(bytearray(count * array(letter).itemsize)).cast(letter)


def first_of(kind: str, values: Any, count: int) -> Any:
    """The first ``count`` values of a buffer that nobody else has, read-only if numpy is there. Few are
    copied; of many the buffer gives back what is behind them, so that they are never there twice."""
    if numpy is not None:
        if count * values.itemsize < _LARGE:
            return read_only(values[:count].copy())
        values.resize(count, refcheck=False)
        return read_only(values)
    return array(_LETTERS[kind], values[:count].tobytes())


def read_only(values: Any) -> Any:
    """The array itself. One of numpy is made read-only, so that hashes of answers stay right."""
    if is_numpy(values):
        values.flags.writeable = False
    return values


def is_numpy(values: object) -> bool:
    """Whether this is an array of numpy."""
    return numpy is not None and isinstance(values, numpy.ndarray)


def as_array(values: List[int], kind: str) -> Any:
    """Numbers that are known to fit, as an array."""
    if numpy is not None:
        return read_only(numpy.array(values, dtype=kind))
    return array(_LETTERS[kind], values)


def whole_numbers(values: Any, kind: str, what: str) -> Any:
    """A copy of the values as an array of this kind, of one axis. Raises ``TypeError`` for what is no list
    of whole numbers, and ``OverflowError`` for a number that does not fit."""
    refuse_unordered(values, what)
    if is_numpy(values):
        return _of_numpy(values, kind, what)
    listed = values if isinstance(values, (list, tuple, array)) else listed_of(values, what)
    found = _of_list(listed, kind, what)
    # The array of the module is a buffer: numpy's takes its numbers in one copy.
    return found if numpy is None else numpy.array(found, dtype=kind)


def whole_list(values: Any, kind: str, what: str) -> List[int]:
    """The same numbers as a list. One that is a list already passes through no array of numpy."""
    made = _of_list(values, kind, what) if type(values) is list else whole_numbers(values, kind, what)
    found: List[int] = made.tolist()
    return found


def _of_list(listed: Sequence[Any], kind: str, what: str) -> Any:
    low, high = _RANGES[kind]
    if not isinstance(listed, array) and has_bools(listed):
        place = next(i for i, value in enumerate(listed) if is_bool(value))
        whole(listed[place], what)
    try:
        return array(_LETTERS[kind], listed)
    except (OverflowError, TypeError):
        return array(_LETTERS[kind], [_in_range(value, low, high, what) for value in listed])


def has_bools(listed: Sequence[Any]) -> bool:
    """Whether there is a bool among the values."""
    kinds = set(map(type, listed))
    return bool in kinds or (numpy is not None and numpy.bool_ in kinds)


def is_bool(value: object) -> bool:
    """Whether this is a bool, of Python or of numpy."""
    return isinstance(value, bool) or (numpy is not None and isinstance(value, numpy.bool_))


def numbers(values: Any, kind: str, what: str) -> Any:
    """The values themselves if they are an array of this kind that the library can read, else a copy."""
    if numpy is None and isinstance(values, array) and values.typecode == _LETTERS[kind]:
        return values
    if numpy is not None and type(values) is numpy.ndarray and values.dtype == kind:
        if values.ndim == 1 and values.flags.c_contiguous:
            return values
    return whole_numbers(values, kind, what)


def refuse_unordered(values: Any, what: str) -> None:
    """Raises ``TypeError`` for what has no order, is a text, or hides some of its values."""
    if isinstance(values, (str, bytes, bytearray)):
        raise TypeError(f"{what}: expected a list of whole numbers, not the text {values!r}")
    if isinstance(values, (Set, Mapping)):
        name = type(values).__name__
        raise TypeError(f"{what}: expected a list of whole numbers; a {name} has no order")
    if hasattr(values, "mask") and _is_masked(values):
        raise TypeError(f"{what}: expected a list of whole numbers; a masked array hides some")


def _is_masked(values: Any) -> bool:
    masked = sys.modules.get("numpy.ma")
    return masked is not None and isinstance(values, masked.MaskedArray)


def listed_of(values: Any, what: str) -> List[Any]:
    """The values as a list."""
    try:
        return list(values)
    except TypeError:
        name = type(values).__name__
        raise TypeError(f"{what}: expected a list, not {_article(name)} {name}") from None


def refuse_shape(values: Any, what: str) -> None:
    """Raises ``TypeError`` for an array of numpy of another number of axes than one."""
    if values.ndim != 1:
        raise TypeError(f"{what}: expected an array of one axis, not one of shape {values.shape}")


def _of_numpy(values: Any, kind: str, what: str) -> Any:
    """An array of numpy of one axis as one of this kind."""
    low, high = _RANGES[kind]
    if values.dtype.kind == "O":
        refuse_shape(values, what)
        listed = [_in_range(value, low, high, what) for value in values.tolist()]
        return numpy.array(listed, dtype=kind)
    if values.dtype.kind not in "iu":
        raise of_another_kind(values.dtype, what)
    refuse_shape(values, what)
    if values.size and (int(values.min()) < low or int(values.max()) > high):
        place = next(i for i, value in enumerate(values.tolist()) if not low <= value <= high)
        _in_range(int(values[place]), low, high, what)
    return numpy.array(values, dtype=kind)


def whole(value: Any, what: str) -> int:
    """A value that is a whole number by its own account, as those of numpy are. A bool is none."""
    try:
        if is_bool(value):
            raise TypeError
        return int(value.__index__())
    except (AttributeError, TypeError):
        name, hint = type(value).__name__, _advice(what) if isinstance(value, float) else ""
        raise TypeError(
            f"{what}: expected a whole number, not the {name} {shortened(value)}{hint}"
        ) from None


def of_another_kind(kind: Any, what: str) -> TypeError:
    """What an array of numpy without whole numbers raises."""
    hint = _advice(what) if kind.kind == "f" else ""
    return TypeError(f"{what}: expected whole numbers, not an array of {kind}{hint}")


def _advice(what: str) -> str:
    """What to do with real numbers, where they are likely to be meant."""
    if "weights" in what:
        return "; scale real numbers and round them, as round(2**20 * x)"
    is_real = any(word in what for word in ("coupling", "bonds"))
    return "; Lattice.from_real and Graph.from_real take real numbers" if is_real else ""


def shortened(value: Any) -> str:
    """The value as Python writes it, and of a long one the front."""
    text = repr(value)
    return text if len(text) <= 60 else text[:57] + "..."


def _in_range(value: Any, low: int, high: int, what: str) -> int:
    number = whole(value, what)
    if not low <= number <= high:
        raise OverflowError(f"{what}: {number} is not from {low} to {high}")
    return number


def in_32_bits(value: Any, what: str) -> int:
    """The value, if it is a whole number from 0 to 2**32 - 1."""
    return _in_range(value, 0, 2**32 - 1, what)


def in_64_bits(value: Any, what: str) -> int:
    """The value, if it is a whole number from -2**63 to 2**63 - 1."""
    return _in_range(value, -(2**63), 2**63 - 1, what)


def _article(name: str) -> str:
    return "an" if name[:1].lower() in tuple("aeiou") else "a"


def pointer_to(values: Any) -> Tuple[int, int]:
    """The address of an array's first entry, never null, and the number of its entries."""
    count = len(values)
    if is_numpy(values):
        return values.ctypes.data or _NOWHERE, count
    if isinstance(values, memoryview):
        return ctypes.addressof(ctypes.c_char.from_buffer(values)) if count else _NOWHERE, count
    # An empty array may have no memory: any address serves for no entries.
    return values.buffer_info()[0] or _NOWHERE, count


_NOTHING = ctypes.c_uint64(0)
_NOWHERE = ctypes.addressof(_NOTHING)
