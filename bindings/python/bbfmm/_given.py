"""What a caller gives, looked at before it is lent to a call: what does not fit is named, and no array is converted or copied."""

import collections.abc
import numbers
import operator
from typing import Any, NamedTuple

import numpy as np

# WHOLE NUMBERS, FLOATS, BOOLS


def _is_bool(value):
    return isinstance(value, (bool, np.bool_))


def _whole(name, value, lowest, highest):
    try:
        number = None if _is_bool(value) else operator.index(value)
    except TypeError:
        number = None
    if number is None:
        raise TypeError(f"{name}: wanted a whole number, given a {type(value).__name__}")
    if not lowest <= number <= highest:
        raise OverflowError(f"{name}: wanted a number from {lowest} to {highest}, given {number}")
    return number


def count(name, value):
    """A whole number as C's size_t has it."""
    return _whole(name, value, 0, 2**64 - 1)


def signed(name, value):
    """A whole number as C's int32_t has it."""
    return _whole(name, value, -(2**31), 2**31 - 1)


def real(name, value):
    """A float. A whole number is one too; a text is none."""
    if _is_bool(value) or not isinstance(value, numbers.Real):
        raise TypeError(f"{name}: wanted a number, given a {type(value).__name__}")
    try:
        return float(value)
    except OverflowError:
        raise OverflowError(f"{name}: wanted a number that a float can hold, given a larger one") from None


def flag(name, value):
    """True or False, and nothing that counts as one of them."""
    if not _is_bool(value):
        raise TypeError(f"{name}: wanted True or False, given a {type(value).__name__}")
    return bool(value)


def member(name, value, kind):
    """A value of an enumeration or of a named tuple of this package."""
    if not isinstance(value, kind):
        raise TypeError(f"{name}: wanted a bbfmm.{kind.__name__}, given a {type(value).__name__}")
    return value


# SMALL VECTORS


def _entries(name, value):
    is_list = isinstance(value, collections.abc.Sequence) and not isinstance(value, (str, bytes, bytearray))
    if not is_list and not (isinstance(value, np.ndarray) and value.ndim == 1):
        raise TypeError(f"{name}: wanted a sequence of numbers, given a {type(value).__name__}")
    return [(f"{name}[{place}]", entry) for place, entry in enumerate(value)]


def three(name, value):
    """The three whole numbers of a vector between two blocks, which may be any sequence."""
    entries = [signed(place, entry) for place, entry in _entries(name, value)]
    if len(entries) != 3:
        raise TypeError(f"{name}: wanted three whole numbers, given {len(entries)}")
    return entries


def centre(value):
    """The middle of a cell, which may be any sequence of numbers, an entry an axis: its few numbers are put into an array."""
    return np.array([real(place, entry) for place, entry in _entries("centre", value)], dtype=np.float64)


# ARRAYS


class Wanted(NamedTuple):
    """What an array must be, so that a call can be lent its memory as it lies."""

    dtype: Any
    dimensions: int
    is_written: bool

    def __str__(self):
        layout = "contiguous" if self.dimensions == 1 else "column-major"
        dimensions = "one dimension" if self.dimensions == 1 else "two dimensions"
        return f"a {'writeable ' if self.is_written else ''}{layout} {np.dtype(self.dtype)} array of {dimensions}"


LIST = Wanted(np.float64, 1, False)
MATRIX = Wanted(np.float64, 2, False)


def _unfit(array, wanted):
    """What an array is that it must not be, in words; None where it fits."""
    if not isinstance(array, np.ndarray) or isinstance(array, np.ma.MaskedArray):
        return f"a {type(array).__name__}"
    if array.dtype != wanted.dtype:
        return f"an array of {array.dtype}"
    if array.ndim != wanted.dimensions:
        return f"one of {array.ndim} dimension{'' if array.ndim == 1 else 's'}"
    if not array.flags.f_contiguous:
        is_row_major = array.flags.c_contiguous
        return f"{'row-major' if is_row_major else 'one with gaps or in another order'} (np.asfortranarray makes one)"
    if not array.flags.aligned:
        return "one that is not aligned"
    if wanted.is_written and not array.flags.writeable:
        return "a read-only one"
    return None


def fitting(name, array, wanted):
    """The array itself, which can be lent."""
    unfit = _unfit(array, wanted)
    if unfit is not None:
        raise TypeError(f"{name}: wanted {wanted}, given {unfit}")
    return array


def shaped(name, array, *shape):
    """The matrix itself where it has this shape, else an empty one. A call is told no shape, only how many entries there are: it would take
    a matrix of another shape that has as many. An empty one it refuses with 7, where it has found no lower number."""
    return array if fitting(name, array, MATRIX).shape == shape else np.empty((0, 0), order="F")


def text(value):
    """The bytes of a text as an array, where they lie."""
    try:
        view = memoryview(value)
    except TypeError:
        raise TypeError(f"text: wanted bytes, given a {type(value).__name__}") from None
    if view.format != "B" or view.ndim != 1 or not view.c_contiguous:
        given = f"a {type(value).__name__} of format {view.format}, shape {view.shape}, strides {view.strides}"
        raise TypeError(f"text: wanted contiguous bytes of one dimension, given {given}")
    return np.frombuffer(view, dtype=np.uint8)
