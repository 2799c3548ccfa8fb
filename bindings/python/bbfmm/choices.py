"""Masked argmax and rank cutoff."""

from bbfmm import _room
from bbfmm._library import make


def argmax_masked(entries, mask):
    """The first place of the largest size among the entries whose mask byte is 1, or 0 where none has a size above 0.

    - `entries`: float64 of shape (n,), n at most 1,024. A NaN is above nothing.
    - `mask`: uint8 of shape (n,), each 0 or 1. An array of bools is one by `mask.view(np.uint8)`, which is the same memory.

    What is given is only read. Refuses with 3, 7, 10.

    >>> import numpy as np
    >>> entries = np.array([1.0, -3.0, 3.0])
    >>> argmax_masked(entries, np.array([1, 1, 1], dtype=np.uint8))
    1
    >>> argmax_masked(entries, np.array([True, False, True]).view(np.uint8))
    2
    >>> argmax_masked(entries, np.array([1, 0, 2], dtype=np.uint8))
    Traceback (most recent call last):
    bbfmm.refusal.Refusal: refused with 10: a byte of the mask is not 0 or 1
    """
    place = _room.counts(1)
    make("argmax_masked", entries=entries, mask=mask, place=place)
    return place.item()


def calculate_singular_values_cutoff(values, epsilon):
    """The first place from which on the squares of the singular values, summed from the end, come to less than (total*epsilon)*epsilon.

    Here total is the sum of all squares. Where there is no such place the answer is how many there are.

    - `values`: float64 of shape (n,), n from 1 to 1,024. It is only read.

    Refuses with 3.

    >>> import numpy as np
    >>> calculate_singular_values_cutoff(np.array([4.0, 3.0]), 0.5)
    2
    >>> calculate_singular_values_cutoff(np.array([4.0, 3.0]), 0.75)
    1
    >>> calculate_singular_values_cutoff(np.array([]), 0.5)
    Traceback (most recent call last):
    bbfmm.refusal.Refusal: refused with 3: there are too many points, entries, rows, columns or nodes, or no singular values
    """
    place = _room.counts(1)
    make("calculate_singular_values_cutoff", values=values, epsilon=epsilon, place=place)
    return place.item()
