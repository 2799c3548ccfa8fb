"""Turning a block: looking up a vector, one node followed, reference vectors, and the two tables.

A vector between two blocks is any sequence of three whole numbers, and a reference vector comes back as a tuple.
"""

from typing import NamedTuple

import numpy as np

from bbfmm import _given, _room
from bbfmm._library import make


class Entry(NamedTuple):
    """What is known of a vector between two blocks.

    - `index`: its place among all vectors of its dimension, the first axis slowest.
    - `case`: which of the 2, 8 or 48 ways its block is turned.
    - `reference`: the number of its reference vector. A near vector has none, and 0 here.
    - `near`: whether every entry is -1, 0 or 1.
    """

    index: int
    case: int
    reference: int
    near: bool


class Moves(NamedTuple):
    """Where one node goes, and which node comes to its place.

    - `image`: the node of the turned block that the node goes to.
    - `origin`: the node of the reference block that comes to the node's place.
    """

    image: int
    origin: int


def look_up(dimension, vector):
    """Looks up the vector between two blocks, and answers an `Entry`.

    - `vector`: any sequence of three whole numbers. Those past the dimension must be 0.

    Refuses with 1, 4, 6.

    >>> look_up(3, (0, -2, 1))
    Entry(index=158, case=33, reference=1, near=False)
    >>> look_up(2, (1, -1, 0)).near
    True
    >>> look_up(2, (0, -2, 1))
    Traceback (most recent call last):
    bbfmm.refusal.Refusal: refused with 6: an entry of the vector past the dimension is not 0
    """
    x, y, z = _given.three("vector", vector)
    answer = _room.counts(4)
    make("look_up", dimension=dimension, x=x, y=y, z=z, answer=answer)
    index, case, reference, near = answer.tolist()
    return Entry(index, case, reference, near == 1)


def follow_node(dimension, order, vector, node):
    """Follows one node, below N, under the table of the vector's case, near or far, and answers its `Moves`.

    They are the entries at the node of `combined_permutation` and of `inverse_permutation`; no table is filled.

    - `vector`: any sequence of three whole numbers. Those past the dimension must be 0.

    Refuses with 1, 2, 4, 5, 6, of which 5 for a node that is not below N.

    >>> follow_node(2, 2, (0, -2, 0), 0)
    Moves(image=1, origin=2)
    >>> follow_node(2, 2, (0, -2, 0), 4)
    Traceback (most recent call last):
    bbfmm.refusal.Refusal: refused with 5: the case, reference number, child or node is not below how many there are
    """
    x, y, z = _given.three("vector", vector)
    answer = _room.counts(2)
    make("follow_node", dimension=dimension, order=order, x=x, y=y, z=z, node=node, answer=answer)
    return Moves(*answer.tolist())


def reference_vector(dimension, number):
    """The reference vector with this number, which is below 2, 7, 16 for dimension 1, 2, 3, as a tuple of three whole numbers.

    Those past the dimension are 0. Refuses with 1, 5.

    >>> reference_vector(3, 4)
    (2, 2, 1)
    >>> reference_vector(3, 16)
    Traceback (most recent call last):
    bbfmm.refusal.Refusal: refused with 5: the case, reference number, child or node is not below how many there are
    """
    vector = np.empty(3, dtype=np.int32)
    make("reference_vector", dimension=dimension, number=number, vector=vector)
    return tuple(vector.tolist())


def _table(name, dimension, order, case):
    table = _room.places(_room.block_nodes(dimension, order))
    make(name, dimension=dimension, order=order, case=case, table=table)
    return table


def combined_permutation(dimension, order, case):
    """The table of a case, which is below 2, 8, 48 for dimension 1, 2, 3.

    Answers a uint16 array of shape (N,). Entry n is the node of the turned block that node n of the reference block goes to.

    Refuses with 1, 2, 5.

    >>> combined_permutation(2, 2, 3).tolist()
    [2, 0, 3, 1]
    """
    return _table("combined_permutation", dimension, order, case)


def inverse_permutation(dimension, order, case):
    """The inverse of the table that `combined_permutation` gives for the same case.

    Answers a uint16 array of shape (N,). Entry n is the node of the reference block that goes to node n of the turned block.

    Refuses with 1, 2, 5.

    >>> inverse_permutation(2, 2, 3).tolist()
    [1, 3, 0, 2]
    >>> inverse_permutation(2, 17, 3)
    Traceback (most recent call last):
    bbfmm.refusal.Refusal: refused with 2: the order is not 1 to 16
    """
    return _table("inverse_permutation", dimension, order, case)
