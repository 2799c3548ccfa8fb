"""Room for what calls write: new arrays, column-major, and how large they are.

Where a number is outside the limits the room is empty, or has one node. So a wild number asks for no memory, and it is the call that
refuses, with its own number: that is told before the 7 of an array without its size.
"""

import numpy as np

from bbfmm import _given

_MOST_AXES = 3
_MOST_ORDER = 16
_MOST_POINTS = 4096
_MOST_LINES = 1024

# NUMBERS


def _at_most(most, number):
    return number if number <= most else 0


def axes(dimension):
    """How many axes a block has."""
    return _at_most(_MOST_AXES, _given.count("dimension", dimension))


def axis_nodes(order):
    """How many nodes a block has an axis."""
    return _at_most(_MOST_ORDER, _given.count("order", order))


def block_nodes(dimension, order):
    """N, all nodes of a block."""
    return axis_nodes(order) ** axes(dimension)


def points(rows):
    """How many points are asked about."""
    return _at_most(_MOST_POINTS, rows)


def lines(number):
    """How many rows or columns a block has."""
    return _at_most(_MOST_LINES, number)


# ARRAYS


def matrix(rows, columns):
    """Floats, column-major."""
    return np.empty((rows, columns), dtype=np.float64, order="F")


def block_points(dimension, order):
    """Where the nodes of a block lie: a row a node, a column an axis."""
    return matrix(block_nodes(dimension, order), axes(dimension))


def node_columns(dimension, order, rows, times=1):
    """A row a point, and a column for each node of a block, so many times."""
    return matrix(points(rows), times * block_nodes(dimension, order))


def axis_columns(dimension, order, rows):
    """A row a point, and a column for each node of each axis."""
    return matrix(points(rows), axes(dimension) * axis_nodes(order))


def floats(entries):
    """Floats of one dimension."""
    return np.empty(entries, dtype=np.float64)


def counts(entries):
    """Numbers as C's size_t has them."""
    return np.empty(entries, dtype=np.uintp)


def places(entries):
    """Numbers of 16 bits: nodes of a table, or rows and columns of a block."""
    return np.empty(entries, dtype=np.uint16)


def octets(entries):
    """Bytes."""
    return np.empty(entries, dtype=np.uint8)
