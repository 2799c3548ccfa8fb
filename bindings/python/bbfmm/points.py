"""Target and source points: where the nodes of a block lie."""

from bbfmm import _room
from bbfmm._library import make


def generate_chebyshev_target_points(dimension, order, side, nodes):
    """Where the nodes of a block of this side lie, about the origin.

    - `side`: from 2^-20 to 2^30.
    - `nodes`: float64 of shape (p,), the nodes along one axis of a block from -1 to 1. It is only read.

    Answers a float64 array of shape (N, D), column-major. Row n is the place of node n. Refuses with 1, 2, 7, 8.

    >>> import numpy as np
    >>> nodes = np.array([-0.5, 0.5])
    >>> generate_chebyshev_target_points(2, 2, 4.0, nodes).tolist()
    [[-1.0, -1.0], [-1.0, 1.0], [1.0, -1.0], [1.0, 1.0]]
    >>> generate_chebyshev_target_points(2, 2, 0.0, nodes)
    Traceback (most recent call last):
    bbfmm.refusal.Refusal: refused with 8: the side of the cell is not from 2^-20 to 2^30
    """
    points = _room.block_points(dimension, order)
    make("generate_chebyshev_target_points", dimension=dimension, order=order, side=side, nodes=nodes, points=points)
    return points


def generate_chebyshev_source_points(dimension, order, side, reference, nodes):
    """Where the nodes of the block lie that is at the reference vector with this number.

    - `side`: from 2^-20 to 2^30.
    - `reference`: below 2, 7, 16 for dimension 1, 2, 3.
    - `nodes`: float64 of shape (p,), the nodes along one axis of a block from -1 to 1. It is only read.

    Answers a float64 array of shape (N, D), column-major. Row n is the place of node n. Refuses with 1, 2, 5, 7, 8.

    The reference vector with number 1 is (3).

    >>> import numpy as np
    >>> nodes = np.array([-0.5, 0.5])
    >>> generate_chebyshev_source_points(1, 2, 4.0, 1, nodes).tolist()
    [[11.0], [13.0]]
    >>> generate_chebyshev_source_points(1, 2, 4.0, 2, nodes)
    Traceback (most recent call last):
    bbfmm.refusal.Refusal: refused with 5: the case, reference number, child or node is not below how many there are
    """
    points = _room.block_points(dimension, order)
    make(
        "generate_chebyshev_source_points",
        dimension=dimension,
        order=order,
        side=side,
        reference=reference,
        nodes=nodes,
        points=points,
    )
    return points
