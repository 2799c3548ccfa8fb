"""The square root, and the distances between the nodes of two blocks."""

from typing import NamedTuple

import numpy as np

from bbfmm import _room
from bbfmm._library import answer, make


class Distances(NamedTuple):
    """The nodes of two blocks and how far they are from each other, all column-major.

    - `sources`: shape (N, D), where the nodes of the source block lie.
    - `targets`: shape (N, D), where the nodes of the target block lie.
    - `block`: shape (N, N), a row a source and a column a target.
    """

    sources: np.ndarray
    targets: np.ndarray
    block: np.ndarray


def square_root(x):
    """The square root of any float, rounded once, to the nearest and in a tie to the even float.

    -0.0, +0.0 and +infinity give themselves. A NaN and whatever is below 0, -infinity too, give NaN. Refuses nothing.

    >>> square_root(2.25), square_root(-0.0), square_root(-1.0)
    (1.5, -0.0, nan)
    """
    return answer("square_root", x=x)


def sample_distances(dimension, order, side, reference, nodes):
    """The distances from the nodes of the block at a reference vector, the sources, to those of the block about the origin, the targets.

    N is at most 1,024.

    - `side`: from 2^-20 to 2^30.
    - `reference`: below 2, 7, 16 for dimension 1, 2, 3.
    - `nodes`: float64 of shape (p,), the nodes along one axis of a block from -1 to 1. It is only read.

    Answers `Distances`. The entry of row i and column j is the root of the sum of the squares of source i less target j, added in axis
    order; in one dimension too. Refuses with 1, 2, 3, 5, 7, 8.

    The reference vector with number 1 is (3).

    >>> import numpy as np
    >>> found = sample_distances(1, 2, 4.0, 1, np.array([-0.5, 0.5]))
    >>> found.sources.tolist(), found.targets.tolist()
    ([[11.0], [13.0]], [[-1.0], [1.0]])
    >>> found.block.tolist()
    [[12.0, 10.0], [14.0, 12.0]]
    >>> sample_distances(3, 11, 4.0, 1, np.zeros(11))
    Traceback (most recent call last):
    bbfmm.refusal.Refusal: refused with 3: there are too many points, entries, rows, columns or nodes, or no singular values
    """
    block_nodes = _room.lines(_room.block_nodes(dimension, order))
    found = Distances(
        sources=_room.block_points(dimension, order),
        targets=_room.block_points(dimension, order),
        block=_room.matrix(block_nodes, block_nodes),
    )
    make(
        "sample_distances",
        dimension=dimension,
        order=order,
        side=side,
        reference=reference,
        nodes=nodes,
        **found._asdict(),
    )
    return found
