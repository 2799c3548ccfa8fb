"""Chebyshev nodes, polynomials, their derivatives and second derivatives."""

from typing import NamedTuple, Optional

import numpy as np

from bbfmm import _given, _room
from bbfmm._library import make


class Polynomials(NamedTuple):
    """The Chebyshev polynomials below an order at P points: arrays of shape (P, p), a row a point and a column a polynomial.

    - `tn`: column j has T_j at the points.
    - `dtn`: the derivatives, or None where they were not asked for.
    - `ddtn`: the second derivatives, or None.
    """

    tn: np.ndarray
    dtn: Optional[np.ndarray] = None
    ddtn: Optional[np.ndarray] = None


def generate_chebyshev_nodes(order):
    """The Chebyshev nodes of an order, the roots of T_p, rising, as a float64 array of shape (p,).

    Refuses with 2.

    >>> generate_chebyshev_nodes(2).round(12).tolist()
    [-0.707106781187, 0.707106781187]
    >>> generate_chebyshev_nodes(17)
    Traceback (most recent call last):
    bbfmm.refusal.Refusal: refused with 2: the order is not 1 to 16
    """
    nodes = _room.floats(_room.axis_nodes(order))
    make("generate_chebyshev_nodes", order=order, nodes=nodes)
    return nodes


def generate_node_set(order, set):
    """The Chebyshev nodes of an order in a set, rising, as a float64 array of shape (p,).

    Set 0 is what `generate_chebyshev_nodes` gives. Set 1 is mirror-exact: the upper half of those, their exact negations below, and +0.0
    in the middle of an odd order. With points made of it a turned block sees exactly the distances of the stored one along each axis.

    Refuses with 2, 17.

    >>> low, middle, high = generate_node_set(3, 1).tolist()
    >>> low == -high, middle
    (True, 0.0)
    >>> generate_node_set(3, 0).tolist()[1] > 0.0
    True
    >>> generate_node_set(3, 2)
    Traceback (most recent call last):
    bbfmm.refusal.Refusal: refused with 17: the set of nodes is not 0 or 1
    """
    nodes = _room.floats(_room.axis_nodes(order))
    make("generate_node_set", order=order, set=set, nodes=nodes)
    return nodes


def _table(order, rows):
    return _room.matrix(_room.points(rows), _room.axis_nodes(order))


def evaluate_chebyshev_polynomials(order, points, with_derivatives=False):
    """The Chebyshev polynomials below the order at points, at most 4,096; and, if wanted, their derivatives: answers `Polynomials`.

    - `points`: float64 of shape (P,), any floats. It is only read.

    Refuses with 2, 3.

    >>> import numpy as np
    >>> tn, dtn, _ = evaluate_chebyshev_polynomials(4, np.array([0.5]), with_derivatives=True)
    >>> tn.tolist(), dtn.tolist()
    ([[1.0, 0.5, -0.5, -1.0]], [[0.0, 1.0, 2.0, 0.0]])
    >>> evaluate_chebyshev_polynomials(4, np.array([0.5])).dtn is None
    True
    """
    rows = _given.fitting("points", points, _given.LIST).size
    is_wanted = _given.flag("with_derivatives", with_derivatives)
    tn = _table(order, rows)
    dtn = _table(order, rows if is_wanted else 0)
    make("evaluate_chebyshev_polynomials", order=order, rows=rows, points=points, with_derivatives=is_wanted, tn=tn, dtn=dtn)
    return Polynomials(tn, dtn if is_wanted else None)


def evaluate_second_derivatives(order, points):
    """The Chebyshev polynomials below the order at points, at most 4,096; their derivatives, and their second derivatives.

    - `points`: float64 of shape (P,), any floats. It is only read.

    Answers `Polynomials`. The first two are what `evaluate_chebyshev_polynomials` gives with derivatives. Refuses with 2, 3.

    T_2 = 2x^2 - 1 has 4 everywhere, and T_3 = 4x^3 - 3x has 24x.

    >>> import numpy as np
    >>> evaluate_second_derivatives(4, np.array([0.5])).ddtn.tolist()
    [[0.0, 0.0, 4.0, 12.0]]
    >>> evaluate_second_derivatives(17, np.array([0.5]))
    Traceback (most recent call last):
    bbfmm.refusal.Refusal: refused with 2: the order is not 1 to 16
    """
    rows = _given.fitting("points", points, _given.LIST).size
    found = Polynomials(_table(order, rows), _table(order, rows), _table(order, rows))
    make("evaluate_second_derivatives", order=order, rows=rows, points=points, **found._asdict())
    return found
