"""The curvature of what the nodes of a cell count for, at reference coordinates."""

from typing import NamedTuple

import numpy as np

from bbfmm import _given, _room
from bbfmm._library import make


class Curvatures(NamedTuple):
    """The curvature of what each node of a cell counts for at P points, all column-major with a row a point.

    - `curvatures`: shape (P, N * D * (D + 1) / 2). Column q * N + n is the curvature of what node n counts for, along pair number q: the
      pairs (g, h) of axes with g <= h, in the order (0,0), (0,1), (0,2), (1,1), (1,2), (2,2) as far as D goes.
    - `factors`: shape (P, D * p). Column a * p + n is the share of index n on axis a.
    - `slopes`: shape (P, D * p). Column a * p + n is the slope of that share.
    - `bends`: shape (P, D * p). Column a * p + n is the second derivative of that share.
    - `room`: shape (P, 3 * p). T, T' and T'' at the coordinates of the last axis, in this order.
    """

    curvatures: np.ndarray
    factors: np.ndarray
    slopes: np.ndarray
    bends: np.ndarray
    room: np.ndarray


def get_curvature_coefficients(order, side, node_polynomials, coordinates):
    """The curvature of what each node of a cell counts for, at points: its second derivative along each pair of axes.

    The points are given by reference coordinates, as `scale_points` leaves them. So values, gradients and curvature at the same points
    need one scaling. The curvature is along the axes of the cell itself. The curvature of a field is the sum over the nodes of this times
    the field's number there. A coordinate outside the cell is taken.

    - `side`: how long the cell is on each axis, from 2^-20 to 2^30: the side that the points were scaled with.
    - `node_polynomials`: float64 of shape (p, p), column-major. Column k has T_k at the nodes.
    - `coordinates`: float64 of shape (P, D), column-major, a row a point, at most 4,096.

    Answers `Curvatures`. What is given is only read. Refuses with 1, 2, 3, 7, 8, 9.

    A gallery of side 4 about 3, with three nodes; and a field, x^2, whose curvature is 2.

    >>> import bbfmm, numpy as np
    >>> nodes = bbfmm.generate_chebyshev_nodes(3)
    >>> node_polynomials = bbfmm.evaluate_chebyshev_polynomials(3, nodes).tn
    >>> field = (3.0 + 2.0 * nodes) ** 2
    >>> place = np.array([[4.5]])
    >>> bbfmm.scale_points(4.0, [3.0], place)
    >>> found = get_curvature_coefficients(3, 4.0, node_polynomials, place)
    >>> bool(abs(found.curvatures @ field - 2.0) < 1e-13)
    True
    >>> get_curvature_coefficients(3, 0.0, node_polynomials, place)
    Traceback (most recent call last):
    bbfmm.refusal.Refusal: refused with 8: the side of the cell is not from 2^-20 to 2^30
    """
    rows, dimension = _given.fitting("coordinates", coordinates, _given.MATRIX).shape
    axes = _room.axes(dimension)
    found = Curvatures(
        curvatures=_room.node_columns(dimension, order, rows, axes * (axes + 1) // 2),
        factors=_room.axis_columns(dimension, order, rows),
        slopes=_room.axis_columns(dimension, order, rows),
        bends=_room.axis_columns(dimension, order, rows),
        room=_room.matrix(_room.points(rows), 3 * _room.axis_nodes(order)),
    )
    make(
        "get_curvature_coefficients",
        dimension=dimension,
        order=order,
        rows=rows,
        side=side,
        node_polynomials=_given.shaped("node_polynomials", node_polynomials, order, order),
        coordinates=coordinates,
        **found._asdict(),
    )
    return found
