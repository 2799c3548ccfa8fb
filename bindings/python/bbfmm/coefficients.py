"""Points of a cell as reference coordinates, and what the nodes of a cell count for there."""

from typing import NamedTuple, Optional

import numpy as np

from bbfmm import _given, _room
from bbfmm._library import make


class Coefficients(NamedTuple):
    """What each node of a cell counts for at P points, all column-major with a row a point.

    - `values`: shape (P, N). Column n is what node n counts for.
    - `gradients`: shape (P, D * N). Column g * N + n is the slope of that along axis g. None where it was not asked for.
    - `factors`: shape (P, D * p). Column a * p + n is the share of index n on axis a.
    - `slopes`: shape (P, D * p). Column a * p + n is the slope of that share. None where gradients were not asked for.
    """

    values: np.ndarray
    gradients: Optional[np.ndarray]
    factors: np.ndarray
    slopes: Optional[np.ndarray]


def scale_points(side, centre, points):
    """Points of a cell become reference coordinates, in place: (point - centre) / (side * 0.5) on each axis, from -1 to 1 in the cell.

    They are what the calls for coefficients take. Scaled once, they serve as often as they are asked about; a second scaling would move
    them. No point is scaled before all are known to belong to the cell.

    - `side`: how long the cell is on each axis, from 2^-20 to 2^30.
    - `centre`: any sequence of D numbers, the middle of the cell.
    - `points`: float64 of shape (P, D), column-major, a row a point, at most 4,096. They are changed where they lie.

    Refuses with 1, 3, 7, 8, 9, 11.

    A cell of side 4 about (1, 10), and the points (2, 9) and (-1, 12). Then a point that is out of the cell on one axis: none is scaled.

    >>> import numpy as np
    >>> points = np.array([[2.0, 9.0], [-1.0, 12.0]], order="F")
    >>> scale_points(4.0, (1, 10), points)
    >>> points.tolist()
    [[0.5, -0.5], [-1.0, 1.0]]
    >>> points = np.array([[2.0, 9.0], [-1.0, 13.0]], order="F")
    >>> scale_points(4.0, (1, 10), points)
    Traceback (most recent call last):
    bbfmm.refusal.Refusal: refused with 11: a point does not belong to the cell
    >>> points.tolist()
    [[2.0, 9.0], [-1.0, 13.0]]
    """
    rows, dimension = _given.fitting("points", points, _given.MATRIX).shape
    make("scale_points", dimension=dimension, rows=rows, side=side, centre=_given.centre(centre), points=points)


def get_approximation_coefficients(order, node_polynomials, coordinates, side=None):
    """What each node of a cell counts for at points; and, with the cell's side, how that changes along each axis.

    The points are given by reference coordinates, as `scale_points` leaves them. So values can be asked for first, and gradients later, at
    the same coordinates: the values are the same, bit for bit. A coordinate outside the cell is taken: the polynomials go on there, and
    grow.

    - `node_polynomials`: float64 of shape (p, p), column-major. Column k has T_k at the nodes.
    - `coordinates`: float64 of shape (P, D), column-major, a row a point, at most 4,096.
    - `side`: for gradients, how long the cell is on each axis, from 2^-20 to 2^30: the side that the points were scaled with.

    Answers `Coefficients`. What is given is only read. Refuses with 1, 2, 3, 7, 8, 9, of which 8 with a side only.

    A cell of side 4 about 1, with nodes at -0.5 and 0.5 of it, and the point 2. The map draws values, and then gradients.

    >>> import numpy as np
    >>> node_polynomials = np.array([[1.0, -0.5], [1.0, 0.5]], order="F")
    >>> place = np.array([[2.0]])
    >>> scale_points(4.0, [1.0], place)
    >>> get_approximation_coefficients(2, node_polynomials, place).values.tolist()
    [[0.25, 0.75]]
    >>> get_approximation_coefficients(2, node_polynomials, place, side=4.0).gradients.tolist()
    [[-0.25, 0.25]]
    >>> get_approximation_coefficients(2, node_polynomials, np.array([[3.0]])).values.tolist()
    [[-1.0, 2.0]]
    >>> get_approximation_coefficients(2, node_polynomials, np.array([[np.nan]]))
    Traceback (most recent call last):
    bbfmm.refusal.Refusal: refused with 9: a coordinate of a point or of the centre is not finite
    """
    rows, dimension = _given.fitting("coordinates", coordinates, _given.MATRIX).shape
    with_gradients = side is not None
    sloped = rows if with_gradients else 0
    found = Coefficients(
        values=_room.node_columns(dimension, order, rows),
        gradients=_room.node_columns(dimension, order, sloped, _room.axes(dimension)),
        factors=_room.axis_columns(dimension, order, rows),
        slopes=_room.axis_columns(dimension, order, sloped),
    )
    make(
        "get_approximation_coefficients",
        dimension=dimension,
        order=order,
        rows=rows,
        with_gradients=with_gradients,
        # Without gradients it is not looked at, and one that is refused with them shows it.
        side=side if with_gradients else 0.0,
        node_polynomials=_given.shaped("node_polynomials", node_polynomials, order, order),
        coordinates=coordinates,
        **found._asdict(),
    )
    return found if with_gradients else found._replace(gradients=None, slopes=None)
