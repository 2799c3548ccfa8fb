"""Graham's ratio at points of a cell, from the fields of three gases."""

import enum
from typing import NamedTuple

import numpy as np

from bbfmm import _given, _room
from bbfmm._library import make


class Air(enum.IntEnum):
    """What `graham_ratios` answers at a point.

    - `RATIO`: there is a ratio. The deficiency is finite and not below the floor, and the ratio is finite.
    - `UNUSABLE`: the deficiency is not finite, or it is not below the floor and the ratio is not finite.
    - `FRESH`: the deficiency is finite and below the floor, whatever carbon monoxide is.

    >>> Air(2)
    <Air.FRESH: 2>
    """

    RATIO = 0
    UNUSABLE = 1
    FRESH = 2


class Gases(NamedTuple):
    """The local expansions of the three gases: what each field is at the nodes of the cell, float64 of shape (N,) each, all in one unit."""

    carbon_monoxide: np.ndarray
    nitrogen: np.ndarray
    oxygen: np.ndarray


class Ratios(NamedTuple):
    """Graham's ratio at P points, or why there is none.

    - `answers`: uint8 of shape (P,). Each is the number of an `Air`.
    - `ratios`: float64 of shape (P,). Where the answer is `Air.RATIO` it is the ratio, elsewhere NaN.
    - `values`: float64 of shape (P, N), column-major, and
    - `factors`: float64 of shape (P, D * p), column-major: as `get_approximation_coefficients` gives them.
    """

    answers: np.ndarray
    ratios: np.ndarray
    values: np.ndarray
    factors: np.ndarray


def graham_ratios(order, side, floor, centre, node_polynomials, points, gases):
    """Graham's ratio, 100 * CO / (0.265 * N2 - O2), at points of a cell; the points are scaled in place.

    At each point a gas is the sum, over the nodes in rising order, of what the node counts for times the gas's entry there. The oxygen
    deficiency is (0.265 * N2) - O2. First it is asked whether that is finite, then whether it is below the floor, and only then the ratio
    is formed, (100 * CO) / deficiency, and asked whether it is finite. A deficiency equal to the floor has a ratio.

    - `side`: how long the cell is on each axis, from 2^-20 to 2^30.
    - `floor`: the least deficiency that has a ratio, finite and above 0, in the unit of the gases.
    - `centre`: any sequence of D numbers, the middle of the cell.
    - `node_polynomials`: float64 of shape (p, p), column-major. Column k has T_k at the nodes. It is only read.
    - `points`: float64 of shape (P, D), column-major, a row a point, at most 4,096, not scaled yet. They are changed where they lie, to
      what `scale_points` leaves.
    - `gases`: `Gases`. They are only read. An array that shares memory with the points is a ValueError.

    Answers `Ratios`. Refuses with 1, 2, 3, 7, 8, 9, 11, 12.

    A gallery of side 4 about 0, from an old goaf to fresh air, and its two ends. With these polynomials a field goes straight from its
    first entry, at one end, to its second. Then a reading that failed: it spoils the field of its cell, and no ratio is given.

    >>> import numpy as np
    >>> node_polynomials = np.array([[1.0, -0.5], [1.0, 0.5]], order="F")
    >>> gases = Gases(
    ...     carbon_monoxide=np.array([0.0060, 0.0001]),
    ...     nitrogen=np.array([86.00, 79.04]),
    ...     oxygen=np.array([9.79, 20.93]),
    ... )
    >>> found = graham_ratios(2, 4.0, 0.1, [0.0], node_polynomials, np.array([[-2.0], [2.0]]), gases)
    >>> [Air(answer).name for answer in found.answers], found.ratios.round(12).tolist()
    (['RATIO', 'FRESH'], [0.046153846154, nan])
    >>> failed = gases._replace(oxygen=np.array([np.nan, 20.93]))
    >>> found = graham_ratios(2, 4.0, 0.1, [0.0], node_polynomials, np.array([[-2.0], [2.0]]), failed)
    >>> [Air(answer).name for answer in found.answers]
    ['UNUSABLE', 'UNUSABLE']
    >>> graham_ratios(2, 4.0, 0.0, [0.0], node_polynomials, np.array([[-2.0], [2.0]]), gases)
    Traceback (most recent call last):
    bbfmm.refusal.Refusal: refused with 12: the floor is not finite and above 0
    """
    rows, dimension = _given.fitting("points", points, _given.MATRIX).shape
    found = Ratios(
        answers=_room.octets(_room.points(rows)),
        # Where there is no ratio the call leaves its place as it is.
        ratios=np.full(_room.points(rows), np.nan),
        values=_room.node_columns(dimension, order, rows),
        factors=_room.axis_columns(dimension, order, rows),
    )
    make(
        "graham_ratios",
        dimension=dimension,
        order=order,
        side=side,
        rows=rows,
        floor=floor,
        centre=_given.centre(centre),
        node_polynomials=_given.shaped("node_polynomials", node_polynomials, order, order),
        points=points,
        **_given.member("gases", gases, Gases)._asdict(),
        **found._asdict(),
    )
    return found
