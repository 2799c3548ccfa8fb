"""Cross approximation."""

import enum
from typing import NamedTuple

import numpy as np

from bbfmm import _given, _room
from bbfmm._library import make


class Mode(enum.Enum):
    """How a cross approximation goes on where it finds nothing. Take `RESTART`, unless the answers must be those of the ported program.

    - `OLD`: the run ends at the first row without a usable pivot, and it may read a row and a column twice. Rows may be left that were
      never read.
    - `RESTART`: the run goes on with the lowest row that was not read yet. No row and no column is read twice.
    """

    OLD = "old"
    RESTART = "restart"


class Stop(enum.IntEnum):
    """Why a cross approximation ended. None of these bounds the error: what was never read is unknown to the run.

    - `TOLERABLE`: the last term is small against the estimate: norm <= (epsilon*epsilon) * estimate.
    - `SPENT`: the row that was read has no usable pivot: its pivot is below 2^-52 in size, which a NaN is not. This says nothing of other
      rows. Only the old mode ends so.
    - `USED_UP`: there are as many terms as the block has rows or columns.
    - `ALL_TRIED`: every row has been tried. Only restart mode ends so.
    """

    TOLERABLE = 1
    SPENT = 2
    USED_UP = 3
    ALL_TRIED = 4


class Report(NamedTuple):
    """What a cross approximation of a block of m rows and n columns found.

    - `rank`: how many terms there are, and how many columns of the block were read.
    - `stop`: why the run ended.
    - `rows_read`: how many rows were read, those without a usable pivot too.
    - `estimate`: the estimate of the approximation's squared norm.
    - `smallest`: the smallest size among the pivots that rows were divided by. A NaN among these is passed over. Where none is a number
      it is +0.0, and otherwise at least 2^-52.
    - `u`: U, float64 of shape (m, rank), column-major.
    - `v`: V, float64 of shape (n, rank), column-major. The approximation is `u @ v.T`.
    - `row_list`: the rows that were read in order, uint16 of shape (rows_read,).
    - `column_list`: the columns that were read in order, uint16 of shape (rank,).
    """

    rank: int
    stop: Stop
    rows_read: int
    estimate: float
    smallest: float
    u: np.ndarray
    v: np.ndarray
    row_list: np.ndarray
    column_list: np.ndarray


def aca_partial_pivoting(samples, epsilon, mode):
    """Approximates a block of at most 1,024 rows and 1,024 columns by U times the transpose of V, and answers a `Report`.

    The run stops by its own test, which sees only the rows and columns that it read: epsilon bounds no error.

    - `samples`: float64 of shape (m, n), column-major, the block. It is only read.
    - `mode`: a `Mode`.

    Refuses with 3.

    The unit block of two by two. The old mode ends with one row untouched, after reading row 0 twice. Restart mode reads both rows, and
    finds both terms. A row of zeros ends the old mode at once; restart mode tries the others too, and says when there are no more.

    >>> import numpy as np
    >>> report = aca_partial_pivoting(np.eye(2, order="F"), 0.5, Mode.OLD)
    >>> report.rank, report.stop, report.row_list.tolist(), report.column_list.tolist()
    (1, <Stop.SPENT: 2>, [0, 0], [0])
    >>> report = aca_partial_pivoting(np.eye(2, order="F"), 0.5, Mode.RESTART)
    >>> report.rank, report.stop, report.row_list.tolist(), report.column_list.tolist()
    (2, <Stop.USED_UP: 3>, [0, 1], [0, 1])
    >>> (report.u @ report.v.T).tolist()
    [[1.0, 0.0], [0.0, 1.0]]
    >>> report = aca_partial_pivoting(np.zeros((3, 1)), 0.5, Mode.RESTART)
    >>> report.rank, report.stop, report.rows_read, report.smallest
    (0, <Stop.ALL_TRIED: 4>, 3, 0.0)
    """
    rows, columns = _given.fitting("samples", samples, _given.MATRIX).shape
    restart = _given.member("mode", mode, Mode) is Mode.RESTART
    m, n = _room.lines(rows), _room.lines(columns)
    lesser = min(m, n)
    u, v = _room.matrix(m, lesser), _room.matrix(n, lesser)
    row_list, column_list = _room.places(m if restart else lesser), _room.places(lesser)
    counts, numbers = _room.counts(3), _room.floats(2)
    make(
        "aca_partial_pivoting",
        rows=rows,
        columns=columns,
        samples=samples,
        epsilon=epsilon,
        restart=restart,
        u=u,
        v=v,
        row_list=row_list,
        column_list=column_list,
        row=_room.floats(n),
        column=_room.floats(m),
        counts=counts,
        numbers=numbers,
    )
    rank, stop, rows_read = counts.tolist()
    # What lies past these was never written.
    found = u[:, :rank], v[:, :rank], row_list[:rows_read], column_list[:rank]
    return Report(rank, Stop(stop), rows_read, *numbers.tolist(), *found)
