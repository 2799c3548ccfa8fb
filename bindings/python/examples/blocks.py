"""Tries a block: `blocks.py FILE [TOLERANCE]`. Reads a Matrix Market file, approximates its block by cross approximation in restart mode,
and says the rank, why the run stopped, which rows and columns it read, and the largest error.

Run it as `PYTHONPATH=bindings/python python3 bindings/python/examples/blocks.py FILE`, in the project's folder.
"""

import sys

import numpy as np
import scipy.io
import scipy.sparse

import bbfmm

USUAL_TOLERANCE = 1e-6

WORDS = {
    bbfmm.Stop.TOLERABLE: "the last term was small against the terms so far",
    bbfmm.Stop.USED_UP: "there are as many terms as the block has rows or columns",
    bbfmm.Stop.ALL_TRIED: "every row has been tried",
}


def read(path):
    """The block of a file. The library copies nothing, so here is the one copy: to floats, in column-major order."""
    block = scipy.io.mmread(path)
    if scipy.sparse.issparse(block):
        block = block.toarray()
    return np.asfortranarray(block, dtype=np.float64)


def say_list(what, places, count):
    """Rows and columns are counted from 0."""
    listed = "".join(f" {place}" for place in places)
    print(f"{what} read: {len(places)} of {count}{':' if listed else ''}{listed}")


def main(path, tolerance=USUAL_TOLERANCE):
    block = read(path)
    rows, columns = block.shape
    report = bbfmm.aca_partial_pivoting(block, float(tolerance), bbfmm.Mode.RESTART)
    gap = np.abs(block - report.u @ report.v.T).max(initial=0.0)

    print(f"rows: {rows}\ncolumns: {columns}\ntolerance: {float(tolerance):g}\nrank: {report.rank}")
    print(f"stopped since {WORDS[report.stop]}")
    if report.rank > 0:
        print(f"smallest pivot: {report.smallest:g}")
    say_list("rows", report.row_list, rows)
    say_list("columns", report.column_list, columns)
    print(f"largest gap between the block and its factors: {gap:g}")


if __name__ == "__main__":
    if len(sys.argv) not in (2, 3):
        sys.exit("blocks.py FILE [TOLERANCE]")
    main(*sys.argv[1:])
