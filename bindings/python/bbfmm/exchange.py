"""Blocks as texts of the public exchange format Matrix Market: array format, integer field, general symmetry, entries by columns.

A text is `bytes`, or any other buffer of bytes in one piece, as a `bytearray`, a `memoryview`, an `mmap` or an array of uint8. It is read
where it lies.
"""

from typing import NamedTuple

from bbfmm import _given, _room
from bbfmm._library import make_on_text


class Size(NamedTuple):
    """How large a block is: rows and columns, at most 1,024 each.

    >>> Size(2, 3).entries
    6
    """

    rows: int
    columns: int

    @property
    def entries(self):
        """How many entries the block has."""
        return self.rows * self.columns


def block_size(text):
    """How large the block of a text is, as a `Size`. What follows the size line is not looked at.

    Refuses with 13, 14, as a `TextRefusal`, which has the line too.

    >>> block_size(b"%%MatrixMarket matrix array integer general\\n% a comment\\n2 3\\n")
    Size(rows=2, columns=3)
    """
    sizes = _room.counts(2)
    make_on_text("block_size", text=_given.text(text), sizes=sizes)
    return Size(*sizes.tolist())


def read_block(text):
    """Reads the block of a text, and answers a float64 array of shape (rows, columns), column-major.

    The first line is `%%MatrixMarket matrix array integer general`, the four words after the banner in any letter case. Then come comments,
    which begin with %, and blank lines; the size line, rows and columns, parted by spaces; and the entries, one a line, each an optional
    minus and digits, at most 2^53 in size. The last newline may lack. Nothing is rounded, and -0 becomes +0.0.

    Refuses with 13, 14, 15, 16, as a `TextRefusal`: that of the earliest line.

    >>> read_block(b"%%MatrixMarket matrix array integer general\\n2 2\\n1\\n-2\\n30\\n-0\\n").tolist()
    [[1.0, 30.0], [-2.0, 0.0]]
    >>> read_block(b"%%MatrixMarket matrix array integer general\\n2 1\\n1\\n+2\\n")
    Traceback (most recent call last):
    bbfmm.refusal.TextRefusal: line 4: refused with 15: an entry is not a whole number up to 2^53 in size; in writing also one that is -0.0
    """
    size = block_size(text)
    block = _room.matrix(size.rows, size.columns)
    make_on_text("read_block", text=_given.text(text), block=block, sizes=_room.counts(2))
    return block


def write_block(block):
    """Writes a block as a text, which `read_block` reads as the same block, and answers its bytes.

    - `block`: float64 of shape (rows, columns), column-major, each entry a whole number of at most 2^53 in size, and not -0.0.

    It is only read. Refuses with 14, 15, as a `TextRefusal`: 14 at line 2, and 15 at the line that the entry would have.

    >>> import numpy as np
    >>> write_block(np.array([[5.0, -6.0]]))
    b'%%MatrixMarket matrix array integer general\\n1 2\\n5\\n-6\\n'
    >>> write_block(np.array([[5.0, 0.5]]))
    Traceback (most recent call last):
    bbfmm.refusal.TextRefusal: line 4: refused with 15: an entry is not a whole number up to 2^53 in size; in writing also one that is -0.0
    """
    rows, columns = _given.fitting("block", block, _given.MATRIX).shape
    # No text is longer: the lines before the entries have at most 54 bytes, an entry with its minus and its newline 18.
    text = _room.octets(54 + 18 * _room.lines(rows) * _room.lines(columns))
    written = _room.counts(1)
    make_on_text("write_block", rows=rows, columns=columns, block=block, text=text, written=written)
    return text[: written.item()].tobytes()
