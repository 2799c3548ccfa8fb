"""Why a call did nothing: the numbers of refusals, their names and their words."""

import enum


class Fault(enum.IntEnum):
    """What was at fault, by the number of the refusal.

    >>> Fault(4)
    <Fault.NO_ENTRY: 4>
    >>> Fault.NO_ENTRY.words
    'an entry of the vector is outside -3 to 3'
    """

    def __new__(cls, number, words):
        fault = int.__new__(cls, number)
        fault._value_ = number
        fault.words = words
        return fault

    NO_DIMENSION = 1, "the dimension is not 1, 2 or 3"
    NO_ORDER = 2, "the order is not 1 to 16"
    NO_COUNT = 3, "there are too many points, entries, rows, columns or nodes, or no singular values"
    NO_ENTRY = 4, "an entry of the vector is outside -3 to 3"
    NO_CASE = 5, "the case, reference number, child or node is not below how many there are"
    NOT_ZERO = 6, "an entry of the vector past the dimension is not 0"
    WRONG_LENGTH = 7, "an array has not the size that the other arguments imply"
    NO_CELL = 8, "the side of the cell is not from 2^-20 to 2^30"
    NOT_FINITE = 9, "a coordinate of a point or of the centre is not finite"
    NO_MASK = 10, "a byte of the mask is not 0 or 1"
    OUT_OF_CELL = 11, "a point does not belong to the cell"
    NO_FLOOR = 12, "the floor is not finite and above 0"
    NO_FIRST_LINE = 13, "the text has not the first line that is read"
    NO_SIZE = 14, "there is no size line, or a size is not a number from 0 to 1,024"
    BAD_ENTRY = 15, "an entry is not a whole number up to 2^53 in size; in writing also one that is -0.0"
    WRONG_COUNT = 16, "there are too few entries, or too many"
    NO_SET = 17, "the set of nodes is not 0 or 1"


class Refusal(ValueError):
    """A call did nothing, since what it was given lies outside its limits.

    Every array that was given is as it came. With several faults the one with the lowest number is told. The number is a `Fault`.

    >>> import bbfmm
    >>> try:
    ...     bbfmm.look_up(3, (0, -2, 4))
    ... except bbfmm.Refusal as refusal:
    ...     print(refusal)
    ...     refusal.number
    refused with 4: an entry of the vector is outside -3 to 3
    <Fault.NO_ENTRY: 4>
    """

    def __init__(self, number):
        super().__init__(number)
        self.number = Fault(number)

    def __str__(self):
        return f"refused with {self.number.value}: {self.number.words}"


class TextRefusal(Refusal):
    """A text was not read, or a block not written. The line is counted from 1, and is None where the refusal speaks of none.

    >>> import bbfmm
    >>> try:
    ...     bbfmm.block_size(b"%%MatrixMarket matrix array integer general\\n")
    ... except bbfmm.TextRefusal as refusal:
    ...     print(refusal)
    ...     refusal.line
    line 2: refused with 14: there is no size line, or a size is not a number from 0 to 1,024
    2
    """

    def __init__(self, number, line):
        super().__init__(number)
        self.args = (number, line)
        self.line = line

    def __str__(self):
        place = "" if self.line is None else f"line {self.line}: "
        return place + super().__str__()
