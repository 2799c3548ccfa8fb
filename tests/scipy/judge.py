"""SciPy's mmread and mmwrite as outside judges of our calls: judge.py PROGRAM..

Blocks are drawn. What SciPy writes of a block we must read as that block, and what we write of it SciPy must read as that block, exactly.
Then small texts are put to both, and for each that SciPy reads otherwise than the request a row of a table is written to
target/scipy/rows; and so for blocks that mmwrite writes, by itself, in a form that the request has not. PROGRAM.. runs
tests/scipy/exchange.c. Ends with 1 where a block differs.
"""

import io
import random
import signal
import struct
import subprocess
import sys

import numpy
import scipy
import scipy.io

BLOCKS = 2000
LARGEST = 2**53
FIRST = b"%%MatrixMarket matrix array integer general\n"

# OUR CALLS


class Answers:
    """What the program put out, taken apart."""

    def __init__(self, said):
        self.said = said
        self.at = 0

    def take(self, count):
        taken = self.said[self.at : self.at + count]
        if len(taken) < count:
            raise ValueError("the program ended early")
        self.at += count
        return taken

    def number(self):
        return struct.unpack("<Q", self.take(8))[0]

    def text(self):
        """The number and the line of a refusal; or rows, columns, entries and what is written of them."""
        answer = self.number()
        if answer != 0:
            return answer % 256, answer // 256
        rows, columns = self.number(), self.number()
        entries = struct.unpack(f"<{rows * columns}d", self.take(8 * rows * columns))
        return rows, columns, entries, self.take(self.number())


def ask(program, texts):
    """What our calls make of each text."""
    said = subprocess.run(
        program, input=b"".join(struct.pack("<Q", len(t)) + t for t in texts), stdout=subprocess.PIPE, check=True
    ).stdout
    answers = Answers(said)
    return [answers.text() for _ in texts]


# BLOCKS


def draw_entry(dice):
    size = dice.choice([0, 1, LARGEST, LARGEST - 1, dice.getrandbits(dice.randrange(1, 54))])
    return dice.choice([-1, 1]) * size


def draw_block(dice):
    sizes = [0, 1, 1, 2, 3, dice.randrange(41)]
    rows, columns = dice.choice(sizes), dice.choice(sizes)
    if dice.randrange(200) == 0:
        rows, columns = dice.choice([(1024, 1), (1, 1024), (1024, 0), (0, 1024), (1024, 3)])
    entries = [draw_entry(dice) for _ in range(rows * columns)]
    return numpy.array(entries, dtype=numpy.int64).reshape((columns, rows)).T


def write_by_scipy(block, comment):
    text = io.BytesIO()
    scipy.io.mmwrite(text, block, comment=comment, field="integer", symmetry="general")
    return text.getvalue()


def is_block(answer, block):
    """Whether we read this block, bit for bit."""
    if len(answer) != 4 or answer[:2] != block.shape:
        return False
    expected = [float(x) for x in block.flatten(order="F")]
    return struct.pack(f"<{len(expected)}d", *expected) == struct.pack(f"<{len(answer[2])}d", *answer[2])


def read_back(text):
    """What SciPy reads, or None where it refuses."""
    try:
        return scipy.io.mmread(io.BytesIO(text))
    except ValueError:
        return None


def is_alike(back, block):
    return back is not None and back.dtype.kind == "i" and back.shape == block.shape and bool((back == block).all())


def judge_blocks(program):
    """Prints how many blocks went both ways, and answers how many did not. SciPy does not read a block without rows that has columns,
    not even where it wrote that itself: such a block goes one way, if both texts are refused."""
    dice = random.Random(6)
    blocks = [draw_block(dice) for _ in range(BLOCKS)]
    comments = [dice.choice(["", "from a university", "two\nlines", "%", "1 1"]) for _ in blocks]
    texts = [write_by_scipy(block, comment) for block, comment in zip(blocks, comments)]
    unread = unwritten = one_way = 0
    for block, text, answer in zip(blocks, texts, ask(program, texts)):
        if not is_block(answer, block):
            unread += 1
            print(f"tests/scipy: a block of {block.shape} that SciPy writes is read as {answer[:2]}")
            continue
        ours, its_own = read_back(answer[3]), read_back(text)
        if ours is None and its_own is None and block.shape[0] == 0:
            one_way += 1
        else:
            unwritten += not is_alike(ours, block)
    entries = sum(block.size for block in blocks)
    print(
        f"tests/scipy: SciPy {scipy.__version__}: {len(blocks)} blocks, {entries} entries; written by SciPy and not read alike by us: "
        f"{unread}, written by us and not read alike by SciPy: {unwritten}; without rows, which SciPy writes and does not read: {one_way}"
    )
    return unread + unwritten


# WHERE THE TWO DIFFER

# What is probed, and a text; F stands for the first line with its newline.
PROBES = [
    ("nothing unusual", b"F1 1\n5\n"),
    ("no last newline", b"F1 1\n5"),
    ("words in capitals", b"%%MatrixMarket MATRIX ARRAY INTEGER GENERAL\n0 0"),
    ("a minus before 0", b"F1 1\n-0"),
    ("zeros before a size", b"F00 00"),
    ("zeros before an entry", b"F1 1\n05"),
    ("spaces between the sizes", b"F0  0"),
    ("a blank line before the sizes", b"F\n0 0"),
    ("spaces only before the sizes", b"F \n0 0"),
    ("a comment before the sizes", b"F%\n0 0"),
    ("no rows", b"F0 1"),
    ("nothing at all", b""),
    ("no size line", b"F"),
    ("a comment and no size line", b"F%"),
    ("a blank line and no size line", b"F\n"),
    ("a comment behind a blank line", b"F\n%\n0 0"),
    ("a comment before the first line", b"%\nF0 0"),
    ("a blank line before the first line", b"\nF0 0"),
    ("the banner in small letters", b"%%matrixmarket matrix array integer general\n0 0"),
    ("a letter behind the banner", b"%%MatrixMarketX matrix array integer general\n0 0"),
    ("a space before the banner", b" %%MatrixMarket matrix array integer general\n0 0"),
    ("two spaces in the first line", b"%%MatrixMarket  matrix array integer general\n0 0"),
    ("a tab in the first line", b"%%MatrixMarket\tmatrix array integer general\n0 0"),
    ("a space behind the first line", b"%%MatrixMarket matrix array integer general \n0 0"),
    ("a carriage return in the first line", b"%%MatrixMarket matrix array integer general\r\n0 0"),
    ("a fifth word", b"%%MatrixMarket matrix array integer general x\n0 0"),
    ("a word less", b"%%MatrixMarket matrix array integer\n0 0"),
    ("real field", b"%%MatrixMarket matrix array real general\n0 0"),
    ("unsigned field", b"%%MatrixMarket matrix array unsigned-integer general\n0 0"),
    ("symmetric", b"%%MatrixMarket matrix array integer symmetric\n0 0"),
    ("coordinate format", b"%%MatrixMarket matrix coordinate integer general\n0 0 0"),
    ("a vector", b"%%MatrixMarket vector array integer general\n0 0"),
    ("a space before the sizes", b"F 0 0"),
    ("a space behind the sizes", b"F0 0 "),
    ("a tab between the sizes", b"F0\t0"),
    ("a carriage return behind the sizes", b"F0 0\r"),
    ("a tab only before the sizes", b"F\t\n0 0"),
    ("a comment behind a space", b"F %\n0 0"),
    ("a plus before a size", b"F+0 0"),
    ("a minus before a size", b"F-0 0"),
    ("a size below 0", b"F-1 0"),
    ("a low line in a size", b"F0_0 0"),
    ("a size with a fraction", b"F0. 0"),
    ("one size", b"F0"),
    ("three sizes", b"F0 0 0"),
    ("1,025 rows", b"F1025 0"),
    ("2^64 rows", b"F18446744073709551616 0"),
    ("2^64 + 1 columns", b"F0 18446744073709551617"),
    ("a plus before an entry", b"F1 1\n+5"),
    ("a space before an entry", b"F1 1\n 5"),
    ("a space behind an entry", b"F1 1\n5 "),
    ("a tab before an entry", b"F1 1\n\t5"),
    ("a carriage return behind an entry", b"F1 1\n5\r"),
    ("a form feed behind an entry", b"F1 1\n5\x0c"),
    ("a low line in an entry", b"F1 1\n1_0"),
    ("a zero byte behind an entry", b"F1 1\n5\0"),
    ("more than 4,300 digits", b"F1 1\n" + 4301 * b"0"),
    ("a space behind the minus", b"F1 1\n- 5"),
    ("a minus alone", b"F1 1\n-"),
    ("an entry with a fraction", b"F1 1\n5."),
    ("an entry with an exponent", b"F1 1\n5e0"),
    ("2^53", b"F1 1\n9007199254740992"),
    ("2^53 + 1", b"F1 1\n9007199254740993"),
    ("2^63 - 1", b"F1 1\n9223372036854775807"),
    ("2^63", b"F1 1\n9223372036854775808"),
    ("-2^63", b"F1 1\n-9223372036854775808"),
    ("2^64 + 5", b"F1 1\n18446744073709551621"),
    ("two entries on a line", b"F2 1\n5 6"),
    ("a blank line for an entry", b"F1 1\n\n5"),
    ("a comment among the entries", b"F1 1\n%\n5"),
    ("a blank line past the entries", b"F0 0\n\n"),
    ("spaces only past the entries", b"F0 0\n "),
    ("a comment past the entries", b"F0 0\n%"),
    ("an entry too many, of none", b"F0 0\n5"),
    ("an entry too many, of one", b"F1 1\n5\n6"),
    ("a bad line past the entries", b"F1 1\n5\nx"),
    ("an entry missing, of one", b"F1 1"),
    ("an entry missing, of a column", b"F2 1\n5"),
    ("a column missing", b"F1 2\n5"),
    ("an entry for no rows", b"F0 1\n5"),
]


class Endless(Exception):
    """SciPy did not come back."""


def stop(_number, _frame):
    raise Endless


def read_by_scipy(text):
    """What SciPy makes of a text, in words."""
    signal.alarm(3)
    try:
        block = scipy.io.mmread(io.BytesIO(text))
    except Endless:
        return "does not end"
    except Exception as error:  # whatever it is, it is SciPy's refusal
        return f"refuses: {type(error).__name__}"
    finally:
        signal.alarm(0)
    if not isinstance(block, numpy.ndarray):
        return f"reads a sparse {block.shape[0]} by {block.shape[1]}"
    return say_block(block.shape[0], block.shape[1], [say_entry(x) for x in block.flatten(order="F")])


def say_entry(x):
    return str(int(x)) if numpy.isfinite(x) and x == int(x) else str(x)


def say_block(rows, columns, entries):
    return f"reads {rows} by {columns}" + (": " + ", ".join(entries) if entries else "")


def say_ours(answer):
    if len(answer) == 2:
        return f"{answer[0]} at line {answer[1]}"
    return say_block(answer[0], answer[1], [say_entry(x) for x in answer[2]])


def show(text):
    """A text as a cell of the table."""
    shown = text.decode("latin-1").encode("unicode_escape").decode().replace("\\x0c", "\\f")
    return f"`{shown}`" if len(text) < 100 else f"`{shown[:9]}..`, {text.count(b'0'):,} zeros"


def compare(ours, theirs):
    if ours == theirs:
        return "alike"
    refuses = not ours.startswith("reads")
    if theirs == "does not end":
        return "endless"
    if theirs.startswith("reads"):
        return "looser" if refuses else "another block"
    return "both refuse" if refuses else "tighter"


def put_first_line(text):
    """F, where a line begins with it, stands for the first line with its newline."""
    return text.replace(b"F", FIRST, 1) if text.lstrip(b"%\n").startswith(b"F") else text


def probe_reading(program, rows):
    """Writes the rows of mmread."""
    texts = [put_first_line(text) for _, text in PROBES]
    counts = dict.fromkeys(["looser", "tighter", "endless", "another block", "both refuse", "alike"], 0)
    found = []
    for (name, text), answer, theirs in zip(PROBES, ask(program, texts), map(read_by_scipy, texts)):
        ours = say_ours(answer)
        kind = compare(ours, theirs)
        counts[kind] += 1
        found.append((kind, f"| {name} | {show(text)} | {ours} | {theirs} | {kind} |\n"))
    for wanted in ["looser", "tighter", "endless", "another block"]:
        rows.writelines(row for kind, row in found if kind == wanted)
    said = ", ".join(f"{kind}: {count}" for kind, count in counts.items())
    print(f"tests/scipy: {len(found)} texts put to both; SciPy is {said}")


# What mmwrite is given, and how it is called.
WRITTEN = [
    ("`[[5]]`", numpy.array([[5]]), {}),
    ("`[[5]]`, `symmetry='general'`", numpy.array([[5]]), {"symmetry": "general"}),
    ("`[[5, 6]]`", numpy.array([[5, 6]]), {}),
    ("`[[0, 5], [-5, 0]]`", numpy.array([[0, 5], [-5, 0]]), {}),
    ("`[[5.0]]`, `symmetry='general'`", numpy.array([[5.0]]), {"symmetry": "general"}),
    ("`[[5]]` of unsigned bytes, `symmetry='general'`", numpy.array([[5]], dtype=numpy.uint8), {"symmetry": "general"}),
    ("`[[2**53 + 1]]`, `symmetry='general'`", numpy.array([[LARGEST + 1]]), {"symmetry": "general"}),
]


def probe_writing(program, rows):
    """Writes the rows of mmwrite, which chooses another form than ours by itself."""
    texts = []
    for _, block, named in WRITTEN:
        text = io.BytesIO()
        scipy.io.mmwrite(text, block, **named)
        texts.append(text.getvalue())
    for (name, _, _), text, answer in zip(WRITTEN, texts, ask(program, texts)):
        words = text.split(b"\n")[0].split()
        rows.write(f"| {name} | `{b' '.join(words[3:]).decode()}` | {say_ours(answer)} |\n")


def main():
    program = sys.argv[1:]
    signal.signal(signal.SIGALRM, stop)
    differences = judge_blocks(program)
    with open("target/scipy/rows", "w", encoding="utf-8") as rows:
        probe_reading(program, rows)
        probe_writing(program, rows)
    return 1 if differences else 0


if __name__ == "__main__":
    sys.exit(main())
