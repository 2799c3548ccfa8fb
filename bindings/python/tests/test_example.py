"""The example, run on stored Matrix Market files; it must say what ./blocks says of the same file, as stored in tests/blocks."""

import contextlib
import io
import re
import runpy
import unittest
from unittest import mock

from support import PROJECT

EXAMPLE = PROJECT / "bindings" / "python" / "examples" / "blocks.py"
ANSWERS = (PROJECT / "tests" / "blocks" / "answers").read_text(encoding="ascii")
GAP = "largest gap between the block and its factors: "


def stored(run):
    """The lines that ./blocks says in a run, and its largest gap."""
    *lines, gap = re.search(rf"^== {re.escape(run)}\n(.*?)status 0\n", ANSWERS, re.MULTILINE | re.DOTALL).group(1).splitlines()
    return lines, float(gap.removeprefix(GAP))


def said(run):
    """The same of the example."""
    file, *tolerance = run.split()
    path = PROJECT / "crates" / "exchange_files" / "data" / f"{file}.mtx"
    out = io.StringIO()
    with mock.patch("sys.argv", [str(EXAMPLE), str(path), *tolerance]), contextlib.redirect_stdout(out):
        runpy.run_path(str(EXAMPLE), run_name="__main__")
    *lines, gap = out.getvalue().splitlines()
    return lines, float(gap.removeprefix(GAP))


class Example(unittest.TestCase):
    def test_it_says_what_blocks_says(self):
        # Not rank-one: it has a comment behind a blank line, which SciPy does not read.
        for run in ("smooth", "smooth 1e-2", "smooth 0", "smooth 1", "unit", "zeros", "largest-entries"):
            with self.subTest(run):
                lines, gap = said(run)
                expected, expected_gap = stored(run)
                self.assertEqual(lines, expected)
                # Its sums are NumPy's, which adds in an order of its own.
                self.assertAlmostEqual(gap, expected_gap, delta=1e-5 * max(1.0, expected_gap))
