"""Blocks and their texts, beside SciPy's mmread and mmwrite."""

import io
import unittest

import numpy as np
import scipy.io

import bbfmm
from support import bits

SHAPES = ((1, 1), (2, 3), (3, 2), (7, 1), (1, 7), (40, 25))


def draw_block(shape):
    entries = np.random.default_rng(11).integers(-(2**53), 2**53, shape, endpoint=True)
    return np.asfortranarray(entries, dtype=np.float64)


class Texts(unittest.TestCase):
    def test_scipy_reads_what_is_written(self):
        for shape in SHAPES:
            block = draw_block(shape)
            back = scipy.io.mmread(io.BytesIO(bbfmm.write_block(block)))
            self.assertEqual((back.shape, bits(back)), (shape, bits(block)))

    def test_what_scipy_writes_is_read(self):
        for shape in SHAPES:
            block = draw_block(shape)
            text = io.BytesIO()
            scipy.io.mmwrite(text, block.astype(np.int64), field="integer", symmetry="general")
            back = bbfmm.read_block(text.getvalue())
            self.assertEqual((back.shape, bits(back)), (shape, bits(block)))
            self.assertEqual(bbfmm.block_size(text.getvalue()), shape)

    def test_the_longest_text_has_room(self):
        block = np.full((1024, 1024), -(2.0**53), order="F")
        text = bbfmm.write_block(block)
        self.assertEqual(len(text), 44 + len("1024 1024\n") + 18 * block.size)
        self.assertTrue((bbfmm.read_block(text) == block).all())

    def test_blocks_without_entries(self):
        for shape in ((0, 0), (0, 3), (3, 0)):
            self.assertEqual(bbfmm.read_block(bbfmm.write_block(np.zeros(shape))).shape, shape)
