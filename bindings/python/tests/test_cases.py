"""Answers that were written down for the requests by someone who had not seen the code, replayed through the package.

A case that is refused with 7 is passed over: it lends a buffer of a wrong length, and here the package makes them. So is one that gives
so many entries that no array of rows and columns has them.
"""

import unittest

import numpy as np

import bbfmm
from support import bits, cases


class Cases(unittest.TestCase):
    def replay(self, file, at_least, answer):
        """`answer(case)` makes the call and gives what came out by field, or None to pass a case over."""
        done = 0
        for case in cases(file):
            refusal = case.fields.get(("out", "refusal"), [0])[0]
            if refusal == 7:
                continue
            with self.subTest(case.name):
                try:
                    found = answer(case)
                except bbfmm.Refusal as refused:
                    found = {"refusal": refused.number, "line": getattr(refused, "line", None)}
                if found is not None:
                    self.hold(case, {"refusal": 0, "line": 0, **found})
                    done += 1
        self.assertGreaterEqual(done, at_least)

    def hold(self, case, found):
        for (side, name), expected in case.fields.items():
            if side == "out" and isinstance(found[name], np.ndarray) and found[name].dtype == np.float64:
                self.assertEqual(bits(found[name]), bits(expected), name)
            elif side == "out":
                value = found[name]
                self.assertEqual(value if isinstance(value, list) else [value], expected, name)

    def test_e02_nodes_followed(self):
        def answer(case):
            found = {"refusals": [], "images": [], "origins": []}
            for node in case.numbers("node"):
                try:
                    moves = bbfmm.follow_node(case.number("d"), case.number("p"), case.numbers("vector"), node)
                except bbfmm.Refusal as refused:
                    found["refusals"].append(refused.number)
                    continue
                found["refusals"].append(0)
                found["images"].append(moves.image)
                found["origins"].append(moves.origin)
            return found

        self.replay("e02_node", 194, answer)

    def test_e03_roots(self):
        self.replay("e03_sqrt", 34, lambda case: {"roots": np.array([bbfmm.square_root(x) for x in case.numbers("xs")])})

    def test_e03_distances(self):
        def answer(case):
            if ("out", "block_fnv") in case.fields:
                return None
            sizes = case.number("d"), case.number("p"), case.number("length"), case.number("reference")
            return {"block": bbfmm.sample_distances(*sizes, case.floats("nodes")).block}

        self.replay("e03_sampler", 38, answer)

    def cross(self, case):
        samples = case.matrix("block", case.number("m"), case.number("n"))
        if samples is None:
            return None
        mode = bbfmm.Mode.RESTART if case.number("restart") else bbfmm.Mode.OLD
        report = bbfmm.aca_partial_pivoting(samples, case.number("epsilon"), mode)
        return {
            "rank": report.rank,
            "stop": report.stop,
            "estimate": np.array([report.estimate]),
            "smallest": np.array([report.smallest]),
            "rows": report.row_list.tolist(),
            "columns": report.column_list.tolist(),
            "u": report.u,
            "v": report.v,
        }

    def test_e04_crosses(self):
        self.replay("e04_cross", 601, self.cross)

    def test_e08_smallest_pivots(self):
        self.replay("e08_smallest", 137, self.cross)

    def test_e10_words_of_flags(self):
        self.replay("e10_words", 6, self.cross)

    def test_e05_ratios(self):
        def answer(case):
            d, p, rows = case.number("d"), case.number("p"), case.number("rows")
            points, at_nodes = case.matrix("points", rows, d), case.matrix("polynomials", p, p)
            if points is None or at_nodes is None:
                return None
            gases = bbfmm.Gases(case.floats("co"), case.floats("n2"), case.floats("o2"))
            found = bbfmm.graham_ratios(p, case.number("length"), case.number("floor"), case.floats("centre"), at_nodes, points, gases)
            return {"answers": found.answers.tolist(), "ratios": found.ratios[found.answers == bbfmm.Air.RATIO]}

        self.replay("e05_ratio", 100, answer)

    def test_e06_reading(self):
        def answer(case):
            block = bbfmm.read_block(case.text("text"))
            return {"rows": block.shape[0], "columns": block.shape[1], "block": block}

        self.replay("e06_read", 231, answer)

    def test_e06_writing(self):
        def answer(case):
            block = case.matrix("block", case.number("rows"), case.number("columns"))
            return None if block is None else {"text": [bbfmm.write_block(block)]}

        self.replay("e06_write", 96, answer)

    def test_e07_scaling(self):
        def answer(case):
            points = case.matrix("points", case.number("rows"), case.number("d"))
            if points is None:
                return None
            bbfmm.scale_points(case.number("length"), case.floats("centre"), points)
            return {"scaled": points}

        self.replay("e07_scale", 136, answer)

    def coefficients(self, case):
        p = case.number("p")
        at_nodes = case.matrix("polynomials", p, p)
        coordinates = case.matrix("points", case.number("rows"), case.number("d"))
        if at_nodes is None or coordinates is None:
            return None
        side = case.number("length") if case.number("want") >= 1 else None
        found = bbfmm.get_approximation_coefficients(p, at_nodes, coordinates, side)
        wanted = {"values": found.values, "grads": found.gradients}
        if case.number("want") == 2:
            wanted["curvature"] = bbfmm.get_curvature_coefficients(p, side, at_nodes, coordinates).curvatures
        return {name: np.array([]) if table is None else table for name, table in wanted.items()}

    def test_e07_coefficients(self):
        self.replay("e07_reference", 159, self.coefficients)

    def test_e13_curvature(self):
        self.replay("e13_curvature", 15, self.coefficients)

    def test_e11_node_sets(self):
        self.replay("e11_nodes", 14, lambda case: {"nodes": bbfmm.generate_node_set(case.number("p"), case.number("set"))})

    def test_e13_polynomials(self):
        def answer(case):
            if case.number("want") == 2:
                found = bbfmm.evaluate_second_derivatives(case.number("p"), case.floats("points"))
            else:
                found = bbfmm.evaluate_chebyshev_polynomials(case.number("p"), case.floats("points"), case.number("want") == 1)
            return {name: np.array([]) if table is None else table for name, table in zip(("t", "dt", "ddt"), found)}

        self.replay("e13_polynomials", 20, answer)
