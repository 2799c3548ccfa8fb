"""Every refusal of every call, by its number; after one, every array that was given is as it came."""

import pickle
import unittest

import numpy as np

import bbfmm
from support import CHANGED, FIRST_LINE, GOOD, arrays, call, draw, gases, polynomials
from test_header import refusals_of_docstring

MANY = 4097
HUGE = 10**15
NAN_POINT = np.asfortranarray([[1.0, 10.0], [1.0, np.nan]])
FAR_POINT = np.asfortranarray([[1.0, 10.0], [1.0, 12.1]])
FOUR_AXES = np.full((5, 4), 1.0, order="F")

# For each call and number the arguments that are wrong, each set of them a fault of its own.
TURNS = {1: [{"dimension": 0}, {"dimension": 4}, {"dimension": HUGE}]}
ORDERS = {2: [{"order": 0}, {"order": 17}, {"order": HUGE}]}
SIDES = {8: [{"side": 0.0}, {"side": np.nan}, {"side": 2.0**30 * 1.001}]}
NODES = {7: [{"nodes": draw(2)}, {"nodes": draw(4)}, {"nodes": np.array([])}]}
AT_NODES = [{"node_polynomials": draw(*shape)} for shape in ((2, 2), (9, 1), (1, 9), (3, 4), (0, 0))]
FAULTS = {
    "look_up": {**TURNS, 4: [{"vector": (0, 4, 0)}, {"vector": (-4, 0, 0)}], 6: [{"vector": (0, -2, 1)}]},
    "follow_node": {
        **TURNS,
        **ORDERS,
        4: [{"vector": (4, 0, 0)}],
        5: [{"node": 9}, {"node": 2**64 - 1}],
        6: [{"vector": (0, -2, 1)}],
    },
    "reference_vector": {**TURNS, 5: [{"number": 7}]},
    "combined_permutation": {**TURNS, **ORDERS, 5: [{"case": 8}]},
    "inverse_permutation": {**TURNS, **ORDERS, 5: [{"case": 8}]},
    "generate_chebyshev_nodes": ORDERS,
    "generate_node_set": {**ORDERS, 17: [{"set": 2}]},
    "evaluate_chebyshev_polynomials": {**ORDERS, 3: [{"points": draw(MANY)}]},
    "evaluate_second_derivatives": {**ORDERS, 3: [{"points": draw(MANY)}]},
    "get_m2m_transfer_operators": {**ORDERS, 7: NODES[7] + AT_NODES},
    "apply_cheb_tensor_transfer": {
        **TURNS,
        **ORDERS,
        5: [{"child": 4}],
        7: [{"input": draw(8)}, {"input": draw(10)}, {"operators": draw(6, 3)}, {"operators": draw(3, 5)}],
    },
    "generate_chebyshev_target_points": {**TURNS, **ORDERS, **NODES, **SIDES},
    "generate_chebyshev_source_points": {**TURNS, **ORDERS, 5: [{"reference": 7}], **NODES, **SIDES},
    "sample_distances": {
        **TURNS,
        **ORDERS,
        3: [{"dimension": 3, "order": 11, "nodes": draw(11)}],
        5: [{"reference": 7}],
        **NODES,
        **SIDES,
    },
    "scale_points": {
        1: [{"points": FOUR_AXES}, {"points": draw(5, 0)}],
        3: [{"points": np.ones((MANY, 2), order="F")}],
        7: [{"centre": (1.0,)}, {"centre": (1.0, 10.0, 0.0)}],
        **SIDES,
        9: [{"points": NAN_POINT}, {"centre": (1.0, np.inf)}],
        11: [{"points": FAR_POINT}],
    },
    "get_approximation_coefficients": {
        1: [{"coordinates": FOUR_AXES}, {"coordinates": draw(5, 0)}],
        **ORDERS,
        3: [{"coordinates": draw(MANY, 2)}],
        7: AT_NODES,
        **SIDES,
        9: [{"coordinates": NAN_POINT}, {"coordinates": NAN_POINT, "side": None}],
    },
    "get_curvature_coefficients": {
        1: [{"coordinates": FOUR_AXES}, {"coordinates": draw(5, 0)}],
        **ORDERS,
        3: [{"coordinates": draw(MANY, 2)}],
        7: AT_NODES,
        **SIDES,
        9: [{"coordinates": NAN_POINT}],
    },
    "graham_ratios": {
        1: [{"points": FOUR_AXES}, {"points": draw(5, 0)}],
        **ORDERS,
        3: [{"points": np.ones((MANY, 2), order="F")}],
        7: AT_NODES + [{"gases": gases(9)._replace(**{gas: draw(8)})} for gas in bbfmm.Gases._fields] + [{"centre": (1.0,)}],
        **SIDES,
        9: [{"points": NAN_POINT}],
        11: [{"points": FAR_POINT}],
        12: [{"floor": 0.0}, {"floor": -1.0}, {"floor": np.inf}, {"floor": np.nan}, {"floor": 0, "points": draw(0, 2)}],
    },
    "argmax_masked": {
        3: [{"entries": draw(1025), "mask": np.zeros(1025, dtype=np.uint8)}],
        7: [{"mask": np.zeros(4, dtype=np.uint8)}],
        10: [{"mask": np.array([1, 0, 2, 0, 1], dtype=np.uint8)}],
    },
    "calculate_singular_values_cutoff": {3: [{"values": np.array([])}, {"values": draw(1025)}]},
    "aca_partial_pivoting": {
        3: [{"samples": draw(1025, 1)}, {"samples": draw(1, 1025)}, {"samples": draw(1025, 1), "mode": bbfmm.Mode.OLD}]
    },
    "block_size": {13: [{"text": b""}], 14: [{"text": FIRST_LINE}, {"text": FIRST_LINE + b"2 1025\n"}]},
    "read_block": {
        13: [{"text": b"\n"}],
        14: [{"text": FIRST_LINE + b"2\n"}],
        15: [{"text": FIRST_LINE + b"1 1\n1.5\n"}],
        16: [{"text": FIRST_LINE + b"1 1\n"}, {"text": FIRST_LINE + b"1 1\n1\n2\n"}],
    },
    "write_block": {
        14: [{"block": np.zeros((1025, 1))}, {"block": np.zeros((0, 1025))}],
        15: [{"block": np.array([[0.5]])}, {"block": np.array([[-0.0]])}, {"block": np.array([[np.nan]])}],
    },
}


def each_fault():
    for name, numbers in FAULTS.items():
        for number, faults in numbers.items():
            for fault in faults:
                yield name, number, {**GOOD[name](), **fault}


class Refusals(unittest.TestCase):
    def test_every_refusal_is_told_and_nothing_is_changed(self):
        for name, number, given in each_fault():
            with self.subTest(name, number=number):
                before = {one: array.tobytes("A") for one, array in arrays(given).items()}
                with self.assertRaises(bbfmm.Refusal) as caught:
                    call(name, given)
                self.assertEqual(caught.exception.number, number)
                self.assertEqual(before, {one: array.tobytes("A") for one, array in arrays(given).items()})

    def test_every_refusal_of_a_docstring_is_tried(self):
        for name in GOOD:
            self.assertEqual(set(FAULTS.get(name, {})), refusals_of_docstring(name), name)

    def test_what_is_good_is_not_refused(self):
        """And what is not said to be changed is not."""
        for name, good in GOOD.items():
            given = good()
            before = {one: array.tobytes("A") for one, array in arrays(given).items()}
            call(name, given)
            after = {one: array.tobytes("A") for one, array in arrays(given).items()}
            changed = {(name, one) for one in before if before[one] != after[one]}
            self.assertEqual(changed, {one for one in CHANGED if one[0] == name}, name)

    def test_the_lowest_number_wins(self):
        given = {**GOOD["sample_distances"](), "dimension": 4, "order": 17, "side": 0.0}
        with self.assertRaisesRegex(bbfmm.Refusal, "refused with 1: the dimension is not 1, 2 or 3"):
            call("sample_distances", given)
        with self.assertRaisesRegex(bbfmm.Refusal, "refused with 3: "):
            bbfmm.get_approximation_coefficients(3, draw(9, 1), draw(MANY, 2), 0.0)
        with self.assertRaisesRegex(bbfmm.Refusal, "refused with 7: "):
            bbfmm.get_approximation_coefficients(3, draw(9, 1), draw(5, 2), 0.0)

    def test_a_side_that_no_cell_has_is_no_wish_for_values_alone(self):
        with self.assertRaisesRegex(bbfmm.Refusal, "refused with 8: "):
            bbfmm.get_approximation_coefficients(3, polynomials(3), draw(5, 2), 0)


class Lines(unittest.TestCase):
    def refused(self, name, argument):
        with self.assertRaises(bbfmm.TextRefusal) as caught:
            getattr(bbfmm, name)(argument)
        return caught.exception.number, caught.exception.line

    def test_the_line_is_told(self):
        self.assertEqual(self.refused("block_size", b"x"), (13, 1))
        self.assertEqual(self.refused("block_size", FIRST_LINE + b"%\n\nx\n"), (14, 4))
        self.assertEqual(self.refused("read_block", FIRST_LINE + b"2 2\n1\n2\n3\n-\n"), (15, 6))
        self.assertEqual(self.refused("read_block", FIRST_LINE + b"2 2\n1\n2\n3\n"), (16, 6))
        self.assertEqual(self.refused("write_block", np.zeros((1, 1025))), (14, 2))
        self.assertEqual(self.refused("write_block", np.array([[1.0, 2.0], [3.0, 0.5]], order="F")), (15, 6))

    def test_a_line_past_what_two_bytes_hold(self):
        text = FIRST_LINE + b"1 1\n" + b"%\n" * 70000
        self.assertEqual(self.refused("read_block", text), (15, 3))
        self.assertEqual(self.refused("block_size", FIRST_LINE + b"%\n" * 70000), (14, 70002))

    def test_refusals_can_be_sent_and_caught_as_value_errors(self):
        for refusal in (bbfmm.Refusal(4), bbfmm.TextRefusal(14, 2), bbfmm.TextRefusal(7, None)):
            back = pickle.loads(pickle.dumps(refusal))
            self.assertIsInstance(back, ValueError)
            self.assertEqual((type(back), str(back), vars(back)), (type(refusal), str(refusal), vars(refusal)))
        self.assertEqual(str(bbfmm.TextRefusal(7, None)), str(bbfmm.Refusal(7)))
