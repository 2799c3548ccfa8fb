"""What the calls answer, held to their rules, written anew with NumPy."""

import itertools
import math
import random
import struct
import unittest

import numpy as np
from numpy.polynomial import chebyshev

import bbfmm
from support import bits, draw, gases, nodes, polynomials

LAST_BIT = 2.0**-52


def digits(node, dimension, order):
    """The index of a node on each axis, the last axis varying fastest."""
    return [node // order ** (dimension - 1 - axis) % order for axis in range(dimension)]


def node_with(indices, order):
    number = 0
    for index in indices:
        number = number * order + index
    return number


def turned_table(vector, order):
    """Axis m of the reference goes to the axis of the vector with the m-th size, and is reversed where the vector is negative."""
    dimension = len(vector)
    axes = sorted(range(dimension), key=lambda axis: -abs(vector[axis]))
    table = []
    for node in range(order**dimension):
        indices = [0] * dimension
        for index, axis in zip(digits(node, dimension, order), axes):
            indices[axis] = order - 1 - index if vector[axis] < 0 else index
        table.append(node_with(indices, order))
    return table


def falling_sizes(vector):
    return tuple(sorted((abs(entry) for entry in vector), reverse=True))


def all_vectors(dimension):
    return itertools.product(range(-3, 4), repeat=dimension)


def padded(vector):
    return tuple(vector) + (0,) * (3 - len(vector))


class Turn(unittest.TestCase):
    def references(self, dimension):
        """Falling sizes up to 3 that are not near, in rising order."""
        return sorted({falling_sizes(vector) for vector in all_vectors(dimension) if max(map(abs, vector)) > 1})

    def test_references_are_the_falling_vectors(self):
        for dimension, count in ((1, 2), (2, 7), (3, 16)):
            found = [bbfmm.reference_vector(dimension, number) for number in range(count)]
            self.assertEqual(found, [padded(reference) for reference in self.references(dimension)])

    def test_every_vector_is_looked_up(self):
        for dimension in (1, 2, 3):
            references = self.references(dimension)
            for index, vector in enumerate(all_vectors(dimension)):
                entry = bbfmm.look_up(dimension, padded(vector))
                near = max(map(abs, vector)) <= 1
                reference = 0 if near else references.index(falling_sizes(vector))
                self.assertEqual((entry.index, entry.reference, entry.near), (index, reference, near), vector)

    def test_tables_are_the_turn(self):
        for dimension, order in ((1, 1), (1, 5), (2, 1), (2, 4), (3, 2), (3, 3)):
            for vector in all_vectors(dimension):
                case = bbfmm.look_up(dimension, padded(vector)).case
                table = turned_table(vector, order)
                self.assertEqual(bbfmm.combined_permutation(dimension, order, case).tolist(), table, vector)
                self.assertEqual(bbfmm.inverse_permutation(dimension, order, case).tolist(), np.argsort(table).tolist(), vector)

    def test_a_node_goes_where_the_tables_say(self):
        for vector in all_vectors(3):
            table = turned_table(vector, 2)
            for node in (0, 3, 6):
                self.assertEqual(bbfmm.follow_node(3, 2, vector, node), (table[node], table.index(node)), vector)

    def test_a_vector_may_be_any_sequence(self):
        for vector in ([0, -2, 1], np.array([0, -2, 1]), np.array([0, -2, 1], dtype=np.int8)):
            self.assertEqual(bbfmm.look_up(3, vector), (158, 33, 1, False))


class Polynomials(unittest.TestCase):
    def test_nodes_are_cosines(self):
        for order in range(1, 17):
            found = bbfmm.generate_chebyshev_nodes(order)
            np.testing.assert_allclose(found, nodes(order), rtol=0, atol=LAST_BIT)
            self.assertEqual(bits(bbfmm.generate_node_set(order, 0)), bits(found))

    def test_mirror_exact_nodes_mirror(self):
        for order in range(1, 17):
            found = bbfmm.generate_node_set(order, 1)
            half = order // 2
            self.assertEqual(bits(found[order - half :]), bits(bbfmm.generate_chebyshev_nodes(order)[order - half :]))
            self.assertEqual(bits(found[:half]), bits(-found[order - half :][::-1]))
            self.assertEqual(bits(found[half : order - half]), bits([0.0] * (order % 2)))

    def test_polynomials_and_derivatives(self):
        points = draw(11)
        for order in range(1, 17):
            tn, dtn, ddtn = bbfmm.evaluate_second_derivatives(order, points)
            one, two, none = bbfmm.evaluate_chebyshev_polynomials(order, points, True)
            self.assertEqual((bits(one), bits(two), none), (bits(tn), bits(dtn), None))
            self.assertEqual(bits(bbfmm.evaluate_chebyshev_polynomials(order, points).tn), bits(tn))
            for column, unit in enumerate(np.eye(order)):
                for table, times in ((tn, 0), (dtn, 1), (ddtn, 2)):
                    expected = chebyshev.chebval(points, chebyshev.chebder(unit, times))
                    np.testing.assert_allclose(table[:, column], expected, rtol=1e-11, atol=1e-11 * order**4)

    def test_no_points(self):
        tn, dtn, ddtn = bbfmm.evaluate_second_derivatives(3, np.array([]))
        self.assertEqual([table.shape for table in (tn, dtn, ddtn)], [(0, 3)] * 3)


def share(order, places, times=0):
    """What each node on an axis counts for at places, or a derivative of it: a row a place."""
    at_nodes = polynomials(order)
    table = np.array([chebyshev.chebval(places, chebyshev.chebder(unit, times)) for unit in np.eye(order)]).reshape(order, -1)
    weights = np.array([1.0] + [2.0] * (order - 1)) / order
    return (at_nodes * weights @ table).T


class Transfer(unittest.TestCase):
    def test_operators_are_what_the_parents_nodes_count_for(self):
        for order in range(1, 9):
            found = bbfmm.get_m2m_transfer_operators(order, nodes(order), polynomials(order))
            self.assertEqual(found.shape, (order, 2 * order))
            children = np.concatenate([(nodes(order) - 1) / 2, (nodes(order) + 1) / 2])
            np.testing.assert_allclose(found, share(order, children).T, rtol=0, atol=1e-13)

    def test_the_transfer_takes_an_operator_an_axis(self):
        for dimension, order in ((1, 4), (2, 3), (3, 2)):
            operators = draw(order, 2 * order)
            values = draw(order**dimension)
            for child in range(2**dimension):
                product = np.ones((1, 1))
                for axis in range(dimension):
                    upper = child >> axis & 1
                    product = np.kron(product, operators[:, upper * order : (upper + 1) * order])
                found = bbfmm.apply_cheb_tensor_transfer(dimension, order, child, False, values, operators)
                np.testing.assert_allclose(found, product @ values, rtol=0, atol=1e-14)
                found = bbfmm.apply_cheb_tensor_transfer(dimension, order, child, True, values, operators)
                np.testing.assert_allclose(found, product.T @ values, rtol=0, atol=1e-14)


def block_places(dimension, axis_places):
    """The places of the nodes of a block, which has these on each axis."""
    return np.array(list(itertools.product(*axis_places)), dtype=np.float64).reshape(-1, dimension)


class PointsAndDistances(unittest.TestCase):
    SIZES = ((1, 5, 1), (2, 3, 6), (3, 2, 11))
    SIDE = 0.3

    def places(self, dimension, order, reference):
        vector = bbfmm.reference_vector(dimension, reference)[:dimension]
        targets = block_places(dimension, [nodes(order) * (0.5 * self.SIDE)] * dimension)
        sources = block_places(dimension, [(entry + nodes(order) * 0.5) * self.SIDE for entry in vector])
        return sources, targets

    def test_points(self):
        for dimension, order, reference in self.SIZES:
            sources, targets = self.places(dimension, order, reference)
            found = bbfmm.generate_chebyshev_target_points(dimension, order, self.SIDE, nodes(order))
            self.assertEqual((found.shape, bits(found)), (targets.shape, bits(targets)))
            found = bbfmm.generate_chebyshev_source_points(dimension, order, self.SIDE, reference, nodes(order))
            self.assertEqual((found.shape, bits(found)), (sources.shape, bits(sources)))

    def test_distances(self):
        for dimension, order, reference in self.SIZES:
            sources, targets = self.places(dimension, order, reference)
            squares = sum((sources[:, [axis]] - targets[:, axis]) ** 2 for axis in range(dimension))
            found = bbfmm.sample_distances(dimension, order, self.SIDE, reference, nodes(order))
            self.assertEqual(bits(found.sources), bits(sources))
            self.assertEqual(bits(found.targets), bits(targets))
            self.assertEqual((found.block.shape, bits(found.block)), (squares.shape, bits(np.sqrt(squares))))

    def test_roots_are_the_processors(self):
        dice = random.Random(3)
        for _ in range(5000):
            x = struct.unpack("<d", dice.getrandbits(64).to_bytes(8, "little"))[0]
            expected = math.sqrt(x) if x >= 0 else math.nan
            self.assertEqual(bits([bbfmm.square_root(x)]), bits([expected]), x.hex())


def products(dimension, order, coordinates, times):
    """A column a node: the product over the axes of what its index counts for, or of its derivatives, so many times an axis."""
    shares = [share(order, coordinates[:, axis], times[axis]) for axis in range(dimension)]
    columns = []
    for node in range(order**dimension):
        indices = digits(node, dimension, order)
        columns.append(math.prod(shares[axis][:, index] for axis, index in enumerate(indices)))
    return np.stack(columns, axis=1)


class Coefficients(unittest.TestCase):
    SIZES = ((1, 4), (2, 3), (3, 2))
    SIDE = 0.7

    def test_scaling(self):
        for dimension, _ in self.SIZES:
            centre = [0.3, 5.0, -2.0][:dimension]
            points = np.asfortranarray(draw(6, dimension) * 0.35 + centre)
            expected = (points - centre) / (self.SIDE * 0.5)
            self.assertIsNone(bbfmm.scale_points(self.SIDE, centre, points))
            self.assertEqual(bits(points), bits(expected))

    def test_values_and_gradients(self):
        for dimension, order in self.SIZES:
            coordinates = draw(6, dimension)
            found = bbfmm.get_approximation_coefficients(order, polynomials(order), coordinates, self.SIDE)
            alone = bbfmm.get_approximation_coefficients(order, polynomials(order), coordinates)
            self.assertEqual((bits(alone.values), bits(alone.factors)), (bits(found.values), bits(found.factors)))
            self.assertEqual((alone.gradients, alone.slopes), (None, None))
            values = products(dimension, order, coordinates, [0] * dimension)
            slopes = [products(dimension, order, coordinates, unit) * 2 / self.SIDE for unit in np.eye(dimension, dtype=int)]
            np.testing.assert_allclose(found.values, values, rtol=0, atol=1e-13)
            np.testing.assert_allclose(found.gradients, np.hstack(slopes), rtol=0, atol=1e-11)
            self.check_shares(order, coordinates, found.factors, 0)
            self.check_shares(order, coordinates, found.slopes, 1)

    def check_shares(self, order, coordinates, found, times):
        """Room to work in ends with the shares of each axis, or with their derivatives along the axes of the cell."""
        expected = np.hstack([share(order, column, times) for column in coordinates.T]) * (2 / self.SIDE) ** times
        np.testing.assert_allclose(found, expected, rtol=0, atol=1e-10)

    def test_curvature(self):
        for dimension, order in self.SIZES:
            coordinates = draw(6, dimension)
            found = bbfmm.get_curvature_coefficients(order, self.SIDE, polynomials(order), coordinates)
            units = np.eye(dimension, dtype=int)
            pairs = itertools.combinations_with_replacement(range(dimension), 2)
            bends = [products(dimension, order, coordinates, units[g] + units[h]) * (2 / self.SIDE) ** 2 for g, h in pairs]
            np.testing.assert_allclose(found.curvatures, np.hstack(bends), rtol=0, atol=1e-10)
            for times, table in enumerate((found.factors, found.slopes, found.bends)):
                self.check_shares(order, coordinates, table, times)
            last = bbfmm.evaluate_second_derivatives(order, np.ascontiguousarray(coordinates[:, -1]))
            self.assertEqual(bits(found.room), bits(np.hstack(last)))


class Ratios(unittest.TestCase):
    def test_ratios(self):
        air = gases(9)
        air.oxygen[4] = 40.0
        points = draw(50, 2)
        coordinates = points.copy(order="F")
        found = bbfmm.graham_ratios(3, 2.0, 5.0, (0, 0), polynomials(3), points, air)
        self.assertEqual(bits(points), bits(coordinates))
        values = products(2, 3, coordinates, [0, 0])
        monoxide, nitrogen, oxygen = (values @ gas for gas in air)
        deficiency = 0.265 * nitrogen - oxygen
        is_fresh = deficiency < 5.0
        self.assertEqual(found.answers.tolist(), np.where(is_fresh, bbfmm.Air.FRESH, bbfmm.Air.RATIO).tolist())
        self.assertTrue(0 < is_fresh.sum() < 50)
        expected = np.where(is_fresh, np.nan, 100 * monoxide / deficiency)
        np.testing.assert_allclose(found.ratios, expected, rtol=1e-10)
        np.testing.assert_allclose(found.values, values, rtol=0, atol=1e-13)
        self.assertEqual(bits(found.factors), bits(bbfmm.get_approximation_coefficients(3, polynomials(3), points).factors))

    def test_a_field_that_is_no_number_is_unusable(self):
        air = gases(9)
        air.nitrogen[0] = np.inf
        found = bbfmm.graham_ratios(3, 2.0, 5.0, (0, 0), polynomials(3), draw(3, 2), air)
        self.assertEqual(found.answers.tolist(), [bbfmm.Air.UNUSABLE] * 3)
        self.assertTrue(np.isnan(found.ratios).all())


class Choices(unittest.TestCase):
    def test_argmax(self):
        dice = np.random.default_rng(5)
        for size in range(1, 40):
            entries = dice.integers(-5, 6, size).astype(np.float64)
            mask = dice.integers(0, 2, size).astype(np.uint8)
            sizes = np.abs(entries) * mask
            self.assertEqual(bbfmm.argmax_masked(entries, mask), int(sizes.argmax()))

    def test_cutoff(self):
        values = np.array([8.0, 4.0, 2.0, 1.0])
        tails = [sum(value * value for value in values[place:]) for place in range(4)]
        for epsilon in (0.0, 0.1, 0.2, 0.3, 0.5, 0.9, 1.1):
            expected = next((place for place in range(4) if tails[place] < tails[0] * epsilon * epsilon), 4)
            self.assertEqual(bbfmm.calculate_singular_values_cutoff(values, epsilon), expected, epsilon)


class Crosses(unittest.TestCase):
    def check_report(self, samples, report):
        """What the fields say of each other, whatever the block."""
        m, n = samples.shape
        self.assertEqual((report.u.shape, report.v.shape), ((m, report.rank), (n, report.rank)))
        self.assertTrue(report.u.flags.f_contiguous and report.v.flags.f_contiguous)
        self.assertEqual((len(report.row_list), len(report.column_list)), (report.rows_read, report.rank))

    def test_a_block_of_low_rank_is_found(self):
        samples = np.asfortranarray(draw(30, 3) @ draw(3, 20))
        for mode in bbfmm.Mode:
            report = bbfmm.aca_partial_pivoting(samples, 1e-12, mode)
            self.check_report(samples, report)
            np.testing.assert_allclose(report.u @ report.v.T, samples, rtol=0, atol=1e-13)
            estimate = np.linalg.norm(report.u @ report.v.T) ** 2
            self.assertAlmostEqual(report.estimate, estimate, delta=1e-10 * estimate)

    def test_a_whole_block_is_its_own_cross(self):
        for shape in ((4, 7), (7, 4), (5, 5)):
            samples = draw(*shape)
            report = bbfmm.aca_partial_pivoting(samples, 0.0, bbfmm.Mode.RESTART)
            self.check_report(samples, report)
            self.assertEqual((report.rank, report.stop), (min(shape), bbfmm.Stop.USED_UP))
            self.assertEqual(len(set(report.row_list.tolist())), report.rows_read)
            np.testing.assert_allclose(report.u @ report.v.T, samples, rtol=0, atol=1e-12)

    def test_modes_differ_where_a_row_has_nothing(self):
        samples = np.asfortranarray(np.diag([2.0, 0.0, 4.0]))
        old = bbfmm.aca_partial_pivoting(samples, 0.0, bbfmm.Mode.OLD)
        self.check_report(samples, old)
        self.assertEqual((old.rank, old.stop), (1, bbfmm.Stop.SPENT))
        new = bbfmm.aca_partial_pivoting(samples, 0.0, bbfmm.Mode.RESTART)
        self.check_report(samples, new)
        self.assertEqual((new.rank, new.stop, new.smallest), (2, bbfmm.Stop.ALL_TRIED, 2.0))
        self.assertEqual((new.row_list.tolist(), new.column_list.tolist()), ([0, 1, 2], [0, 2]))
        self.assertEqual((new.u @ new.v.T).tolist(), samples.tolist())
