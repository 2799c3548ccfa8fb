"""What the tests share: where things are, good arguments for every call, the stored cases of the requests, and comparison by bits."""

import pathlib

import numpy as np

import bbfmm
from bbfmm import _library

PROJECT = pathlib.Path(__file__).resolve().parents[3]
FIRST_LINE = b"%%MatrixMarket matrix array integer general\n"
TEXT = FIRST_LINE + b"2 3\n1\n-2\n3\n4\n5\n6\n"

# GOOD ARGUMENTS


def draw(*shape):
    """Floats from -1 to 1, the same in every run, column-major."""
    return np.asfortranarray(np.random.default_rng(7).uniform(-1.0, 1.0, shape))


def polynomials(order):
    """T at the nodes, by the rule: column k has T_k."""
    return np.asfortranarray(np.polynomial.chebyshev.chebvander(nodes(order), order - 1))


def nodes(order):
    """The roots of T_p, rising, by the rule."""
    return np.cos((2 * np.arange(order, 0, -1) - 1) * np.pi / (2 * order))


def gases(entries):
    """Air from an old goaf, a little of it different at each node."""
    step = np.arange(entries) / entries
    return bbfmm.Gases(0.006 - 0.001 * step, 86.0 - step, 9.79 + step)


# For each call what it takes, by name, in the order of its arguments. Dimension 2 and order 3, so that no two sizes are alike.
GOOD = {
    "look_up": lambda: {"dimension": 2, "vector": (0, -2, 0)},
    "follow_node": lambda: {"dimension": 2, "order": 3, "vector": (0, -2, 0), "node": 1},
    "reference_vector": lambda: {"dimension": 2, "number": 3},
    "combined_permutation": lambda: {"dimension": 2, "order": 3, "case": 3},
    "inverse_permutation": lambda: {"dimension": 2, "order": 3, "case": 3},
    "generate_chebyshev_nodes": lambda: {"order": 3},
    "generate_node_set": lambda: {"order": 3, "set": 1},
    "evaluate_chebyshev_polynomials": lambda: {"order": 3, "points": draw(5), "with_derivatives": True},
    "evaluate_second_derivatives": lambda: {"order": 3, "points": draw(5)},
    "get_m2m_transfer_operators": lambda: {"order": 3, "nodes": nodes(3), "node_polynomials": polynomials(3)},
    "apply_cheb_tensor_transfer": lambda: {
        "dimension": 2,
        "order": 3,
        "child": 1,
        "transpose": True,
        "input": draw(9),
        "operators": draw(3, 6),
    },
    "generate_chebyshev_target_points": lambda: {"dimension": 2, "order": 3, "side": 4.0, "nodes": nodes(3)},
    "generate_chebyshev_source_points": lambda: {"dimension": 2, "order": 3, "side": 4.0, "reference": 5, "nodes": nodes(3)},
    "square_root": lambda: {"x": 2.25},
    "sample_distances": lambda: {"dimension": 2, "order": 3, "side": 4.0, "reference": 5, "nodes": nodes(3)},
    "scale_points": lambda: {"side": 4.0, "centre": (1.0, 10.0), "points": draw(5, 2) + np.array([1.0, 10.0])},
    "get_approximation_coefficients": lambda: {
        "order": 3,
        "node_polynomials": polynomials(3),
        "coordinates": draw(5, 2),
        "side": 4.0,
    },
    "get_curvature_coefficients": lambda: {
        "order": 3,
        "side": 4.0,
        "node_polynomials": polynomials(3),
        "coordinates": draw(5, 2),
    },
    "graham_ratios": lambda: {
        "order": 3,
        "side": 4.0,
        "floor": 0.1,
        "centre": (1.0, 10.0),
        "node_polynomials": polynomials(3),
        "points": draw(5, 2) + np.array([1.0, 10.0]),
        "gases": gases(9),
    },
    "argmax_masked": lambda: {"entries": draw(5), "mask": np.array([1, 0, 1, 0, 1], dtype=np.uint8)},
    "calculate_singular_values_cutoff": lambda: {"values": draw(5), "epsilon": 0.5},
    "aca_partial_pivoting": lambda: {"samples": draw(5, 4), "epsilon": 1e-6, "mode": bbfmm.Mode.RESTART},
    "block_size": lambda: {"text": TEXT},
    "read_block": lambda: {"text": TEXT},
    "write_block": lambda: {"block": np.arange(-10.0, 10.0).reshape((5, 4), order="F")},
}

# What a call changes in place.
CHANGED = {("scale_points", "points"), ("graham_ratios", "points")}


def parameters(name):
    """What the table says of each parameter of a call, by name."""
    return dict(one.split(": ") for one in _library.CALLS[name].split(", "))


def call(name, given):
    """The call with these arguments, by their order."""
    return getattr(bbfmm, name)(*given.values())


def arrays(given):
    """Every array among the arguments, by name, those of the gases too."""
    found = dict(given)
    if "gases" in found:
        found.update(found.pop("gases")._asdict())
    return {name: value for name, value in found.items() if isinstance(value, np.ndarray)}


def exchanged(given, name, value):
    """The arguments with another value for one of them, or for one of the gases."""
    if name in given:
        return {**given, name: value}
    return {**given, "gases": given["gases"]._replace(**{name: value})}


# BITS


def bits(floats):
    """The bits of floats in column-major order, every NaN with the same ones."""
    flat = np.array(floats, dtype=np.float64).flatten(order="F")
    flat[np.isnan(flat)] = np.nan
    return flat.view(np.uint64).tolist()


# STORED CASES


def _value(kind, word):
    if kind == "x":
        return bytes.fromhex(word)
    if kind == "f":
        return np.nan if word == "nan" else np.array([int(word, 16)], dtype=np.uint64).view(np.float64)[0]
    return int(word)


class Case:
    """A case that was written down for a request by someone who had not seen the code: what goes into a call, and what must come out."""

    def __init__(self, name):
        self.name = name
        self.fields = {}

    def add(self, line):
        side, name, kind, _, *words = line.split()
        self.fields[side, name] = [_value(kind, word) for word in words]

    def numbers(self, name, side="in"):
        return self.fields[side, name]

    def number(self, name, side="in"):
        return self.fields[side, name][0]

    def floats(self, name):
        return np.array(self.fields["in", name], dtype=np.float64)

    def matrix(self, name, rows, columns):
        """A field as a matrix; None where it has not so many entries, which an array cannot be."""
        floats = self.floats(name)
        return floats.reshape((rows, columns), order="F") if floats.size == rows * columns else None

    def text(self, name, side="in"):
        return b"".join(self.fields[side, name])


def cases(name):
    """The stored cases of a file, one after another."""
    path = PROJECT / "tests" / "requests" / "cases" / f"{name}.txt"
    case = None
    for line in path.read_text(encoding="ascii").splitlines():
        if line.startswith("case "):
            case = Case(f"{name} {line}")
        elif line == "end":
            yield case
        elif line and not line.startswith("#"):
            case.add(line)
