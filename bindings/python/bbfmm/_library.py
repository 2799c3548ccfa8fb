"""The shared object libbbfmm.so: where it is, what its calls take, and how one is made. Nothing else in the package touches ctypes."""

import ctypes
import os
import pathlib
import platform
import sys

import numpy as np

from bbfmm import _given
from bbfmm.refusal import Refusal, TextRefusal

# What each call takes, in the order of include/bbfmm.h. A list or a matrix is a slice, in C a pointer and a length. One that is `made`
# is new, for what the call answers; one that is `changed` is the caller's own, and ends otherwise than it came.
CALLS = {
    "look_up": "dimension: usize, x: i32, y: i32, z: i32, answer: made usize list",
    "follow_node": "dimension: usize, order: usize, x: i32, y: i32, z: i32, node: usize, answer: made usize list",
    "reference_vector": "dimension: usize, number: usize, vector: made i32 list",
    "combined_permutation": "dimension: usize, order: usize, case: usize, table: made u16 list",
    "inverse_permutation": "dimension: usize, order: usize, case: usize, table: made u16 list",
    "generate_chebyshev_nodes": "order: usize, nodes: made f64 list",
    "generate_node_set": "order: usize, set: usize, nodes: made f64 list",
    "evaluate_chebyshev_polynomials": "order: usize, rows: usize, points: f64 list, with_derivatives: bool, tn: made f64 matrix, "
    "dtn: made f64 matrix",
    "evaluate_second_derivatives": "order: usize, rows: usize, points: f64 list, tn: made f64 matrix, dtn: made f64 matrix, "
    "ddtn: made f64 matrix",
    "get_m2m_transfer_operators": "order: usize, nodes: f64 list, node_polynomials: f64 matrix, operators: made f64 matrix",
    "apply_cheb_tensor_transfer": "dimension: usize, order: usize, child: usize, transpose: bool, input: f64 list, "
    "operators: f64 matrix, first: made f64 list, second: made f64 list",
    "generate_chebyshev_target_points": "dimension: usize, order: usize, side: f64, nodes: f64 list, points: made f64 matrix",
    "generate_chebyshev_source_points": "dimension: usize, order: usize, side: f64, reference: usize, nodes: f64 list, "
    "points: made f64 matrix",
    "square_root": "x: f64",
    "sample_distances": "dimension: usize, order: usize, side: f64, reference: usize, nodes: f64 list, sources: made f64 matrix, "
    "targets: made f64 matrix, block: made f64 matrix",
    "scale_points": "dimension: usize, rows: usize, side: f64, centre: f64 list, points: changed f64 matrix",
    "get_approximation_coefficients": "dimension: usize, order: usize, rows: usize, with_gradients: bool, side: f64, "
    "node_polynomials: f64 matrix, coordinates: f64 matrix, values: made f64 matrix, gradients: made f64 matrix, "
    "factors: made f64 matrix, slopes: made f64 matrix",
    "get_curvature_coefficients": "dimension: usize, order: usize, rows: usize, side: f64, node_polynomials: f64 matrix, "
    "coordinates: f64 matrix, curvatures: made f64 matrix, factors: made f64 matrix, slopes: made f64 matrix, "
    "bends: made f64 matrix, room: made f64 matrix",
    "graham_ratios": "dimension: usize, order: usize, side: f64, rows: usize, floor: f64, centre: f64 list, "
    "node_polynomials: f64 matrix, points: changed f64 matrix, carbon_monoxide: f64 list, nitrogen: f64 list, oxygen: f64 list, "
    "values: made f64 matrix, factors: made f64 matrix, answers: made u8 list, ratios: made f64 list",
    "argmax_masked": "entries: f64 list, mask: u8 list, place: made usize list",
    "calculate_singular_values_cutoff": "values: f64 list, epsilon: f64, place: made usize list",
    "aca_partial_pivoting": "rows: usize, columns: usize, samples: f64 matrix, epsilon: f64, restart: bool, u: made f64 matrix, "
    "v: made f64 matrix, row_list: made u16 list, column_list: made u16 list, row: made f64 list, column: made f64 list, "
    "counts: made usize list, numbers: made f64 list",
    "block_size": "text: u8 list, sizes: made usize list",
    "read_block": "text: u8 list, block: made f64 matrix, sizes: made usize list",
    "write_block": "rows: usize, columns: usize, block: f64 matrix, text: made u8 list, written: made usize list",
}

# A call answers the number of a refusal; these answer a float, and a number with a line.
_ANSWERS = {
    "square_root": ctypes.c_double,
    "block_size": ctypes.c_uint64,
    "read_block": ctypes.c_uint64,
    "write_block": ctypes.c_uint64,
}

_NUMBERS = {
    "usize": (ctypes.c_size_t, _given.count),
    "i32": (ctypes.c_int32, _given.signed),
    "f64": (ctypes.c_double, _given.real),
    "bool": (ctypes.c_bool, _given.flag),
}
_ENTRIES = {"usize": np.uintp, "i32": np.int32, "f64": np.float64, "u8": np.uint8, "u16": np.uint16}
_DIMENSIONS = {"list": 1, "matrix": 2}

# PARAMETERS


class _Number:
    """A parameter that is one number."""

    is_changed = False

    def __init__(self, name, kind):
        c_type, self._taken = _NUMBERS[kind]
        self.name = name
        self.c_types = [c_type]

    def lend(self, value):
        """What C is given for it."""
        return [self._taken(self.name, value)]


class _Slice:
    """A parameter that is an array: in C a pointer and a length."""

    c_types = [ctypes.c_void_p, ctypes.c_size_t]

    def __init__(self, name, entries, dimensions, end):
        self.name = name
        self.is_changed = end == "changed"
        self._wanted = _given.Wanted(_ENTRIES[entries], _DIMENSIONS[dimensions], end != "")

    def lend(self, value):
        """What C is given for it: the array's own memory. NumPy gives an array without entries an address too, as the calls want it."""
        array = _given.fitting(self.name, value, self._wanted)
        return [array.ctypes.data, array.size]


def _parameter(declared):
    name, kind = declared.split(": ")
    words = kind.split()
    if len(words) == 1:
        return _Number(name, kind)
    *end, entries, dimensions = words
    return _Slice(name, entries, dimensions, "".join(end))


# THE SHARED OBJECT


def _refuse_other_machines():
    """The shared object is for one machine: others call functions otherwise, or have other sizes."""
    machine = f"{sys.platform} on {platform.machine()}"
    if machine != "linux on x86_64" or sys.maxsize != 2**63 - 1:
        raise ImportError(f"libbbfmm.so is for a 64-bit Python for linux on x86_64, and this one is for {machine}")


def _load():
    _refuse_other_machines()
    project = pathlib.Path(__file__).resolve().parents[3]
    folder = os.environ.get("BBFMM_LIB") or project / "target" / "python"
    path = pathlib.Path(folder) / "libbbfmm.so"
    if not path.is_file():
        raise ImportError(
            f"there is no {path}. Write it by `tools/library` and then `bindings/python/link`, in the project's folder, "
            "or let BBFMM_LIB name the folder that has libbbfmm.so"
        )
    return ctypes.CDLL(str(path))


def _find_calls(library):
    """Each call's function and its parameters, by name."""
    found = {}
    for name, declared in CALLS.items():
        parameters = [_parameter(one) for one in declared.split(", ")]
        function = getattr(library, f"bbfmm_{name}")
        function.argtypes = [c_type for parameter in parameters for c_type in parameter.c_types]
        function.restype = _ANSWERS.get(name, ctypes.c_uint8)
        found[name] = function, parameters
    return found


_FOUND = _find_calls(_load())

# CALLS


def _refuse_shared_memory(parameters, given):
    """What a call changes must not be what it also reads: no call can see that."""
    for changed in (parameter.name for parameter in parameters if parameter.is_changed):
        for name, other in given.items():
            if name != changed and isinstance(other, np.ndarray) and np.may_share_memory(given[changed], other):
                raise ValueError(f"{changed}: shares memory with {name}, and would be changed while that is read")


def answer(name, **given):
    """What the call with this name answers. Its parameters are given by name, so that none is taken for another."""
    function, parameters = _FOUND[name]
    lent = [part for parameter in parameters for part in parameter.lend(given[parameter.name])]
    _refuse_shared_memory(parameters, given)
    return function(*lent)


def make(name, **given):
    """Makes the call with this name, and raises its refusal."""
    number = answer(name, **given)
    if number != 0:
        raise Refusal(number)


def make_on_text(name, **given):
    """The same for a call that answers a number and a line."""
    line, number = divmod(answer(name, **given), 256)
    if number != 0:
        raise TextRefusal(number, line or None)
