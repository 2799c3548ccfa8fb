"""What is taken as an argument and what is a TypeError that says so; and that nothing is copied."""

import contextlib
import ctypes
import mmap
import unittest
from unittest import mock

import numpy as np

import bbfmm
from bbfmm import _library
from support import CHANGED, GOOD, TEXT, arrays, bits, call, draw, exchanged, gases, parameters, polynomials

# UNFIT ARRAYS


def strided(array):
    """The same entries with gaps between them."""
    room = np.zeros([2 * size for size in array.shape], dtype=array.dtype, order="F")
    view = room[tuple(slice(None, None, 2) for _ in array.shape)]
    view[...] = array
    return view


def unaligned(array):
    room = np.zeros(array.nbytes + 1, dtype=np.uint8)
    return np.ndarray(array.shape, array.dtype, buffer=room.data, offset=1, order="F")


def unfit(array):
    """For each way not to fit an array of this kind, and words of what is said of it."""
    yield array.tolist(), "given a list"
    yield None, "given a NoneType"
    yield np.ma.masked_array(array), "given a MaskedArray"
    yield array.astype(np.float32), "given an array of float32"
    yield array.astype(np.int64), "given an array of int64"
    yield array[..., np.newaxis, np.newaxis], f"given one of {array.ndim + 2} dimensions"
    yield np.array(1, dtype=array.dtype), "given one of 0 dimensions"
    yield strided(array), r"given one with gaps or in another order \(np.asfortranarray makes one\)"
    yield array[::-1], "given one with gaps or in another order"
    if array.ndim == 2:
        yield np.ascontiguousarray(array), r"given row-major \(np.asfortranarray makes one\)"
        yield array.flatten(order="F"), "given one of 1 dimension$"
    if array.itemsize > 1:
        yield array.astype(array.dtype.newbyteorder()), "given an array of >f8"
        yield unaligned(array), "given one that is not aligned"


def each_array():
    for name, good in GOOD.items():
        for one in arrays(good()):
            yield name, one


class Arrays(unittest.TestCase):
    def test_what_does_not_fit_is_named(self):
        for name, one in each_array():
            given = GOOD[name]()
            array = arrays(given)[one]
            words = ("column-major float64 array of two" if array.ndim == 2 else f"contiguous {array.dtype} array of one") + " dimension"
            for other, said in unfit(array):
                with self.subTest(name, argument=one, said=said):
                    with self.assertRaisesRegex(TypeError, f"^{one}: wanted a (writeable )?{words}s?, {said}"):
                        call(name, exchanged(given, one, other))

    def test_every_array_is_among_those(self):
        """But for what may be any sequence, or any buffer of bytes."""
        lent = {(name, one) for name in GOOD for one, kind in parameters(name).items() if " " in kind and not kind.startswith("made")}
        self.assertEqual({one for one in lent if one[1] not in ("centre", "text")}, set(each_array()))

    def test_what_is_changed_must_be_writeable(self):
        for name, one in CHANGED:
            given = GOOD[name]()
            given[one].flags.writeable = False
            with self.assertRaisesRegex(TypeError, f"^{one}: wanted a writeable column-major .*, given a read-only one"):
                call(name, given)

    def test_what_is_only_read_may_be_read_only(self):
        for name, one in each_array():
            if (name, one) not in CHANGED:
                given = GOOD[name]()
                arrays(given)[one].flags.writeable = False
                call(name, given)

    def test_a_row_is_column_major_too(self):
        row = np.ones((1, 4))
        self.assertTrue(row.flags.c_contiguous)
        self.assertEqual(bbfmm.aca_partial_pivoting(row, 0.0, bbfmm.Mode.RESTART).rank, 1)

    def test_what_is_answered_is_column_major(self):
        for name, good in GOOD.items():
            found = call(name, good())
            for array in found if isinstance(found, tuple) else (found,):
                if isinstance(array, np.ndarray):
                    self.assertTrue(array.flags.f_contiguous and array.flags.writeable, name)


@contextlib.contextmanager
def recorded(name):
    """What C is given meanwhile, whenever this call is made."""
    function, declared = _library._FOUND[name]
    recorder = mock.Mock(side_effect=function)
    with mock.patch.dict(_library._FOUND, {name: (recorder, declared)}):
        yield recorder


class Nothing(unittest.TestCase):
    """Nothing is copied: a call is lent the caller's memory."""

    def test_every_array_is_lent_where_it_lies(self):
        for name, one in each_array():
            given = GOOD[name]()
            array = arrays(given)[one]
            with recorded(name) as recorder:
                call(name, given)
            lent = recorder.call_args.args
            self.assertIn((array.ctypes.data, array.size), list(zip(lent, lent[1:])), (name, one))

    def test_texts_are_read_where_they_lie(self):
        for text in (TEXT, bytearray(TEXT), memoryview(TEXT), np.frombuffer(TEXT, dtype=np.uint8)):
            with recorded("read_block") as recorder:
                found = bbfmm.read_block(text)
            self.assertEqual(found.tolist(), [[1.0, 3.0, 5.0], [-2.0, 4.0, 6.0]])
            self.assertEqual(recorder.call_args.args[:2], (np.frombuffer(text, dtype=np.uint8).ctypes.data, len(TEXT)))

    def test_a_text_may_be_a_file_in_memory(self):
        with mmap.mmap(-1, len(TEXT)) as memory:
            memory[:] = TEXT
            self.assertEqual(bbfmm.block_size(memory), (2, 3))

    def test_points_are_scaled_in_the_callers_memory(self):
        room = np.zeros((5, 4), order="F")
        points = room[:, 1:3]
        points[...] = GOOD["scale_points"]()["points"]
        expected = (points - (1.0, 10.0)) / 2.0
        bbfmm.scale_points(4.0, (1.0, 10.0), points)
        self.assertEqual(bits(room), bits(np.hstack([np.zeros((5, 1)), expected, np.zeros((5, 1))])))

    def test_what_is_changed_must_not_be_read_too(self):
        at_nodes = polynomials(2)
        given = {"order": 2, "side": 4.0, "floor": 0.1, "centre": (0, 0), "node_polynomials": at_nodes, "points": at_nodes}
        with self.assertRaisesRegex(ValueError, "^points: shares memory with node_polynomials"):
            bbfmm.graham_ratios(**given, gases=gases(4))
        points = draw(2, 2)
        air = gases(4)._replace(oxygen=points.reshape(-1, order="F"))
        self.assertTrue(np.shares_memory(points, air.oxygen))
        with self.assertRaisesRegex(ValueError, "^points: shares memory with oxygen"):
            bbfmm.graham_ratios(2, 4.0, 0.1, (0, 0), at_nodes, points, air)

    def test_a_centre_may_lie_among_the_points(self):
        points = np.array([[1.0], [2.0]])
        bbfmm.scale_points(4.0, points[:1, 0], points)
        self.assertEqual(points.tolist(), [[0.0], [0.5]])

    def test_an_empty_array_is_never_lent_as_null(self):
        null = (ctypes.c_double * 0).from_address(0)
        for nothing in (np.empty((0, 3)), np.ndarray((0, 3), buffer=b""), np.frombuffer(null).reshape((0, 3))):
            with recorded("aca_partial_pivoting") as recorder:
                bbfmm.aca_partial_pivoting(nothing, 0.0, bbfmm.Mode.RESTART)
            function, _ = _library._FOUND["aca_partial_pivoting"]
            lent = zip(recorder.call_args.args, function.argtypes, strict=True)
            pointers = [value for value, kind in lent if kind is ctypes.c_void_p]
            self.assertEqual(len(pointers), 9)
            self.assertTrue(all(pointers))


class Numbers(unittest.TestCase):
    def each(self, kind):
        for name, good in GOOD.items():
            for one, value in good().items():
                if type(value) is kind:
                    yield name, one

    def test_whole_numbers(self):
        for name, one in self.each(int):
            given = GOOD[name]()
            for value in (-1, 2**64):
                with self.assertRaisesRegex(OverflowError, f"^{one}: .* given {value}$"):
                    call(name, {**given, one: value})
            for value in (True, np.True_, 1.0, "1", None, np.array([1, 2])):
                with self.assertRaisesRegex(TypeError, f"^{one}: wanted a whole number, given a {type(value).__name__}$"):
                    call(name, {**given, one: value})
            call(name, {**given, one: np.uint8(given[one])})

    def test_floats(self):
        for name, one in self.each(float):
            given = GOOD[name]()
            for value in (True, "1", 1j, np.array([1.0])):
                with self.assertRaisesRegex(TypeError, f"^{one}: wanted a number, given a {type(value).__name__}$"):
                    call(name, {**given, one: value})
            with self.assertRaisesRegex(OverflowError, f"^{one}: "):
                call(name, {**given, one: 10**400})
            for value in (np.float32(4.0), 4):
                call(name, {**GOOD[name](), one: value})

    def test_bools(self):
        for name, one in self.each(bool):
            for value in (1, 0.0, "yes", None):
                with self.assertRaisesRegex(TypeError, f"^{one}: wanted True or False, given a {type(value).__name__}$"):
                    call(name, {**GOOD[name](), one: value})

    def test_every_number_is_among_those(self):
        for kind, declared in ((int, "usize"), (float, "f64"), (bool, "bool")):
            asked = {(name, one) for name, good in GOOD.items() for one in good() if parameters(name).get(one) == declared}
            self.assertEqual(asked, set(self.each(kind)))

    def test_vectors(self):
        for vector, said in (
            ((0, 1), "vector: wanted three whole numbers, given 2"),
            ((0, 1, 0.0), r"vector\[2\]: wanted a whole number, given a float"),
            ((0, True, 0), r"vector\[1\]: wanted a whole number, given a bool"),
            ("010", "vector: wanted a sequence of numbers, given a str"),
            (7, "vector: wanted a sequence of numbers, given a int"),
            (np.zeros((3, 1), dtype=int), "vector: wanted a sequence of numbers, given a ndarray"),
        ):
            for name, rest in (("look_up", ()), ("follow_node", (0,))):
                with self.assertRaisesRegex(TypeError, f"^{said}$"):
                    getattr(bbfmm, name)(*((2,) if rest == () else (2, 3)), vector, *rest)
        with self.assertRaisesRegex(OverflowError, r"^vector\[1\]: .* given 2147483648$"):
            bbfmm.look_up(2, (0, 2**31, 0))

    def test_centres(self):
        for name in ("scale_points", "graham_ratios"):
            for centre, said in ((1.0, "centre: wanted a sequence"), ((1.0, "x"), r"centre\[1\]: wanted a number, given a str")):
                with self.assertRaisesRegex(TypeError, f"^{said}"):
                    call(name, {**GOOD[name](), "centre": centre})
            for centre in ([1, 10], np.array([1.0, 10.0]), (np.float32(1), 10.0)):
                call(name, {**GOOD[name](), "centre": centre})

    def test_kinds_of_this_package(self):
        with self.assertRaisesRegex(TypeError, "^mode: wanted a bbfmm.Mode, given a str$"):
            bbfmm.aca_partial_pivoting(draw(2, 2), 0.0, "restart")
        with self.assertRaisesRegex(TypeError, "^gases: wanted a bbfmm.Gases, given a tuple$"):
            call("graham_ratios", {**GOOD["graham_ratios"](), "gases": tuple(gases(9))})

    def test_texts(self):
        for text in (TEXT.decode(), 7, None, [1, 2]):
            for name in ("block_size", "read_block"):
                with self.assertRaisesRegex(TypeError, f"^text: wanted bytes, given a {type(text).__name__}$"):
                    getattr(bbfmm, name)(text)
        for text, said in (
            (draw(4), r"a ndarray of format d, shape \(4,\), strides \(8,\)"),
            (np.zeros((2, 2), dtype=np.uint8), r"a ndarray of format B, shape \(2, 2\), strides \(2, 1\)"),
            (memoryview(b"text")[::2], r"a memoryview of format B, shape \(2,\), strides \(2,\)"),
            (np.zeros(4, dtype=np.int8), r"a ndarray of format b, shape \(4,\), strides \(1,\)"),
        ):
            with self.assertRaisesRegex(TypeError, f"^text: wanted contiguous bytes of one dimension, given {said}$"):
                bbfmm.read_block(text)
