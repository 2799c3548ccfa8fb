"""That the package has every call of include/bbfmm.h as that declares it, and says of each what README.md says."""

import re
import unittest

import bbfmm
from bbfmm import _library
from support import GOOD, PROJECT

HEADER = (PROJECT / "include" / "bbfmm.h").read_text(encoding="utf-8")
README = (PROJECT / "README.md").read_text(encoding="utf-8")

C_TYPES = {"size_t": "usize", "int32_t": "i32", "double": "f64", "bool": "bool", "uint8_t": "u8", "uint16_t": "u16"}
C_ANSWERS = {"uint8_t": "c_ubyte", "uint64_t": "c_ulong", "double": "c_double"}
# Where the package has a plainer name than C.
RENAMED = {"length": "side", "case_number": "case"}


def declarations():
    """The calls of the header: name, answer, parameters."""
    code = re.sub(r"/\*.*?\*/", "", HEADER, flags=re.DOTALL)
    for answer, name, parameters in re.findall(r"(\w+) bbfmm_(\w+)\(([^)]*)\);", code):
        yield name, answer, [" ".join(one.split()) for one in parameters.split(",")]


def in_our_words(parameters):
    """The parameters of C as the table has them, but for what only the package knows: a list or a matrix, made or changed."""
    words = []
    for parameter in parameters:
        is_const, c_type, pointer, name = re.fullmatch(r"(const )?(\w+) (\*?)(\w+)", parameter).groups()
        if pointer:
            words.append(f"{name}: {'' if is_const else 'written '}{C_TYPES[c_type]} slice")
        elif not name.endswith("_length"):
            words.append(f"{RENAMED.get(name, name)}: {C_TYPES[c_type]}")
    return words


def without_shapes(declared):
    return re.sub(" (made|changed) ", " written ", re.sub(" (list|matrix)", " slice", declared)).split(", ")


def refusals_of_readme():
    """For each call the numbers in the last column of its row."""
    rows = re.findall(r"^\| `(\w+)\([^|]*\|.*\|([^|]*)\|$", README, flags=re.MULTILINE)
    return {name: {int(number) for number in re.findall(r"\d+", column)} for name, column in rows}


def refusals_of_docstring(name):
    """The numbers in 'Refuses with 1, 2, 5'."""
    said = re.search(r"Refuses with (\d+(, \d+)*)", getattr(bbfmm, name).__doc__)
    return {int(number) for number in said.group(1).split(", ")} if said else set()


class Header(unittest.TestCase):
    def test_every_call_is_declared_as_in_the_header(self):
        found = {name: in_our_words(parameters) for name, _, parameters in declarations()}
        self.assertEqual(found, {name: without_shapes(declared) for name, declared in _library.CALLS.items()})

    def test_every_call_answers_what_the_header_says(self):
        for name, answer, _ in declarations():
            function, _ = _library._FOUND[name]
            self.assertEqual(function.restype.__name__, C_ANSWERS[answer], name)

    def test_every_call_is_wrapped_and_public(self):
        for name in _library.CALLS:
            self.assertIn(name, bbfmm.__all__)
            self.assertTrue(callable(getattr(bbfmm, name)), name)

    def test_every_public_name_is_there_once_and_told(self):
        self.assertEqual(len(set(bbfmm.__all__)), len(bbfmm.__all__))
        for name in bbfmm.__all__:
            self.assertTrue(getattr(bbfmm, name).__doc__, name)

    def test_every_call_has_an_example(self):
        for name in _library.CALLS:
            self.assertIn(">>> ", getattr(bbfmm, name).__doc__, name)

    def test_the_tests_know_every_call(self):
        self.assertEqual(set(GOOD), set(_library.CALLS))


class Numbers(unittest.TestCase):
    def test_faults_are_those_of_the_header(self):
        body = re.search(r"BBFMM_DONE = 0,(.*?)\};", HEADER, flags=re.DOTALL).group(1)
        declared = {name: int(number) for name, number in re.findall(r"BBFMM_(\w+) = (\d+)", body)}
        self.assertEqual(declared, {fault.name: fault.value for fault in bbfmm.Fault})

    def test_stops_and_airs_are_those_of_the_header(self):
        for prefix, kind in (("STOP", bbfmm.Stop), ("AIR", bbfmm.Air)):
            declared = {name: int(number) for name, number in re.findall(rf"BBFMM_{prefix}_(\w+) = (\d+)", HEADER)}
            self.assertEqual(declared, {one.name: one.value for one in kind})

    def test_docstrings_say_the_refusals_of_readme(self):
        """A 7 is left out where the package makes every array that could have a wrong size."""
        told = refusals_of_readme()
        for name in _library.CALLS:
            ours = refusals_of_docstring(name)
            self.assertLessEqual(ours, told[name], name)
            self.assertLessEqual(told[name] - ours, {7}, name)
