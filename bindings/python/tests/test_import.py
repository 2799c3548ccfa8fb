"""Where the shared object is looked for, and what is said where it cannot be had."""

import importlib.util
import os
import pathlib
import shutil
import tempfile
import unittest
from unittest import mock

from bbfmm import _library


def load_anew():
    """The private file that loads the shared object, run once more under another name."""
    spec = importlib.util.spec_from_file_location("loaded_anew", _library.__file__)
    module = importlib.util.module_from_spec(spec)
    spec.loader.exec_module(module)
    return module


class Import(unittest.TestCase):
    def test_a_folder_without_it_is_named_with_the_command(self):
        with tempfile.TemporaryDirectory() as folder, mock.patch.dict(os.environ, {"BBFMM_LIB": folder}):
            with self.assertRaisesRegex(ImportError, f"there is no {folder}/libbbfmm.so. Write it by .*bindings/python/link"):
                load_anew()

    def test_it_is_taken_from_the_folder_that_is_named(self):
        project = pathlib.Path(_library.__file__).parents[3]
        with tempfile.TemporaryDirectory() as folder, mock.patch.dict(os.environ, {"BBFMM_LIB": folder}):
            shutil.copy(project / "target" / "python" / "libbbfmm.so", folder)
            self.assertEqual(load_anew().answer("square_root", x=2.25), 1.5)

    def test_without_a_folder_it_is_the_projects(self):
        for folder in ({}, {"BBFMM_LIB": ""}):
            with mock.patch.dict(os.environ, folder):
                if not folder:
                    os.environ.pop("BBFMM_LIB", None)
                self.assertEqual(load_anew().answer("square_root", x=2.25), 1.5)

    def test_other_machines_are_refused(self):
        for place, value, said in (
            ("platform.machine", lambda: "aarch64", "linux on aarch64"),
            ("sys.platform", "darwin", "darwin on x86_64"),
            ("sys.maxsize", 2**31 - 1, "linux on x86_64"),
        ):
            with mock.patch(place, value), self.assertRaisesRegex(ImportError, f"for linux on x86_64, and this one is for .*{said}"):
                load_anew()
