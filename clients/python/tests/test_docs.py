"""The examples of the package and, if it is here, of docs/CLIENTS.md."""

import doctest
import importlib
import inspect
import os
import pkgutil
import tempfile
import unittest

import envy

PAGE = os.path.join(os.path.dirname(os.path.abspath(__file__)), "../../../docs/CLIENTS.md")


class DocsTest(unittest.TestCase):
    def test_modules(self):
        tried = 0
        for it in pkgutil.iter_modules(envy.__path__, "envy."):
            found = doctest.testmod(importlib.import_module(it.name))
            self.assertEqual(found.failed, 0, it.name)
            tried += found.attempted
        self.assertGreater(tried + doctest.testmod(envy).attempted, 10)

    def test_hints_and_texts(self):
        calls = [envy.open, envy.setup_for, envy.shape, envy.library_version]
        for kind in (envy.Memory, envy.Transaction, envy.Map):
            self.assertTrue(kind.__doc__)
            calls += [it for name, it in vars(kind).items() if inspect.isfunction(it) and not name.startswith("_")]
        for call in calls:
            signature = inspect.signature(call)
            hints = [it.annotation for name, it in signature.parameters.items() if name != "self"]
            self.assertNotIn(inspect.Signature.empty, [*hints, signature.return_annotation], call)
            self.assertTrue(call.__doc__, call)
        self.assertTrue(os.path.exists(os.path.join(os.path.dirname(envy.__file__), "py.typed")))

    @unittest.skipUnless(os.path.exists(PAGE), "docs/CLIENTS.md isn't here")
    def test_the_page(self):
        before = os.getcwd()
        with tempfile.TemporaryDirectory() as folder:
            os.chdir(folder)
            try:
                found = doctest.testfile(PAGE, module_relative=False, globs={})
            finally:
                os.chdir(before)
        self.assertEqual(found.failed, 0)
        self.assertGreater(found.attempted, 0)


if __name__ == "__main__":
    unittest.main()
