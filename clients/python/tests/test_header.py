"""What the package says of the library, beside its headers, if they are here."""

import ctypes
import os
import re
import unittest

import envy
from envy import errors, library

C = os.path.join(os.path.dirname(os.path.abspath(__file__)), "../../../c")
CTYPES = {"uint32_t": ctypes.c_uint32, "uint64_t": ctypes.c_uint64}


def header(name):
    with open(f"{C}/{name}", encoding="utf-8") as it:
        return it.read()


def fields_of(text, struct):
    """Returns the fields of a struct of a header."""
    body = re.search(rf"typedef struct {struct} \{{(.*?)\}} {struct};", text, re.S).group(1)
    return [(name, CTYPES[kind]) for kind, name in re.findall(r"^ +(uint\d+_t) (\w+);", body, re.M)]


@unittest.skipUnless(os.path.exists(f"{C}/envy_codes.h"), "the headers aren't here")
class HeaderTest(unittest.TestCase):
    def test_structs(self):
        codes, pair = header("envy_codes.h"), header("envy_pair.h")
        self.assertEqual(library.SetupStruct._fields_, fields_of(codes, "envy_setup"))
        self.assertEqual(library.CountsStruct._fields_, fields_of(codes, "envy_counts"))
        self.assertEqual(library.PairStruct._fields_, fields_of(pair, "envy_pair"))
        self.assertEqual(library.RangeStruct._fields_, fields_of(pair, "envy_map"))
        self.assertEqual(envy.Setup._fields, tuple(name for name, _ in fields_of(codes, "envy_setup")))
        self.assertEqual(envy.Counts._fields, tuple(name for name, _ in fields_of(codes, "envy_counts")))

    def test_codes(self):
        codes = {name: int(n) for name, n in re.findall(r"^ +ENVY_(\w+) = (\d+)", header("envy_codes.h"), re.M)}
        named = [name for name in vars(library) if name in codes]
        self.assertGreater(len(named), 12)
        for name in named:
            self.assertEqual(getattr(library, name), codes[name], name)
        for name, code in codes.items():
            if name.startswith("SETUP_"):
                self.assertIs(errors.CLASSES[code], envy.SetupError, name)
            if name.startswith("BROKEN_") and name != "BROKEN_MAP":
                self.assertIs(errors.CLASSES[code], envy.FormatError, name)
        kinds = {"MAP_FULL": envy.MapError, "MAP_SETUP": envy.SetupError, "SLOT_OPEN": envy.TransactionError, "DAMAGED": envy.FormatError}
        kinds.update(FULL=envy.FullError, BUSY=envy.TransactionError, NO_MEMORY=envy.NoMemoryError, NO_JOURNAL=envy.FormatError)
        kinds.update(OTHER_JOURNAL=envy.FormatError, POLICY=envy.SetupError, RANGE=envy.AddressError, ABSENT=envy.AbsentError)
        kinds.update(BROKEN_MAP=envy.MapError)
        for name, kind in kinds.items():
            self.assertIs(errors.CLASSES[codes[name]], kind, name)
        flags = {name: int(n) for name, n in re.findall(r"^ +ENVY_(\w+) = (\d+)", header("envy.h"), re.M)}
        self.assertEqual([library.CREATE, library.BYTEWISE, library.READING], [flags["CREATE"], flags["BYTEWISE"], flags["READING"]])
        did = re.search(r"enum envy_did \{(.*?)\};", header("envy_codes.h"), re.S).group(1)
        self.assertEqual({it.name: it.value for it in envy.Did}, {name: int(n) for name, n in re.findall(r"ENVY_(\w+) = (\d+)", did)})

    def test_calls(self):
        text = "".join(header(name) for name in ("envy.h", "envy_setup.h", "envy_text.h"))
        counted = {name: len(takes.split(",")) for name, takes in re.findall(r"^\w.*?\b(envy_\w+)\(([^)]*)\);", text, re.M)}
        for name, takes in library.TAKES.items():
            self.assertEqual(max(1, len(takes)), counted[name], name)


if __name__ == "__main__":
    unittest.main()
