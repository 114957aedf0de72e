"""The tables of the binding against oxc_sourcemap.h: constants, structs with their sizes, and the parameters of calls."""

import _ctypes
import ctypes
import re
import unittest
from ctypes import POINTER, c_char_p, c_size_t, c_uint32, c_uint64, c_void_p
from unittest import mock

from support import TOP

import oxc_sourcemap
from oxc_sourcemap import _library, _values

HEADER = re.sub(r"/\*.*?\*/", "", (TOP / "bindings/c/oxc_sourcemap.h").read_text(encoding="utf-8"), flags=re.S)
ENUMS = ("Code", "Field", "ScopesFault", "PlaceKind", "Bias", "Kind", "MendKind", "Direction", "TextKind", "Language")
PREFIXES = {"Field": "FIELD_", "ScopesFault": "SCOPES_", "PlaceKind": "PLACE_", "MendKind": "MEND_", "TextKind": "TEXT_"}
STRUCTS = {"text": "Text", "fault": "Fault", "fault_place": "FaultPlace", "counts": "Counts", "token": "Token", "position": "Position",
           "original": "Original", "piece": "Piece", "mend": "Mend", "compiled_counts": "CompiledCounts",
           "scopes_counts": "ScopesCounts", "scope": "Scope", "call": "Call", "range": "Range", "frame": "Frame",
           "chain_entry": "ChainEntry"}  # fmt: skip
HANDLES = ("smap_map*", "smap_builder*", "smap_join*", "smap_string*", "smap_mends*", "smap_compiled*", "smap_scopes*", "smap_file*")
NUMBERS = {"uint32_t": c_uint32, "uint64_t": c_uint64, "size_t": c_size_t}


def struct(name):
    return getattr(_library, STRUCTS[name])


def field_type(type):
    return c_void_p if type.endswith("*") else NUMBERS.get(type) or struct(type.removeprefix("struct ").removeprefix("smap_"))


def fields_of(body):
    """The fields of a struct: the type and the name of each."""
    return [(it.strip().rpartition(" ")[2].lstrip("*"), field_type(re.sub(r"\w+$", "", it.strip()).strip()))
            for it in body.split(";") if it.strip()]  # fmt: skip


def parameter(type, name, following):
    """The type of a parameter by ctypes, and whether it is followed by a length."""
    is_list, plain = following == f"{name}_len", type.replace("const ", "").replace(" ", "")
    if plain in ("unsignedchar*", "void*"):
        return c_void_p
    if plain == "char*":
        return c_char_p if type.startswith("const") else c_void_p
    if plain in HANDLES or plain == "smap_map*const*" or is_list:
        return c_void_p
    if plain.endswith("**"):
        return POINTER(c_void_p)
    base = NUMBERS.get(plain.rstrip("*")) or struct(plain.rstrip("*").removeprefix("smap_"))
    return POINTER(base) if plain.endswith("*") else base


class Header(unittest.TestCase):
    def test_constants(self):
        blocks = re.findall(r"\benum \{(.*?)\}", HEADER, flags=re.S)
        self.assertEqual(len(blocks), len(ENUMS))
        for name, block in zip(ENUMS, blocks):
            listed = re.findall(rf"SMAP_{PREFIXES.get(name, '')}(\w+) = (\d+)", block)
            members = getattr(_values, name).__members__.items()
            self.assertEqual([(it, str(value.value)) for it, value in members], listed, name)

    def test_numbers(self):
        defined = dict(re.findall(r"#define (SMAP_\w+) (\w+)", HEADER))
        self.assertEqual(defined["SMAP_NO_ID"], "UINT32_MAX")
        self.assertEqual(defined["SMAP_NOT_TOLD"], "UINT64_MAX")
        self.assertEqual((oxc_sourcemap.NO_ID, _library.NOT_TOLD), (2**32 - 1, 2**64 - 1))
        self.assertEqual(str(_library.VERSION), defined["SMAP_VERSION"])
        self.assertGreaterEqual(_library.lib.smap_version(), _library.VERSION)

    def test_structs(self):
        inner = re.search(r"struct smap_fault_place \{(.*?)\} place;", HEADER, flags=re.S)
        flat = HEADER.replace(inner[0], "smap_fault_place place;")
        bodies = dict(re.findall(r"typedef struct smap_(\w+) \{(.*?)\} smap_\w+;", flat, flags=re.S)) | {"fault_place": inner[1]}
        self.assertEqual(set(bodies), set(STRUCTS))
        for name, body in bodies.items():
            self.assertEqual(fields_of(body), list(struct(name)._fields_), name)

    def test_sizes(self):
        sizes = re.findall(r"SMAP_HAS_SIZE\(smap_(\w+), (\d+), (\d+)\);", HEADER)
        self.assertEqual(len(sizes), 15)
        for name, words, more in sizes:
            self.assertEqual(ctypes.sizeof(struct(name)), int(words) * ctypes.sizeof(c_void_p) + int(more), name)

    def test_tuples(self):
        for name in ("Counts", "Token", "Position", "Piece", "Mend", "ScopesCounts", "Scope", "Call", "Range"):
            wanted = [it for it, *_ in getattr(_library, name)._fields_]
            said = [it.removeprefix("token_") if it == "token_index" else it for it in getattr(oxc_sourcemap, name)._fields]
            if name in ("Scope", "Call"):
                said = [it.removesuffix("_id") for it in said]
            self.assertEqual(said, wanted)
        self.assertEqual([it for it, *_ in _library.Frame._fields_], [it.removesuffix("_id") for it in oxc_sourcemap.ScopeFrame._fields])
        self.assertEqual([*(it for it, *_ in _library.ChainEntry._fields_), "variables"], list(oxc_sourcemap.ScopeChainEntry._fields))
        place = [it for it, *_ in _library.FaultPlace._fields_]
        self.assertEqual(list(oxc_sourcemap.FaultPlace._fields), [*place, "message"])

    def test_calls(self):
        results = {"void": None, "uint32_t": c_uint32, "size_t": c_size_t, "const char *": c_char_p}
        calls = {}
        for result, name, words in re.findall(r"^((?:const )?\w+ \*?)(smap_\w+)\(([^)]*)\);", HEADER, flags=re.M):
            given = [] if words == "void" else [re.fullmatch(r"\s*(.*?)\s*(\w+)\s*", it, flags=re.S).groups() for it in words.split(",")]
            names = [it for _, it in given] + [None]
            types = [parameter(type, name, names[at + 1]) for at, (type, name) in enumerate(given)]
            calls[name] = (results[result.strip()], *types)
        self.assertEqual(set(_library.PROTOTYPES), set(calls))
        for name, wanted in calls.items():
            self.assertEqual(_library.PROTOTYPES[name], wanted, name)

    def test_libraries_that_do_not_fit(self):
        with mock.patch.object(_library, "VERSION", _library.lib.smap_version() + 1), self.assertRaisesRegex(ImportError, "version"):
            _library._loaded()
        for path in ("/no/such/library.so", _ctypes.__file__):
            with mock.patch.dict("os.environ", {"OXC_SOURCEMAP_LIB": path}), self.assertRaisesRegex(ImportError, re.escape(path)):
                _library._loaded()


if __name__ == "__main__":
    unittest.main()
