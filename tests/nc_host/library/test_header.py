"""The numbers of nc_host.py are those of include/nc_host.h."""
import pathlib
import re
import unittest

import nc_host as nc

HEADER = pathlib.Path(__file__).parents[3] / "include" / "nc_host.h"
NUMBER = re.compile(r"^#define NC_(\w+) (0x[0-9A-F]+|\d+)u", re.M)

# What the header says by another name, or what no test uses.
OTHER = {"MIN_BUNDLES", "MAX_BUNDLES", "VERSION_MAJOR", "VERSION_MINOR", "VERSION_PATCH"}


class Header(unittest.TestCase):
    def test_numbers(self):
        numbers = {name: int(digits, 0) for name, digits in NUMBER.findall(HEADER.read_text(encoding="utf-8")) if name not in OTHER}
        self.assertGreater(len(numbers), 40)
        self.assertEqual({name: getattr(nc, name, None) for name in numbers}, numbers)

    def test_fields(self):
        text = HEADER.read_text(encoding="utf-8")
        for kind in (nc.Instruction, nc.Verdict, nc.Act, nc.Change, nc.Stamp, nc.Count, nc.Chunk, nc.Place, nc.Walk):
            with self.subTest(kind.__name__):
                body = re.search(r"typedef struct Nc%s \{(.*?)\n\}" % kind.__name__, text, re.S).group(1)
                fields = re.findall(r"^\s*(?:u?int\d+_t|size_t) (\w+);", body, re.M)
                self.assertEqual([name for name, _ in kind._fields_], fields)
