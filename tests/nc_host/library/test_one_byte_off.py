"""A valid chunk with one byte replaced.

It is a masked jump and nops, and each byte gets each value. What is accepted is created in a region of its own and walked, and wherever a
walk stands in the region, an instruction stands.
"""
import unittest

import nc_host as nc
from reading import decoded, filled, replaced

# A masked jump on EBX, and nops.
CODE = filled("83e3e0ffe3")

# The choices of the walks: each branch falls through, each goes to its target, and each masked jump goes to 00010040.
CHOICES = [[0] * 40, [1] * 40, [0x1005F] * 40]


def stands_on_instruction(text, at):
    """An instruction stands at an address of the region with these bytes, within its bundle."""
    return decoded(text[at - nc.START : at - at % nc.BUNDLE + nc.BUNDLE - nc.START]).fault == nc.OK


class OneByteOff(unittest.TestCase):
    def walk(self, code):
        region = nc.Region(4)
        self.assertEqual(region.create(nc.START, code).fault, nc.OK)
        text = region.bytes()
        for choices in CHOICES:
            fault, places, _ = region.walk(nc.START, choices)
            self.assertEqual(fault, nc.OK)
            astray = [at for at in places if at >= nc.START and not stands_on_instruction(text, at)]
            self.assertEqual(astray, [], code.hex())

    def test_one_byte_off(self):
        """As many are accepted as by a reading of the opcode table that was written apart from this one."""
        chunks = [replaced(CODE, place, bytes([value])) for place in range(nc.BUNDLE) for value in range(256)]
        accepted = [code for code in chunks if nc.vet(nc.START, nc.limit(4), code).fault == nc.OK]
        self.assertEqual(len(accepted), 4109)
        for code in accepted:
            self.walk(code)
