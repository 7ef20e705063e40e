"""Instructions by their bytes, and what nc_host_decode answers. The answers come from the opcode table and the manual."""
import unittest

import nc_host as nc


def goes_on(length):
    return nc.OK, length, nc.FLOW_NEXT, 0, 0, 0


def masks(length, register):
    return nc.OK, length, nc.FLOW_NEXT, 0, 0, nc.MASKED + register


def stops(length):
    return nc.OK, length, nc.FLOW_STOP, 0, 0, 0


def goes(length, flow, rel):
    """A direct transfer with this displacement."""
    return nc.OK, length, flow, rel, 0, 0


def through(length, flow, register):
    """An indirect transfer through this register."""
    return nc.OK, length, flow, 0, register, 0


CUT = nc.CUT_SHORT, 0, 0, 0, 0, 0
REFUSED = nc.NOT_PERMITTED, 0, 0, 0, 0, 0

DIRECT = nc.FLOW_BRANCH, nc.FLOW_JUMP, nc.FLOW_CALL
INDIRECT = nc.FLOW_INDIRECT_JUMP, nc.FLOW_INDIRECT_CALL

VECTORS = [
    # one of each row, prefix and condition
    ("90", goes_on(1)),
    ("6690", goes_on(2)),
    ("66", CUT),
    ("666690", REFUSED),
    ("678b00", REFUSED),
    ("f4", stops(1)),
    ("66f4", REFUSED),
    ("00c0", goes_on(2)),
    ("0501000000", goes_on(5)),
    ("66050100", goes_on(4)),
    ("660401", REFUSED),
    ("06", REFUSED),
    ("69c001000000", goes_on(6)),
    ("6669c00100", goes_on(5)),
    ("83e0e0", masks(3, 0)),
    ("83e4e0", goes_on(3)),
    ("83e7e0", masks(3, 7)),
    ("6683e0e0", goes_on(4)),
    ("83e0f0", goes_on(3)),
    ("8dc0", REFUSED),
    ("8d442408", goes_on(4)),
    ("8b4424", CUT),
    ("8b842400010000", goes_on(7)),
    ("a100000200", goes_on(5)),
    ("66a100000200", goes_on(6)),
    ("c1e002", goes_on(3)),
    ("c1f002", REFUSED),
    ("c60001", goes_on(3)),
    ("c60801", REFUSED),
    ("c70001000000", goes_on(6)),
    ("66c7000100", goes_on(5)),
    ("c8000000", REFUSED),
    ("ebfe", goes(2, nc.FLOW_JUMP, -2)),
    ("66ebfe", REFUSED),
    ("7410", goes(2, nc.FLOW_BRANCH, 16)),
    ("e300", goes(2, nc.FLOW_BRANCH, 0)),
    ("e800010000", goes(5, nc.FLOW_CALL, 256)),
    ("e9dbffffff", goes(5, nc.FLOW_JUMP, -37)),
    ("0f8400000000", goes(6, nc.FLOW_BRANCH, 0)),
    ("0f", CUT),
    ("0f1f440000", goes_on(5)),
    ("660f1f840000000000", goes_on(9)),
    ("0f0f", REFUSED),
    ("0fbae003", goes_on(4)),
    ("0fbac003", REFUSED),
    ("0fc8", goes_on(2)),
    ("660fc8", REFUSED),
    ("f00fb10a", goes_on(4)),
    ("f00fb1ca", REFUSED),
    ("0fb1ca", goes_on(3)),
    ("f090", REFUSED),
    ("f0830001", goes_on(4)),
    ("f03908", REFUSED),
    ("f3a5", goes_on(2)),
    ("f2a5", REFUSED),
    ("f390", REFUSED),
    ("f6c001", goes_on(3)),
    ("f6c801", REFUSED),
    ("f7d8", goes_on(2)),
    ("ff30", goes_on(2)),
    ("ffe0", through(2, nc.FLOW_INDIRECT_JUMP, 0)),
    ("ffd1", through(2, nc.FLOW_INDIRECT_CALL, 1)),
    ("ffe4", through(2, nc.FLOW_INDIRECT_JUMP, 4)),
    ("ff10", REFUSED),
    ("ff18", REFUSED),
    ("ff", CUT),
    # SIB and displacement, and what is refused or cut short
    ("", CUT),
    ("66b83412", goes_on(4)),
    ("b83412", CUT),
    ("f08184880000000178563412", goes_on(12)),
    ("8b042500000200", goes_on(7)),
    ("8b0500000200", goes_on(6)),
    ("65a100000000", REFUSED),
    ("c3", REFUSED),
    ("cd80", REFUSED),
    ("0f05", REFUSED),
    ("ff20", REFUSED),
    ("80050000020001", goes_on(7)),
    ("0fb7048d00000200", goes_on(8)),
    ("660fb7c0", REFUSED),
    ("66f7c03412", goes_on(5)),
    ("f7c8", REFUSED),
    ("c7c0", CUT),
    ("8d", CUT),
    ("f00fb10d", CUT),
    ("f00fb1c0", REFUSED),
    ("e2fe", goes(2, nc.FLOW_BRANCH, -2)),
    # a condition that fails is found before the bytes that are missing
    ("f08338", REFUSED),
    ("66ffd0", REFUSED),
    ("0fbac0", REFUSED),
    ("f30f", REFUSED),
    ("f20f", REFUSED),
    ("660fb7", REFUSED),
    ("f0ff30", REFUSED),
    ("f0", CUT),
    ("f2", CUT),
    ("f3", CUT),
    ("660f", CUT),
    ("f00f", CUT),
    ("66ff", CUT),
    ("f0f6", CUT),
    ("f081", CUT),
    # CPUID, UD2 and CMPXCHG8B, and what is refused beside them
    ("0fa2", goes_on(2)),
    ("660fa2", REFUSED),
    ("f00fa2", REFUSED),
    ("f30fa2", REFUSED),
    ("0f0b", stops(2)),
    ("660f0b", REFUSED),
    ("f00f0b", REFUSED),
    ("0fc70e", goes_on(3)),
    ("0fc74c2408", goes_on(5)),
    ("0fc70c2500000200", goes_on(8)),
    ("f00fc70e", goes_on(4)),
    ("0fc7", CUT),
    ("f00fc7", CUT),
    ("0fc74c24", CUT),
    ("0fc7c8", REFUSED),
    ("f00fc7c8", REFUSED),
    ("0fc706", REFUSED),
    ("0fc716", REFUSED),
    ("0fc736", REFUSED),
    ("0fc7f0", REFUSED),
    ("660fc7", REFUSED),
    ("f30fc70e", REFUSED),
]
PERMITTED = [(digits, wanted) for digits, wanted in VECTORS if wanted[0] == nc.OK]


def may_go(target, place, length):
    """Whether an instruction at a place of a chunk of one bundle, in a region of two, may go to this distance from the chunk's start."""
    if 0 <= target < nc.BUNDLE:
        return not place < target < place + length
    return target % nc.BUNDLE == 0 and -nc.START <= target < 2 * nc.BUNDLE


def verdict_on(place, wanted):
    """The verdict on a chunk of one bundle that has this instruction at this place, between nops."""
    _, length, flow, rel, _, _ = wanted
    if flow in INDIRECT:
        return nc.BARE, nc.START + place
    if flow in DIRECT and not may_go(place + length + rel, place, length):
        return nc.BAD_TARGET, nc.START + place
    return nc.OK, 0


class Instructions(unittest.TestCase):
    def test_vectors(self):
        for digits, wanted in VECTORS:
            with self.subTest(digits):
                self.assertEqual(nc.decode(bytes.fromhex(digits)), wanted)

    def test_fronts(self):
        """Every proper front of an instruction is cut short."""
        for digits, _ in PERMITTED:
            code = bytes.fromhex(digits)
            for length in range(len(code)):
                with self.subTest(digits, length=length):
                    self.assertEqual(nc.decode(code[:length]), CUT)

    def test_flows(self):
        """A direct transfer is judged by its target, an indirect one by its mask, and nothing else is by either."""
        for digits, wanted in PERMITTED:
            code = bytes.fromhex(digits)
            for place in range(nc.BUNDLE - len(code) + 1):
                with self.subTest(digits, place=place):
                    chunk = b"\x90" * place + code.ljust(nc.BUNDLE - place, b"\x90")
                    self.assertEqual(nc.vet(nc.START, nc.limit(2), chunk), verdict_on(place, wanted))
