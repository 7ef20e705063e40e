"""How much memory is in use, by glibc's mallinfo2. Blocks of up to a thousand bytes may be left out, since glibc counts those that wait
to be used again."""
import ctypes
import unittest


class Numbers(ctypes.Structure):
    """What mallinfo2 returns: ten numbers, of which the fifth is of bytes that are mapped, and the eighth of bytes in use elsewhere."""
    _fields_ = [("numbers", ctypes.c_size_t * 10)]


MALLINFO = getattr(ctypes.CDLL(None), "mallinfo2", None)
if MALLINFO is None:
    print("skipped: how much memory the library keeps: there is no mallinfo2, so no glibc", flush=True)
else:
    MALLINFO.restype = Numbers


def used() -> int:
    if MALLINFO is None:
        raise unittest.SkipTest("no mallinfo2, so no glibc")
    numbers = MALLINFO().numbers
    return numbers[4] + numbers[7]
