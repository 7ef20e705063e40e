# Boxes in Python by ctypes, beside handlers of signal and of faulthandler. Once ../unpacker.c is built, in the folder above:
#
#     python3 python/host.py unpack.elf
import ctypes
import faulthandler
import signal
import subprocess
import sys

ENOUGH = 100
LONG = "0" * 4000 + "1a"  # a signal comes most likely while the thread is inside

faulthandler.enable()  # before the first module, so that the faults of Python's own are handed on to it
library = ctypes.CDLL("./libunpacker.so")
library.unpacker_new.argtypes = [ctypes.c_char_p, ctypes.POINTER(ctypes.c_char_p)]
library.unpacker_new.restype = ctypes.c_void_p
library.unpacker_unpack.argtypes = [ctypes.c_void_p, ctypes.c_char_p, ctypes.c_char_p]
library.unpacker_unpack.restype = ctypes.c_char_p


class Unpacker:
    def __init__(self, path):
        why = ctypes.c_char_p()
        self.at = library.unpacker_new(path.encode(), ctypes.byref(why))
        if self.at is None:
            raise ValueError(why.value.decode())

    def unpack(self, packed):
        text = ctypes.create_string_buffer(65)
        wrong = library.unpacker_unpack(self.at, packed.encode(), text)
        if wrong is not None:
            raise ValueError(wrong.decode())
        return text.value.decode()


def result(call, word):
    try:
        return call(word)
    except ValueError as error:
        return str(error)


def try_signals(unpacker):
    signals, wrong = [], 0
    signal.signal(signal.SIGALRM, lambda *_: signals.append(1))
    signal.setitimer(signal.ITIMER_REAL, 0.001, 0.001)
    while len(signals) < ENOUGH:
        wrong += result(unpacker.unpack, LONG) != "a"
    signal.setitimer(signal.ITIMER_REAL, 0)
    print("signals beside boxes: %d wrong" % wrong)


def try_fault():
    """What faulthandler says of a fault that isn't in a box, in another process."""
    done = subprocess.run([sys.executable, *sys.argv, "fault"], stderr=subprocess.PIPE, text=True)
    print("a fault of Python's own: %s, %s" % (done.stderr.partition("\n")[0], signal.Signals(-done.returncode).name))


def main():
    sys.stdout.reconfigure(line_buffering=True)
    unpacker = Unpacker(sys.argv[1])
    if sys.argv[2:] == ["fault"]:
        ctypes.string_at(0)
    for packed in ("3a1b10c", "99999999a", "1o1k"):
        print("%s: %s" % (packed, result(unpacker.unpack, packed)))
    try_signals(unpacker)
    try_fault()
    faulthandler.disable()
    faulthandler.enable()  # after the first module, which takes the signals of faults away from the library
    print("a box after another handler: %s" % result(Unpacker, sys.argv[1]))


main()
