"""The program in the box of an nc-run that is traced, with 32-bit registers and the addresses of its file."""
import os
import signal
import struct
import time
from typing import Callable, NamedTuple

from .tracing import Stop, Tracee

BREAKPOINT = b"\xcc"
BUNDLE, ZONE_END = 32, 0x10000
RETURN = 0x20  # the trampoline to which the first function returns
HOST_CODE = 0x33  # nc-run's own selector for code
NAMES = "rax rcx rdx rbx rsp rbp rsi rdi rip eflags cs ss ds es fs gs".split()  # in gdb's order for i386
FAULTS = {signal.SIGSEGV, signal.SIGBUS, signal.SIGILL, signal.SIGFPE}
NOT_FOR_IT = {signal.SIGINT, signal.SIGSTOP, signal.SIGTRAP}  # the first comes from the terminal, for the debugger
AGAIN = 0.02  # seconds until a program that is in a call of nc-run is interrupted again


class Places(NamedTuple):
    """What nc-run tells: linear addresses of code and data, the span of the code, the entry, and the end of the memory."""
    code: int
    data: int
    begin: int
    end: int
    entry: int
    memory: int


class Program:
    """Where it has stopped, and what there is then."""

    def __init__(self, tracee: Tracee, places: Places, is_wanted: Callable[[], bool]):
        """`is_wanted` waits until the process has stopped or the debugger has said something: whether that is to stop."""
        self.tracee, self.places = tracee, places
        self.saved: dict[int, bytes] = {}  # the code's own bytes below breakpoints
        self.pending = 0  # the signal of a fault, which nc-run hasn't got yet
        self.is_wanted = is_wanted

    def registers(self) -> list[int]:
        values = self.tracee.registers()
        return [values[name] & 0xFFFFFFFF for name in NAMES]

    def set_register(self, number: int, value: int) -> None:
        values = self.tracee.registers()
        values[NAMES[number]] = value
        self.tracee.set_registers(values)

    def is_code(self, at: int) -> bool:
        return at < ZONE_END or self.places.begin <= at < self.places.end

    def linear(self, at: int) -> int:
        """Where a byte is in nc-run. Code and data have addresses of their own; where both have one, it is that of the code."""
        return (self.places.code if self.is_code(at) else self.places.data) + at

    def pieces(self, at: int, count: int) -> list[tuple[int, int]]:
        """A range, in parts that lie on one side of each boundary between code and data."""
        cuts = [cut for cut in (ZONE_END, self.places.begin, self.places.end, self.places.memory) if at < cut < at + count]
        ends = sorted({at, *cuts, at + count})
        return [(begin, end - begin) for begin, end in zip(ends, ends[1:]) if begin < self.places.memory or self.is_code(begin)]

    def read(self, at: int, count: int) -> bytes:
        """Bytes of the program, as many as are there, without breakpoints."""
        data = bytearray()
        for begin, part in self.pieces(at, count):
            data += self.tracee.read(self.linear(begin), part)
            if len(data) < begin + part - at:
                break
        for place, own in self.saved.items():
            if at <= place < at + len(data):
                data[place - at:place - at + 1] = own
        return bytes(data)

    def write(self, at: int, data: bytes) -> bool:
        """Code isn't written: it was judged."""
        if at < ZONE_END or at + len(data) > self.places.memory or any(self.is_code(at + k) for k in range(len(data))):
            return False
        return self.tracee.write(self.places.data + at, data)

    def insert(self, at: int) -> bool:
        """Sets a breakpoint. Whether it is there; it can't be in live code."""
        own = self.tracee.read(self.linear(at), 1)
        if at in self.saved or not own or not self.is_code(at):
            return at in self.saved
        if not self.tracee.write(self.linear(at), BREAKPOINT):
            return False
        self.saved[at] = own
        return True

    def remove(self, at: int) -> bool:
        own = self.saved.pop(at, None)
        return own is not None and self.tracee.write(self.linear(at), own)

    # ---- Going on

    def is_inside(self) -> bool:
        return self.tracee.registers()["cs"] & 0xFFFF != HOST_CODE

    def go(self) -> int:
        """Goes on until the program stops, and returns the signal by which it has."""
        number, self.pending = self.pending, 0
        self.tracee.resume(number)
        while True:
            stop = self.next_stop()
            inside = self.is_inside()
            if inside and (stop.is_interruption or stop.signal == signal.SIGTRAP or stop.signal in FAULTS):
                return self.stopped(stop)
            if stop.is_interruption:
                self.tracee.resume()
                time.sleep(AGAIN)
                self.tracee.interrupt()
            else:
                self.tracee.resume(stop.signal if stop.signal not in NOT_FOR_IT else 0)

    def next_stop(self) -> Stop:
        """Waits for a stop, and for a debugger that wants one."""
        stop = self.tracee.wait(os.WNOHANG)
        while stop is None:
            if self.is_wanted():
                self.tracee.interrupt()
            stop = self.tracee.wait(os.WNOHANG)
        return stop

    def stopped(self, stop: Stop) -> int:
        values = self.tracee.registers()
        if stop.is_interruption:
            return signal.SIGINT
        if stop.signal in FAULTS:
            self.pending = stop.signal
        elif values["rip"] - 1 in self.saved:
            values["rip"] -= 1
            self.tracee.set_registers(values)
        return stop.signal

    def go_to(self, at: int) -> int:
        """Goes on until it is there, unless something else stops it before."""
        was_there = at in self.saved
        if not self.insert(at):
            return self.go()
        try:
            return self.go()
        finally:
            if not was_there:
                self.remove(at)

    def step(self) -> int:
        """One instruction. A call of nc-run is part of the one that leads to it, and a signal of nc-run's own comes first."""
        at = self.tracee.registers()["rip"]
        while self.pending == 0 and at >= ZONE_END:
            self.tracee.resume(steps=True)
            stop = self.tracee.wait()
            assert stop is not None
            if self.is_inside() and (stop.signal == signal.SIGTRAP or stop.signal in FAULTS):
                return self.stopped(stop) if self.tracee.registers()["rip"] >= ZONE_END else self.finish_call()
            self.pending = stop.signal if stop.signal not in NOT_FOR_IT else 0
            why = self.go_to(at)
            if self.tracee.registers()["rip"] != at:
                return why
        return self.go() if self.pending else self.finish_call()

    def finish_call(self) -> int:
        """Goes on from a trampoline to where the call returns, if it does."""
        values = self.tracee.registers()
        word = self.tracee.read(self.places.data + values["rsp"], 4)
        returns = values["rip"] != RETURN and len(word) == 4
        return self.go_to(struct.unpack("<I", word)[0] & -BUNDLE) if returns else self.go()

    def end(self) -> None:
        """Lets nc-run go on by itself."""
        for at in list(self.saved):
            self.remove(at)
        self.tracee.detach()
