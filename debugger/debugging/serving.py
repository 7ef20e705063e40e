"""The remote protocol of gdb, as its manual has it in "Remote Protocol", for one program of an i386 without an operating system."""
import contextlib
import select
import signal
import socket
import struct
from typing import Callable

from .program import Program
from .tracing import Gone

MOST = 0x4000  # bytes of a packet
INTERRUPT = b"\x03"
FEATURES = f"PacketSize={MOST:x};QStartNoAckMode+;swbreak+;vContSupported+"
# The numbers of signals in the protocol, where they aren't those of Linux.
OF_GDB = {signal.SIGBUS: 10}
FIXED = {
    "H": "OK", "T": "OK", "QStartNoAckMode": "OK", "qC": "QC1", "qfThreadInfo": "m1", "qsThreadInfo": "l", "qAttached": "0",
    "vCont?": "vCont;c;C;s;S", "qSupported": FEATURES,
}


class Left(Exception):
    """The debugger has gone, or wants no more."""


class Line:
    """The connection, in packets."""

    def __init__(self, connection: socket.socket, wake: socket.socket):
        self.connection, self.wake, self.rest, self.acknowledges = connection, wake, b"", True

    def more(self) -> None:
        data = self.connection.recv(MOST)
        if not data:
            raise Left
        self.rest += data

    def is_wanted(self) -> bool:
        """Waits for the debugger, or for a signal that says that the process has stopped. Whether the debugger wants it to stop."""
        ready, _, _ = select.select([self.connection, self.wake], [], [])
        if self.wake in ready:
            self.wake.recv(MOST)
        if self.connection in ready:
            self.more()
        had = INTERRUPT in self.rest
        self.rest = self.rest.replace(INTERRUPT, b"")
        return had

    def packet(self) -> str:
        """The next one: what is between $ and #."""
        while True:
            begin, end = self.rest.find(b"$"), self.rest.find(b"#")
            if 0 <= begin < end and len(self.rest) >= end + 3:
                break
            self.more()
        text, self.rest = self.rest[begin + 1:end], self.rest[end + 3:]
        if self.acknowledges:
            self.connection.sendall(b"+")
        return text.decode("latin-1")

    def send(self, text: str) -> None:
        data = text.encode("latin-1")
        self.connection.sendall(b"$%s#%02x" % (data, sum(data) % 256))


def stop_reply(number: int) -> str:
    return f"S{OF_GDB.get(signal.Signals(number), number):02x}"


def number(text: str) -> int:
    return int(text, 16)


def memory(program: Program, words: str) -> str:
    at, count = map(number, words.split(","))
    data = program.read(at, min(count, MOST // 2))
    return data.hex() if data or count == 0 else "E0e"


def store(program: Program, words: str) -> str:
    place, _, digits = words.partition(":")
    return "OK" if program.write(number(place.split(",")[0]), bytes.fromhex(digits)) else "E0e"


def registers(program: Program, _: str) -> str:
    return struct.pack("<16I", *program.registers()).hex()


def set_registers(program: Program, digits: str) -> str:
    for index, value in enumerate(struct.unpack("<10I", bytes.fromhex(digits)[:40])):
        program.set_register(index, value)
    return "OK"


def set_register(program: Program, words: str) -> str:
    name, _, digits = words.partition("=")
    if number(name) >= 10:  # the selectors stay
        return "E0e"
    program.set_register(number(name), struct.unpack("<I", bytes.fromhex(digits))[0])
    return "OK"


def insert(program: Program, words: str) -> str:
    kind, at, _ = words.split(",")
    return "" if kind != "0" else "OK" if program.insert(number(at)) else "E0e"


def remove(program: Program, words: str) -> str:
    kind, at, _ = words.split(",")
    return "" if kind != "0" else "OK" if program.remove(number(at)) else "E0e"


def go_on(program: Program, words: str) -> str:
    """The actions of vCont. A signal that comes with one is that of the fault, which the program gets in any case."""
    return stop_reply(program.step() if words[:1] in ("s", "S") else program.go())


def kill(program: Program, _: str) -> str:
    program.tracee.kill()
    return "OK"


def detach(program: Program, _: str) -> str:
    program.end()
    return "OK"


# What packets begin with, the longest first.
REQUESTS: list[tuple[str, Callable[[Program, str], str]]] = [
    ("vCont;", go_on), ("vKill", kill), ("c", lambda program, _: go_on(program, "c")), ("s", lambda program, _: go_on(program, "s")),
    ("C", lambda program, _: go_on(program, "c")), ("S", lambda program, _: go_on(program, "s")), ("Z", insert), ("z", remove),
    ("m", memory), ("M", store), ("g", registers), ("G", set_registers), ("P", set_register), ("k", kill), ("D", detach),
]


def replied(program: Program, packet: str) -> str:
    """What is answered; nothing for what isn't known."""
    if packet == "?":
        return stop_reply(signal.SIGTRAP)
    for begin, text in FIXED.items():
        if packet.startswith(begin):
            return text
    for begin, request in REQUESTS:
        if packet.startswith(begin):
            try:
                return request(program, packet[len(begin):])
            except (ValueError, struct.error):
                return "E16"
    return ""


def serve(line: Line, program: Program) -> Gone | None:
    """Until the program or the debugger has ended. How the program has, if it has."""
    with contextlib.suppress(Left, ConnectionError):
        while True:
            packet = line.packet()
            try:
                line.send(replied(program, packet))
            except Gone as gone:
                line.send(f"X{gone.signal:02x}" if gone.code is None else f"W{gone.code:02x}")
                return gone
            if packet == "QStartNoAckMode":
                line.acknowledges = False
            if packet.startswith("D"):
                return None
    return None
