"""Pipes that don't block and that nobody reads, and pipes of packets: how the replies to a script go into them."""

import fcntl
import os
import subprocess
import tempfile

# How many bytes a pipe holds, in pages, and how many of these are free at first. A write that follows others goes on in their last page
# if all of it fits there, and else begins another.
CAPACITY, PAGE = 65536, 4096
ROOMS = (96, 4096, 8192, 65536)

# Scripts for 64 bundles: of many short replies, and of replies that grow beyond a page.
SHORT = "recl\n" * 20000
GROWING = "".join("create %08x %s\ndump\n" % (0x10000 + 32 * i, "90" * 32) for i in range(60))

# A pipe that blocks takes all replies of the first script, and not in more than this many writes.
FEW = 100


class Pipe:
    """A pipe that doesn't block, with this many bytes free, and nothing that reads it."""

    def __init__(self, room):
        self.reader, self.writer = os.pipe()
        fcntl.fcntl(self.writer, fcntl.F_SETPIPE_SZ, CAPACITY)
        os.set_blocking(self.writer, False)
        self.filled = CAPACITY - room
        whole, rest = divmod(self.filled, PAGE)
        for size in [PAGE] * whole + [rest]:
            os.write(self.writer, bytes(size))

    def taken(self):
        """What was written into it since; it is closed then."""
        os.close(self.writer)
        with os.fdopen(self.reader, "rb") as file:
            return file.read()[self.filled:]


def each_by_itself(replies, room):
    """What such a pipe takes where each reply is a write of its own, with further writes for what is left of it."""
    pipe = Pipe(room)
    try:
        for reply in replies:
            while reply:
                reply = reply[os.write(pipe.writer, reply):]
    except BlockingIOError:
        pass
    return pipe.taken()


def replayed(preload, program, script, output):
    """Runs a script with its replies to this file; what it says of faults, its status, and how many writes it made."""
    with tempfile.TemporaryFile() as report:
        environment = {**os.environ, "LD_PRELOAD": preload, "WRITES_REPORT": str(report.fileno())}
        done = subprocess.run([program, "replay", "--bundles", "64", "--seats", "1"], input=script.encode(), stdout=output,
                              stderr=subprocess.PIPE, timeout=60, pass_fds=[report.fileno()], env=environment)
        return done.stderr.decode(), done.returncode, os.fstat(report.fileno()).st_size


def are_packets(preload, program):
    """Whether each reply is a packet of its own in a pipe of packets."""
    reader, writer = os.pipe2(os.O_DIRECT)
    ended = replayed(preload, program, "recl\n" * 12, writer)[:2]
    os.close(writer)
    packets = [*iter(lambda: os.read(reader, PAGE), b"")]
    os.close(reader)
    return ended == ("", 0) and packets == [b"bad line\n"] * 12


def slips(preload: str, program: str) -> int:
    """The number of cases that go wrong."""
    wrong = 0
    if not are_packets(preload, program):
        wrong += 1
        print("a pipe of packets: a packet isn't one reply")
    for script in (SHORT, GROWING):
        with tempfile.TemporaryFile() as file:
            said, status, writes = replayed(preload, program, script, file)
            file.seek(0)
            owed = file.read()
        if (said, status) != ("", 0) or script == SHORT and writes > FEW:
            wrong += 1
            print("%d lines to a file: %r, status %d, %d writes" % (script.count("\n"), said, status, writes))
        replies = owed.splitlines(keepends=True)
        for room in ROOMS:
            least = each_by_itself(replies, room)
            pipe = Pipe(room)
            said, status, _ = replayed(preload, program, script, pipe.writer)
            found = pipe.taken()
            if (said, status) != ("nc_replay: write failed\n", 1) or len(found) < len(least) or not owed.startswith(found):
                wrong += 1
                print("a pipe with %d bytes free: %d bytes in place of %d, %r, status %d" % (room, len(found), len(least), said, status))
    return wrong
