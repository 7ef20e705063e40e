"""A process under ptrace(2): its stops, registers and memory. For Linux on x86-64."""
import contextlib
import ctypes
import functools
import os
import signal
import struct

# Requests, options and events of ptrace, as in linux/ptrace.h and sys/ptrace.h.
CONT, SINGLESTEP, GETREGS, SETREGS, DETACH, SEIZE, INTERRUPT = 7, 9, 12, 13, 17, 0x4206, 0x4207
EXITKILL, EVENT_STOP = 0x100000, 128

REGISTERS = ("r15 r14 r13 r12 rbp rbx r11 r10 r9 r8 rax rcx rdx rsi rdi orig_rax rip cs eflags rsp ss fs_base gs_base ds es fs gs").split()
WORDS = struct.Struct(f"<{len(REGISTERS)}Q")

libc = ctypes.CDLL(None, use_errno=True)
libc.ptrace.restype = ctypes.c_long
libc.ptrace.argtypes = [ctypes.c_long, ctypes.c_int, ctypes.c_void_p, ctypes.c_void_p]


class Gone(Exception):
    """The process has ended: by a status, or by a signal."""

    def __init__(self, status: int):
        super().__init__(status)
        self.code = os.WEXITSTATUS(status) if os.WIFEXITED(status) else None
        self.signal = os.WTERMSIG(status) if os.WIFSIGNALED(status) else None


def ptrace(request: int, pid: int, data: object = None) -> None:
    if libc.ptrace(request, pid, None, data) < 0:
        error = ctypes.get_errno()
        raise OSError(error, f"ptrace {request:#x}: {os.strerror(error)}")


class Stop:
    """Why the process has stopped: a signal that it is to get, or an interruption of ours."""

    def __init__(self, status: int):
        self.signal = os.WSTOPSIG(status)
        self.is_interruption = status >> 16 == EVENT_STOP


class Tracee:
    """A process that this one has started, and stops at each of its signals. It ends with this process."""

    def __init__(self, words: list[str], files: list[int]):
        reader, writer = os.pipe()
        self.pid = os.fork()
        if self.pid == 0:
            begin(words, files, reader, writer)
        os.close(reader)
        ptrace(SEIZE, self.pid, EXITKILL)
        os.close(writer)

    @functools.cached_property
    def memory(self) -> int:
        """That of the program which the process has become when this is first used."""
        return os.open(f"/proc/{self.pid}/mem", os.O_RDWR | os.O_CLOEXEC)

    def wait(self, flags: int = 0) -> Stop | None:
        """The next stop; with WNOHANG None if there is none yet."""
        pid, status = os.waitpid(self.pid, flags)
        if pid == 0:
            return None
        if not os.WIFSTOPPED(status):
            raise Gone(status)
        return Stop(status)

    def resume(self, number: int = 0, steps: bool = False) -> None:
        """Goes on, with a signal or 0, for one instruction or until something stops it."""
        ptrace(SINGLESTEP if steps else CONT, self.pid, number)

    def interrupt(self) -> None:
        ptrace(INTERRUPT, self.pid)

    def detach(self) -> None:
        ptrace(DETACH, self.pid)

    def kill(self) -> None:
        with contextlib.suppress(ProcessLookupError):
            os.kill(self.pid, signal.SIGKILL)

    def registers(self) -> dict[str, int]:
        room = ctypes.create_string_buffer(WORDS.size)
        ptrace(GETREGS, self.pid, ctypes.addressof(room))
        return dict(zip(REGISTERS, WORDS.unpack(room.raw)))

    def set_registers(self, values: dict[str, int]) -> None:
        room = ctypes.create_string_buffer(WORDS.pack(*[values[name] for name in REGISTERS]), WORDS.size)
        ptrace(SETREGS, self.pid, ctypes.addressof(room))

    def read(self, at: int, count: int) -> bytes:
        """Bytes of the process, as many as are there."""
        try:
            return os.pread(self.memory, count, at)
        except OSError:
            return b""

    def write(self, at: int, data: bytes) -> bool:
        """Whether they are written. This is possible in private memory that is read-only for the process itself."""
        try:
            return os.pwrite(self.memory, data, at) == len(data)
        except OSError:
            return False


def begin(words: list[str], files: list[int], reader: int, writer: int) -> None:
    """In the child: waits until it is traced, and becomes the program."""
    try:
        os.close(writer)
        os.read(reader, 1)
        for file in files:
            os.set_inheritable(file, True)
        os.execvp(words[0], words)
    except OSError as fault:
        os.write(2, f"nc-gdb: {words[0]}: {fault.strerror}\n".encode())
    finally:
        os._exit(127)
