"""Runs a program, counts its requests for memory, and refuses one of them. It needs nothing but Linux on x86-64: this process
traces the program (ptrace(2)). Once its libraries are loaded, the addresses by which it calls `malloc` and `realloc` are replaced by
some at which nothing is. So each of these calls stops it, and this process sends it on to the function, or back with a null pointer.
After a refusal it runs alone."""
import ctypes
import dataclasses
import functools
import os
import signal
import struct
import subprocess
import sys
import tempfile
from pathlib import Path

ROOT = Path(__file__).resolve().parent.parent.parent
sys.path.append(str(ROOT / "scripts/lib"))
from elf import Program
from no_memory import ENVIRONMENT

TRACE_ME, CONTINUE, GET_REGISTERS, SET_REGISTERS, DETACH, SET_OPTIONS = 0, 7, 12, 13, 17, 0x4200
# the program ends with this process
EXIT_KILL = 0x100000
# of struct user_regs_struct: how many, and which
REGISTERS, RESULT, INSTRUCTION, STACK = 27, 10, 16, 19
# where a process begins to run, in /proc/PID/auxv
ENTRY = 9
BREAKPOINT = b"\xcc"
# what a program calls for memory, and other ways to it, which none of ours has
REQUESTS = ("malloc", "realloc")
OTHERS = {"calloc", "reallocarray", "memalign", "aligned_alloc", "posix_memalign", "valloc", "mmap", "brk", "sbrk"}
# the addresses that stand for these calls: no process has anything there
NOWHERE = 1
# seconds that a run may take
LIMIT = 120
# each block has pages of its own, which are gone once it is given back, and no byte of it is 0 unless that was written: a program that
# uses what it has not got stops, or writes something else
STRICT = {**ENVIRONMENT, "GLIBC_TUNABLES": ENVIRONMENT["GLIBC_TUNABLES"] + ":glibc.malloc.perturb=165"}

libc = ctypes.CDLL(None, use_errno=True)
libc.ptrace.restype = ctypes.c_long
libc.ptrace.argtypes = ctypes.c_long, ctypes.c_long, ctypes.c_void_p, ctypes.c_void_p


def ptrace(request, process=0, data=None):
    if libc.ptrace(request, process, None, data) == -1:
        raise OSError(ctypes.get_errno(), f"ptrace: {os.strerror(ctypes.get_errno())}")


@functools.cache
def places_of(path):
    """Where this program begins to run, and where it has the addresses of the functions that it asks for memory."""
    program = Program(path)
    slots = program.slots()
    if OTHERS & slots.keys() or "malloc" not in slots:
        raise OSError(0, f"{path} asks for memory in another way than by {' and '.join(REQUESTS)}")
    return program.entry(), [slots[name] for name in REQUESTS if name in slots]


@dataclasses.dataclass
class Outcome:
    """What a run wrote, its status, and how many requests it made up to the one that was refused, or in all."""

    output: str
    stderr: str
    status: int
    requests: int


class Traced:
    """A program that has its libraries and has not begun to run."""

    def __init__(self, command, **how):
        first, slots = places_of(Path(command[0]))
        self.registers = (ctypes.c_ulonglong * REGISTERS)()
        self.process = subprocess.Popen(command, preexec_fn=functools.partial(ptrace, TRACE_ME), env=STRICT, **how)
        self.number, self.status = self.process.pid, None
        self.wait()
        ptrace(SET_OPTIONS, self.number, EXIT_KILL)
        with open(f"/proc/{self.number}/auxv", "rb") as file:
            entry = dict(struct.iter_unpack("QQ", file.read()))[ENTRY]
        self.run_to(entry)
        # each address, and where it stands
        places = [entry - first + slot for slot in slots]
        self.slots = {place: self.read(place) for place in places}
        self.functions = list(self.slots.values())
        for index, place in enumerate(places):
            self.write(place, NOWHERE + index)

    def run_to(self, address):
        with open(f"/proc/{self.number}/mem", "r+b", buffering=0) as memory:
            memory.seek(address)
            before = memory.read(1)
            memory.seek(address)
            memory.write(BREAKPOINT)
            if self.go_on() != signal.SIGTRAP:
                raise OSError(0, f"{self.process.args[0]} did not begin to run")
            memory.seek(address)
            memory.write(before)
        self.get()
        self.registers[INSTRUCTION] = address
        self.set()

    def read(self, address):
        with open(f"/proc/{self.number}/mem", "rb", buffering=0) as memory:
            memory.seek(address)
            return int.from_bytes(memory.read(8), "little")

    def write(self, address, value):
        with open(f"/proc/{self.number}/mem", "r+b", buffering=0) as memory:
            memory.seek(address)
            memory.write(value.to_bytes(8, "little"))

    def get(self):
        ptrace(GET_REGISTERS, self.number, ctypes.byref(self.registers))

    def set(self):
        ptrace(SET_REGISTERS, self.number, ctypes.byref(self.registers))

    def wait(self):
        """Waits until it stops or has ended. Returns the signal that stopped it."""
        _, status = os.waitpid(self.number, 0)
        if os.WIFSTOPPED(status):
            return os.WSTOPSIG(status)
        self.status = self.process.returncode = os.waitstatus_to_exitcode(status)
        return None

    def go_on(self, received=0):
        ptrace(CONTINUE, self.number, received)
        return self.wait()

    def requested(self, received):
        """Which function it wants to call for memory, as an index, where it is stopped for that."""
        if received != signal.SIGSEGV:
            return None
        self.get()
        index = self.registers[INSTRUCTION] - NOWHERE
        return index if 0 <= index < len(self.functions) else None

    def refuse(self):
        """Has this request return a null pointer, and lets the program run alone from now on."""
        self.registers[RESULT] = 0
        self.registers[INSTRUCTION] = self.read(self.registers[STACK])
        self.registers[STACK] += 8
        self.set()
        for place, function in self.slots.items():
            self.write(place, function)
        ptrace(DETACH, self.number)
        self.wait()

    def run(self, refused):
        """Lets it run to its end, and returns how many requests it made up to the one with this number, or in all."""
        received, count = self.go_on(), 0
        while self.status is None:
            index = self.requested(received)
            if index is None:
                received = self.go_on(received)
                continue
            count += 1
            if count == refused:
                self.refuse()
                break
            self.registers[INSTRUCTION] = self.functions[index]
            self.set()
            received = self.go_on()
        return count


def run(command, refused=0, given=b"", **how):
    """What comes of a program whose request of this number is refused, from 1 on, or where it is 0, none."""
    with tempfile.TemporaryFile() as lines, tempfile.TemporaryFile() as output, tempfile.TemporaryFile() as stderr:
        lines.write(given)
        lines.seek(0)
        traced = Traced(command, stdin=lines, stdout=output, stderr=stderr, **how)
        signal.signal(signal.SIGALRM, lambda *_: os.kill(traced.number, signal.SIGKILL))
        signal.alarm(LIMIT)
        count = traced.run(refused)
        signal.alarm(0)
        texts = []
        for file in output, stderr:
            file.seek(0)
            texts.append(file.read().decode(errors="replace"))
        return Outcome(*texts, traced.status, count)
