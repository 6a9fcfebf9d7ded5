"""A program that runs with a stop in front of some of its functions, by ptrace (Linux on x86-64)."""
import ctypes
import os
import re
import signal
import subprocess

CONTINUE, TRACE_ME, GET_REGISTERS, SET_REGISTERS, SET_OPTIONS = 7, 0, 12, 13, 0x4200
FOLLOW_THREADS, END_WITH_US = 0x8, 0x100000
SAME_ADDRESSES, ALL_THREADS = 0x0040000, 0x40000000
STOP = b"\xcc"

LIBC = ctypes.CDLL(None, use_errno=True)
LIBC.ptrace.restype = ctypes.c_long
LIBC.ptrace.argtypes = [ctypes.c_long, ctypes.c_long, ctypes.c_void_p, ctypes.c_void_p]


class Registers(ctypes.Structure):
    NAMES = "r15 r14 r13 r12 rbp rbx r11 r10 r9 r8 rax rcx rdx rsi rdi orig_rax rip cs eflags rsp ss"
    _fields_ = [(it, ctypes.c_ulonglong) for it in f"{NAMES} fs_base gs_base ds es fs gs".split()]


def symbols(program):
    """Returns the names of a program's functions by where they begin."""
    told = subprocess.run(["nm", program], stdout=subprocess.PIPE, check=True, text=True).stdout
    return {int(at, 16): name for at, name in re.findall(r"^([0-9a-f]+) [tT] (.*)$", told, re.M)}


def begin(program, words, script):
    """Becomes the program, traced, with a script as its input and without output."""
    LIBC.personality(SAME_ADDRESSES)
    os.dup2(os.open(script, os.O_RDONLY), 0)
    os.dup2(os.open(os.devnull, os.O_WRONLY), 1)
    LIBC.ptrace(TRACE_ME, 0, None, None)
    # (the check for leaks traces the program itself)
    os.execve(program, [program, *words], {**os.environ, "ASAN_OPTIONS": "detect_leaks=0"})


class Traced:
    """A program that was begun, and hasn't run yet."""

    def __init__(self, program, words, script):
        self.pid = os.fork()
        if not self.pid:
            try:
                begin(program, words, script)
            finally:
                os._exit(127)
        os.waitpid(self.pid, 0)
        LIBC.ptrace(SET_OPTIONS, self.pid, None, FOLLOW_THREADS | END_WITH_US)
        with open(f"/proc/{self.pid}/maps", encoding="utf-8") as file:
            self.base = int(file.readline().partition("-")[0], 16)
        self.memory = open(f"/proc/{self.pid}/mem", "r+b", buffering=0)
        self.lifted, self.stands_at = {}, None

    def read(self, at, count):
        self.memory.seek(at)
        return self.memory.read(count)

    def write(self, at, data):
        self.memory.seek(at)
        self.memory.write(data)

    def stop_at(self, places):
        """Has the program stop at places, once each, but where it stands."""
        for at in places:
            there = self.read(at, 1)
            if there != STOP and at != self.stands_at:
                self.lifted[at] = there
                self.write(at, STOP)

    def stops(self):
        """Runs the program, and gives each place where it stops, and where the function that begins there returns."""
        LIBC.ptrace(CONTINUE, self.pid, None, None)
        while True:
            thread, status = os.waitpid(-1, ALL_THREADS)
            if os.WIFSTOPPED(status):
                given, event = os.WSTOPSIG(status), status >> 16
                if given == signal.SIGTRAP and not event:
                    given = 0
                    yield from self.stopped(thread)
                LIBC.ptrace(CONTINUE, thread, None, None if event or given == signal.SIGSTOP else given)
            elif thread == self.pid:
                break

    def stopped(self, thread):
        now = Registers()
        LIBC.ptrace(GET_REGISTERS, thread, None, ctypes.byref(now))
        at = now.rip - 1
        # (another thread may have met the same stop and lifted it)
        if at in self.lifted:
            now.rip = at
            LIBC.ptrace(SET_REGISTERS, thread, None, ctypes.byref(now))
            if self.read(at, 1) == STOP:
                self.write(at, self.lifted[at])
                self.stands_at = at
                yield at, int.from_bytes(self.read(now.rsp, 8), "little")

    def end(self):
        """Ends the program, if it still runs."""
        try:
            os.kill(self.pid, signal.SIGKILL)
            os.waitpid(self.pid, 0)
        except (ProcessLookupError, ChildProcessError):
            pass
