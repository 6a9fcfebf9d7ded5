"""A replay that is fed line by line, with switches that answer what it puts them."""
import fcntl
import os
import select
import subprocess
import sys
import time

from openflow import (ADD, BARRIER_REPLY, BARRIER_REQUEST, DELETE, DELETE_STRICT, ECHO_REPLY, ECHO_REQUEST, FLOW_MOD,
                      FLOW_STATS, STATS_REPLY, STATS_REQUEST, flow_parts, flow_removed, message, number)

TOP = os.path.dirname(os.path.dirname(os.path.abspath(__file__)))
# What a switch may hold back: that barriers are passed, that entries were removed, and numbers that were asked for.
BARRIERS, REMOVALS, NUMBERS = "barriers", "removals", "numbers"
PIPE = 1 << 20


def proved():
    """The path of the proved program; where it isn't kept it is proved first."""
    asked = subprocess.run([os.path.join(TOP, "covisor"), "--proved", "--path"], check=True, stdout=subprocess.PIPE)
    return asked.stdout.decode().strip()


class Switch:
    """Answers barriers and requests for its entries, and tells the removals of those that it is told to delete, with no
    packets. What it holds back isn't told."""

    def __init__(self):
        self.entries, self.told, self.holds, self.held = {}, 0, set(), []

    def hear(self, frame):
        """What it answers at once."""
        self.told += 1
        what, answers = self.answer(frame)
        if what in self.holds:
            self.held += answers
            return []
        return answers

    def answer(self, frame):
        kind, xid = frame[1], number(frame, 4, 8)
        if kind == BARRIER_REQUEST:
            return BARRIERS, [message(BARRIER_REPLY, xid)]
        if kind == FLOW_MOD:
            return REMOVALS, self.change(frame)
        if kind != STATS_REQUEST:
            return None, []
        if number(frame, 8, 10) == FLOW_STATS:
            return NUMBERS, flow_parts(xid, [(*key, *value) for key, value in self.entries.items()])
        return NUMBERS, [message(STATS_REPLY, xid, frame[8:10] + bytes(2))]

    def change(self, frame):
        key, command = (frame[8:48], frame[62:64]), number(frame, 56, 58)
        if command == ADD:
            self.entries[key] = frame[48:56], frame[72:]
        elif command == DELETE:
            self.entries.clear()
        elif command == DELETE_STRICT and key in self.entries:
            return [flow_removed(key[0], self.entries.pop(key)[0], key[1])]
        return []


def from_line(name, frame):
    return b"from " + name + b" " + frame.hex().encode()


class Fed:
    """A replay that is fed. Its lines are of bytes, as its names are."""

    def __init__(self, command, names, member):
        self.ran = subprocess.Popen(command, stdin=subprocess.PIPE, stdout=subprocess.PIPE, bufsize=0)
        self.into, self.out = self.ran.stdin.fileno(), self.ran.stdout.fileno()
        for end in (self.into, self.out):
            fcntl.fcntl(end, fcntl.F_SETPIPE_SZ, PIPE)
        os.set_blocking(self.into, False)
        self.switches = {name: Switch() for name in names}
        self.member, self.mark, self.audit = member, 0, []

    def exchange(self, lines):
        """Feeds lines and an ECHO_REQUEST behind them, and returns all that is told until that is answered."""
        self.mark += 1
        asked = message(ECHO_REQUEST, self.mark, b"the mark")
        end = b"to " + self.member + b" " + message(ECHO_REPLY, self.mark, b"the mark").hex().encode() + b"\n"
        data = memoryview(b"".join(line + b"\n" for line in [*lines, from_line(self.member, asked)]))
        told = bytearray()
        while not told.endswith(end):
            ready = select.select([self.out], [self.into] if data else [], [])
            try:
                if ready[1]:
                    data = data[os.write(self.into, data):]
            except BrokenPipeError:
                data = None
            if ready[0]:
                piece = os.read(self.out, PIPE)
                if not piece:
                    sys.exit(f"the program ended with status {self.ran.wait()}: {bytes(told[-200:])}")
                told += piece
        return told

    def hear(self, told):
        """Hands the switches what they were told, and returns the lines of what they answer."""
        answers = []
        for line in bytes(told).splitlines():
            word, name, *rest = line.split(b" ")
            if word != b"to":
                self.audit.append(line)
            elif name in self.switches:
                frames = self.switches[name].hear(bytes.fromhex(rest[0].decode()))
                answers += [from_line(name, frame) for frame in frames]
        return answers

    def settle(self, lines=()):
        """Feeds lines, and what the switches answer, until they answer nothing more."""
        lines = self.hear(self.exchange(lines))
        while lines:
            lines = self.hear(self.exchange(lines))

    def spent(self):
        """Seconds of the processor that the program has taken, once it waits for more."""
        folder = f"/proc/{self.ran.pid}/task"
        while True:
            with open(f"/proc/{self.ran.pid}/stat") as file:
                if file.read().rpartition(") ")[2][0] == "S":
                    break
            time.sleep(0.0002)
        total = 0
        for task in os.listdir(folder):
            with open(f"{folder}/{task}/schedstat") as file:
                total += int(file.read().split()[0])
        return total / 1e9

    def timed(self, lines):
        """Feeds lines and settles; what the processor spent on these lines alone."""
        begun = self.spent()
        told = self.exchange(lines)
        spent = self.spent() - begun
        self.settle(self.hear(told))
        return spent

    def slowest(self, lines):
        """Feeds lines one by one and settles; the longest elapsed seconds until one was done."""
        longest, told = 0, []
        for line in lines:
            begun = time.monotonic()
            told.append(self.exchange([line]))
            longest = max(longest, time.monotonic() - begun)
        self.settle([answer for one in told for answer in self.hear(one)])
        return longest

    def hold(self, *what):
        """From here on the switches hold these back."""
        for switch in self.switches.values():
            switch.holds = set(what)

    def held(self):
        """The lines of what was held back, which is held no more."""
        lines = []
        for name, switch in self.switches.items():
            lines += [from_line(name, frame) for frame in switch.held]
            switch.held, switch.holds = [], set()
        return lines

    def resident(self):
        """Its memory, in KiB."""
        with open(f"/proc/{self.ran.pid}/status", encoding="ascii") as file:
            return int(next(line for line in file if line.startswith("VmRSS:")).split()[1])

    def end(self):
        self.ran.stdin.close()
        while os.read(self.out, PIPE):
            pass
        return self.ran.wait()
