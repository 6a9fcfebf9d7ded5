"""The proxy that serves, as a measure starts, watches and ends it."""
import os
import re
import signal
import socket
import subprocess
import sys
import threading
import time

TOP = os.path.dirname(os.path.dirname(os.path.abspath(__file__)))


def proved():
    """What serves by the proved program. Where that isn't kept it is proved here, and not while others wait."""
    command = os.path.join(TOP, "covisor")
    subprocess.run([command, "--proved", "--path"], check=True, stdout=subprocess.DEVNULL)
    return [command, "--proved", "serve"]


def leaves_nothing():
    """From here on a signal ends the measure as an interrupt does, so that what it started is ended too."""
    signal.signal(signal.SIGTERM, lambda *_: sys.exit(1))


def free_ports(count):
    held = [socket.create_server(("127.0.0.1", 0)) for _ in range(count)]
    ports = [one.getsockname()[1] for one in held]
    for one in held:
        one.close()
    return ports


class Proxy:
    """A proxy over a policy, or whatever else stands in its place, whose output is kept."""

    def __init__(self, command, folder, policy=None):
        if policy is not None:
            command = [*command, os.path.join(folder, "policy.toml")]
            with open(command[-1], "w", encoding="ascii") as file:
                file.write(policy)
        self.ran = subprocess.Popen(command, stdin=subprocess.DEVNULL, stdout=subprocess.PIPE,
                                    stderr=subprocess.STDOUT, text=True, start_new_session=True)
        self.lines = []
        threading.Thread(target=self.keep, daemon=True).start()

    def keep(self):
        for line in self.ran.stdout:
            self.lines.append(line.rstrip("\n"))

    def said(self, pattern):
        """Those of its lines that match."""
        return [line for line in list(self.lines) if re.search(pattern, line)]

    def spent(self):
        """Seconds of the processor that its threads have taken."""
        total = 0
        for name in filter(str.isdigit, os.listdir("/proc")):
            try:
                if os.getsid(int(name)) != self.ran.pid:
                    continue
                for task in os.listdir(f"/proc/{name}/task"):
                    with open(f"/proc/{name}/task/{task}/schedstat", encoding="ascii") as file:
                        total += int(file.read().split()[0])
            except OSError:
                pass
        return total / 1e9

    def stop(self):
        if self.ran.poll() is None:
            os.killpg(self.ran.pid, signal.SIGKILL)
        self.ran.wait()


def within(limit, holds, pause=0.005):
    """Whether it holds within so many seconds."""
    begun = time.monotonic()
    while not holds():
        if time.monotonic() - begun > limit:
            return False
        time.sleep(pause)
    return True
