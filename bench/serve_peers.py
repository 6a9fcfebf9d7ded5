"""Peers of the proxy that serves, over sockets: switches and controllers of OpenFlow 1.0.

    serve_peers.py pair LISTEN PORT         a healthy switch, of dpid 1, and a healthy controller at PORT
    serve_peers.py controller PORT PACE     a controller at PORT alone, which asks every so many seconds
    serve_peers.py switch HOST LISTEN DPID  a switch alone, until it is killed

The pair writes `up` once both are, and as its input ends what it saw: how many of its messages were answered, the 50th
and 99th percentile and the longest of the times that it took, how many were not, and what was closed on it. So does
the controller, which asks behind a line `go` of its input, rests behind another one, and answers each of these.
"""
import asyncio
import collections
import json
import os
import select
import socket
import sys
import threading
import time

from openflow import (ADD, BARRIER_REPLY, BARRIER_REQUEST, DELETE, ECHO_REPLY, ECHO_REQUEST, ERROR, FEATURES_REPLY,
                      FEATURES_REQUEST, FLOW_MOD, HELLO, SET_CONFIG, message, number)

# How often the healthy ones ask, in seconds.
PACE = 0.02


def add(xid, priority, port, source=None, target=None, passes=False):
    """An ADD for packets from and to addresses of IPv4, to a port or on to the right operand of `>>`."""
    wildcards = 0x3000ef | (0x2000 if source is None else 0) | (0x80000 if target is None else 0)
    ends = (source or 0).to_bytes(4, "big") + (target or 0).to_bytes(4, "big")
    match = wildcards.to_bytes(4, "big") + bytes(18) + b"\x08\0" + bytes(4) + ends + bytes(4)
    place = 0xfffa if passes else port
    action = bytes.fromhex("00000008") + place.to_bytes(2, "big") + bytes(2)
    body = match + xid.to_bytes(8, "big") + bytes(6) + priority.to_bytes(2, "big") + b"\xff" * 4 + b"\xff\xff\0\0"
    return message(FLOW_MOD, xid, body + action)


def features(dpid, xid):
    return message(FEATURES_REPLY, xid, dpid.to_bytes(8, "big") + bytes(16))


class Frames:
    """Cuts what comes into messages."""

    def __init__(self):
        self.kept = bytearray()

    def of(self, data):
        self.kept += data
        at, found = 0, []
        while len(self.kept) - at >= 8:
            length = max(8, number(self.kept, at + 2, at + 4))
            if len(self.kept) - at < length:
                break
            found.append(bytes(self.kept[at:at + length]))
            at += length
        del self.kept[:at]
        return found


class Peer(threading.Thread):
    """One end of a connection, which a thread hears until it ends."""

    def __init__(self, link):
        super().__init__(daemon=True)
        self.link, self.lock = link, threading.Lock()
        self.up, self.over, self.reads = threading.Event(), threading.Event(), threading.Event()
        self.why, self.ended, self.faults = None, None, []
        self.reads.set()
        self.start()

    def send(self, data):
        with self.lock:
            self.link.sendall(data)

    def run(self):
        frames = Frames()
        try:
            self.send(message(HELLO, 0))
            while self.reads.wait() and (data := self.link.recv(65536)):
                answers = b"".join(self.hear(frame) for frame in frames.of(data))
                if answers:
                    self.send(answers)
            self.why = "closed"
        except OSError as fault:
            self.why = str(fault)
        self.ended = time.monotonic()
        self.over.set()

    def close(self):
        """Ends the connection from this side."""
        try:
            self.link.shutdown(socket.SHUT_RDWR)
        except OSError:
            pass
        self.link.close()


class Switch(Peer):
    """A switch, with its table."""

    def __init__(self, listen, dpid, host="127.0.0.1"):
        self.dpid, self.entries, self.last, self.mods = dpid, {}, 0, 0
        self.begun = time.monotonic()
        super().__init__(socket.create_connection((host, listen), 10))

    def run(self):
        self.link.settimeout(None)
        super().run()

    def change(self, frame):
        key, command = (frame[8:48], frame[62:64]), number(frame, 56, 58)
        self.mods += 1
        if command == ADD:
            self.entries[key] = frame[72:]
        elif command == DELETE:
            self.entries.clear()
        elif self.entries.pop(key, None) is None:
            self.faults.append("a DELETE_STRICT of no entry")

    def hear(self, frame):
        kind, xid = frame[1], number(frame, 4, 8)
        if kind not in (HELLO, FEATURES_REQUEST, ECHO_REPLY) and (kind != ECHO_REQUEST or xid):
            self.last += 1
            if xid != self.last:
                self.faults.append(f"xid {xid} for {self.last}")
                self.last = xid
        if kind == SET_CONFIG and not self.up.is_set():
            self.upped = time.monotonic()
            self.up.set()
        if kind == FLOW_MOD:
            self.change(frame)
        return answer_of(frame, self.dpid)


def answer_of(frame, dpid):
    """What a switch answers."""
    kind, xid = frame[1], number(frame, 4, 8)
    if kind == FEATURES_REQUEST:
        return features(dpid, xid)
    if kind == BARRIER_REQUEST:
        return message(BARRIER_REPLY, xid)
    return message(ECHO_REPLY, xid, frame[8:]) if kind == ECHO_REQUEST else b""


class Controller(Peer):
    """A connection that a controller was given."""

    def __init__(self, link):
        self.answered, self.refused = set(), []
        super().__init__(link)

    def hear(self, frame):
        kind, xid = frame[1], number(frame, 4, 8)
        if kind == HELLO:
            self.up.set()
        elif kind in (BARRIER_REPLY, ECHO_REPLY):
            self.answered.add(xid)
        elif kind == ERROR:
            self.refused.append(xid)
        return message(ECHO_REPLY, xid, frame[8:]) if kind == ECHO_REQUEST else b""


class Office:
    """A controller's address: what becomes of each connection that comes."""

    def __init__(self, port, behaviour=Controller):
        self.server = socket.create_server(("127.0.0.1", port), backlog=64)
        self.behaviour, self.came, self.times, self.now = behaviour, 0, [], None
        self.arrived = threading.Condition()
        threading.Thread(target=self.accept, daemon=True).start()

    def accept(self):
        while True:
            try:
                link, _ = self.server.accept()
            except OSError:
                return
            made = self.behaviour(link)
            with self.arrived:
                self.came += 1
                self.times.append(time.monotonic())
                self.now = made
                self.arrived.notify_all()

    def peer(self, after=0, seconds=30):
        """The connection that comes behind so many."""
        with self.arrived:
            self.arrived.wait_for(lambda: self.came > after, seconds)
            return self.now if self.came > after and isinstance(self.now, Controller) else None

    def close(self):
        self.server.close()


def turn_away(link):
    link.close()


def greet_and_close(link):
    try:
        link.sendall(message(HELLO, 0))
        link.settimeout(1)
        link.recv(8)
    except OSError:
        pass
    link.close()


def closings(links, seconds, each=lambda link: None):
    """After how many seconds each was closed; `each` is done to all that are open once a second."""
    begun, times, turn = time.monotonic(), {}, 0
    open_ones = {link.fileno(): link for link in links}
    poll = select.poll()
    for number_of in open_ones:
        poll.register(number_of, select.POLLIN | select.POLLRDHUP)
    while open_ones and (spent := time.monotonic() - begun) < seconds:
        if spent >= turn:
            turn += 1
            for link in open_ones.values():
                each(link)
        for at, _ in poll.poll(50):
            if ended(open_ones[at]):
                times[at] = time.monotonic() - begun
                poll.unregister(at)
                del open_ones[at]
    return list(times.values())


def ended(link):
    try:
        return link.recv(65536) == b""
    except BlockingIOError:
        return False
    except OSError:
        return True


class Healthy:
    """A switch and a controller that ask and are answered."""

    def __init__(self, name):
        self.name, self.asked, self.times, self.lost = name, collections.OrderedDict(), [], []
        self.next = 1 << 20

    def take(self, frame):
        begun = self.asked.pop(frame[1:8], None)
        if begun is not None:
            self.times.append(time.monotonic() - begun)

    async def hear(self, reader, writer, answer):
        writer.write(message(HELLO, 0))
        try:
            while True:
                head = await reader.readexactly(8)
                frame = head + await reader.readexactly(number(head, 2, 4) - 8)
                self.take(frame)
                if answers := answer(frame):
                    writer.write(answers)
        except (OSError, asyncio.IncompleteReadError) as fault:
            self.lost.append(f"{self.name}: {type(fault).__name__}")
            writer.close()

    def ask(self, writer, kind, reply):
        self.next += 1
        asked = message(kind, self.next)
        self.asked[message(reply, self.next)[1:8]] = time.monotonic()
        writer.write(asked)

    async def talk(self, writer, barriers):
        turn = 0
        while not writer.is_closing():
            self.ask(writer, ECHO_REQUEST, ECHO_REPLY)
            if barriers and turn % 10 == 0:
                self.ask(writer, BARRIER_REQUEST, BARRIER_REPLY)
            turn += 1
            await asyncio.sleep(PACE)


async def pair(listen, port):
    switch, controller = Healthy("switch"), Healthy("controller")
    up = [asyncio.Event(), asyncio.Event()]
    talks = []

    def heard(frame):
        if frame[1] == SET_CONFIG:
            up[0].set()
        return answer_of(frame, 1)

    def greeted(frame):
        if frame[1] == HELLO:
            up[1].set()
        return message(ECHO_REPLY, number(frame, 4, 8), frame[8:]) if frame[1] == ECHO_REQUEST else b""

    async def come(reader, writer):
        talks.append(writer)
        await controller.hear(reader, writer, greeted)

    await asyncio.start_server(come, "127.0.0.1", port)
    for _ in range(200):
        try:
            reader, writer = await asyncio.open_connection("127.0.0.1", listen)
            break
        except OSError:
            await asyncio.sleep(0.1)
    asyncio.create_task(switch.hear(reader, writer, heard))
    await asyncio.gather(*(asyncio.wait_for(one.wait(), 60) for one in up))
    print("up", flush=True)
    tasks = [asyncio.create_task(switch.talk(writer, False)), asyncio.create_task(controller.talk(talks[0], True))]
    await asyncio.get_running_loop().run_in_executor(None, sys.stdin.read)
    for task in tasks:
        task.cancel()
    await asyncio.sleep(0.5)
    tell(switch, controller)
    # What is still heard needs no farewell.
    os._exit(0)


async def alone(port, pace):
    asker, up, goes, links = Healthy("controller"), asyncio.Event(), asyncio.Event(), []

    def greeted(frame):
        if frame[1] == HELLO:
            up.set()
        return message(ECHO_REPLY, number(frame, 4, 8), frame[8:]) if frame[1] == ECHO_REQUEST else b""

    async def come(reader, writer):
        links.append(writer)
        await asker.hear(reader, writer, greeted)

    async def talk():
        while await goes.wait() and not links[-1].is_closing():
            asker.ask(links[-1], ECHO_REQUEST, ECHO_REPLY)
            await asyncio.sleep(pace)

    server = await asyncio.start_server(come, "127.0.0.1", port)
    await asyncio.wait_for(up.wait(), 60)
    print("up", flush=True)
    talking = asyncio.create_task(talk())
    loop = asyncio.get_running_loop()
    while line := await loop.run_in_executor(None, sys.stdin.readline):
        goes.set() if line == "go\n" else goes.clear()
        for _ in range(0 if goes.is_set() else 1000):
            if asker.asked:
                await asyncio.sleep(0.01)
        print("done", flush=True)
    tell(asker)
    talking.cancel()
    server.close()
    os._exit(0)


def tell(*healthy):
    times = sorted(time for one in healthy for time in one.times)
    at = lambda part: round(1000 * times[min(len(times) - 1, int(part * len(times)))], 2) if times else None
    unanswered = sum(len(one.asked) for one in healthy)
    print(json.dumps({"count": len(times), "p50": at(0.5), "p99": at(0.99), "longest": at(1),
                      "unanswered": unanswered, "lost": [it for one in healthy for it in one.lost]}), flush=True)


def main():
    what, *words = sys.argv[1:]
    if what == "pair":
        asyncio.run(pair(int(words[0]), int(words[1])))
    elif what == "controller":
        asyncio.run(alone(int(words[0]), float(words[1])))
    else:
        switch = Switch(int(words[1]), int(words[2]), words[0])
        switch.up.wait()
        print("up", flush=True)
        switch.over.wait()


if __name__ == "__main__":
    main()
