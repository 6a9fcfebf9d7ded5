"""Policies that are made for bench/machine_run, of so many members and switches, and what a replay of them is fed."""
import os
import sys

from machine_fed import BARRIERS, REMOVALS, Fed, from_line
from openflow import (ADD, BARRIER_REQUEST, DELETE, DELETE_STRICT, MODIFY_STRICT, PACKET_SOURCE, SEND_FLOW_REM,
                      flow_mod, message, output, packet_to)

# The port of a virtual switch that is an end of a link.
LINK = 9
# Where a virtual switch has a switch to itself it has so many ports, else two.
PORTS = 60
LEVELS = 4
# How much room a member's table has above the entries that are measured, at most.
SPARE = 64
# How entries look: all alike, of 64 shapes of match, or beside links.
PLAIN, SHAPES, LINKED = "plain", "shapes", "linked"


class Member:
    """A member, the first or the second of its virtual switch, and the messages that it sends."""

    def __init__(self, number, virtual, side, form):
        self.controller, self.virtual, self.side, self.form = f"c{number}", f"v{virtual}", side, form
        self.name = f"{self.controller}@{self.virtual}".encode()
        self.turns = {}

    def line(self, frame):
        return from_line(self.name, frame)

    def address(self, place):
        return (10 + self.side << 24) + (place << 8)

    def fields(self, place):
        """A match that no other entry has; at most 65,536 of them, no two of which overlap."""
        shape = place % 64 if self.form == SHAPES else 0
        fields = {"dl_type": 0x800, "nw_dst": (self.address(place), 32 - shape % 8)}
        if self.form == SHAPES:
            fields["nw_src"] = (PACKET_SOURCE >> shape // 8 << shape // 8, 32 - shape // 8)
        return fields

    def port(self, place):
        """Where this entry sends to."""
        return 1 + (place + self.turns.get(place, 0)) % 2

    def change(self, command, place, **further):
        """A FLOW_MOD of the entry of this number. Each MODIFY_STRICT gives it its other port."""
        if command == MODIFY_STRICT:
            self.turns[place] = 1 - self.turns.get(place, 0)
        actions = b"" if command == DELETE_STRICT else output(self.port(place))
        return self.line(flow_mod(command, place, self.fields(place), 100 + place % LEVELS, actions, **further))

    def adds(self, places, **further):
        return [self.change(ADD, place, **further) for place in places]

    def deletes(self, places):
        return [self.change(DELETE_STRICT, place) for place in places]

    def delete_all(self):
        return self.line(flow_mod(DELETE, 0, {}))

    def packet(self, place):
        """A packet that this entry holds."""
        return packet_to(self.address(place))


class Layout:
    """Which members share a virtual switch, and which of these a switch. With links each of two joined ones has a
    member at least; else two members share one where there are two."""

    def __init__(self, members, switches, form):
        each = 1 if form == LINKED and members < 4 else 2
        count = (members + each - 1) // each
        if form == LINKED and count % 2:
            sys.exit("packet_out_link wants 2 members, or a multiple of 4")
        self.form, self.switches = form, switches
        self.members = [Member(at, at // each, at % each, form) for at in range(members)]
        # The switch of each virtual switch, and the first of its ports there.
        self.places = []
        for virtual in range(count):
            switch = (virtual // 2 if form == LINKED else virtual) % switches
            self.places.append((switch, 1 + 2 * sum(1 for it, _ in self.places if it == switch)))

    def members_of(self, virtual):
        return [it for it in self.members if it.virtual == f"v{virtual}"]

    def is_shared(self, switch):
        return self.form == LINKED or sum(1 for it, _ in self.places if it == switch) > 1

    def ports(self, switch):
        held = sum(1 for it, _ in self.places if it == switch)
        return 2 * held if self.is_shared(switch) else PORTS if held else 1

    def text(self):
        """The policy file."""
        text = [f'version = 1\nhops = {2 if self.form == LINKED else 1}']
        for switch in range(self.switches):
            text.append(f'[[switch]]\nname = "s{switch}"\ndpid = "{switch + 1:016x}"\n'
                        f"ports = {list(range(1, self.ports(switch) + 1))}")
        for virtual, (switch, first) in enumerate(self.places):
            count = 2 if self.is_shared(switch) else PORTS
            ports = [f"{at + 1}=s{switch}:{first + at}" for at in range(count)]
            ports += [f"{LINK}=link"] if self.form == LINKED else []
            expr = (" |> " if self.form == LINKED else " + ").join(it.controller for it in self.members_of(virtual))
            text.append(f'[[virtual]]\nname = "v{virtual}"\ndpid = "{160 + virtual:016x}"\nexpr = "{expr}"\n'
                        f"ports = {ports}".replace("'", '"'))
        for virtual in range(0, len(self.places), 2) if self.form == LINKED else ():
            text.append(f'[[link]]\na = "v{virtual}:{LINK}"\nb = "v{virtual + 1}:{LINK}"')
        for it in self.members:
            kinds = '"output", "link"' if self.form == LINKED else '"output"'
            text.append(f'[[member]]\ncontroller = "{it.controller}"\nvirtual = "{it.virtual}"\nbits = 3\n'
                        f'entries = 4096\nmatch = ["dl_type", "nw_src", "nw_dst"]\nactions = [{kinds}]\n'
                        "packet_out = true")
        return "\n".join(text) + "\n"


class World:
    """A replay of such a policy, in which each member has so many entries."""

    def __init__(self, program, layout, entries, folder):
        path = os.path.join(folder, "made.toml")
        with open(path, "w", encoding="ascii") as file:
            file.write(layout.text())
        self.layout, self.members, self.entries = layout, layout.members, entries
        self.names = [f"s{switch}".encode() for switch in range(layout.switches)]
        self.second, self.last, self.state = 0, [], ("waiting", 0)
        self.fed = Fed([*program, "replay", path], self.names, self.members[0].name)
        self.fed.settle([b"up " + name for name in self.names] + [b"up " + it.name for it in self.members])

    def each(self, count):
        """So many turns of members, each with the number of its turn."""
        return [(self.members[at % len(self.members)], at // len(self.members)) for at in range(count)]

    def spare(self, count):
        """The same, as far as tables have room."""
        return [(it, self.entries + turn) for it, turn in self.each(min(count, SPARE * len(self.members)))]

    def fill(self, do, size=512):
        """Fills the tables; what comes of each block of ADDs under `do`."""
        lines = [it.change(ADD, place) for place in range(self.entries) for it in self.members]
        return [do(lines[at:at + size]) for at in range(0, len(lines), size)], len(lines)

    def refill(self, member, **further):
        """The member's entries anew, with these flags or timeouts."""
        self.fed.settle([member.delete_all()])
        self.fed.settle(member.adds(range(self.entries), **further))

    def after(self, seconds):
        """The line that so much time has passed."""
        self.second += seconds
        return f"tick {self.second}".encode()

    def restore(self):
        """What was left open, anew."""
        if self.state[1]:
            self.fed.settle([b"up " + name for name in self.names] + [b"up " + it.name for it in self.members])
            self.fed.audit.clear()
            self.burden(*self.state)

    def burden(self, what, count):
        """From here on so many barriers of the first member wait, removals are owed to it, or barriers and removals are
        outstanding at its switch, for ever."""
        fed, first = self.fed, self.members[0]
        self.state = what, count
        if what == "waiting" and count:
            fed.hold(BARRIERS)
            fed.settle([first.change(MODIFY_STRICT, 0)])
            fed.settle([first.line(message(BARRIER_REQUEST, xid)) for xid in range(count)])
        elif count:
            for at in range(0, count, SPARE):
                places = range(self.entries, self.entries + min(SPARE, count - at))
                fed.hold(REMOVALS)
                fed.settle(first.adds(places, flags=SEND_FLOW_REM if what == "owed" else 0))
                fed.hold(REMOVALS, *([BARRIERS] if what == "outstanding" else []))
                fed.settle(first.deletes(places))
        fed.held()
