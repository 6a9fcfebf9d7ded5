"""The kinds of events of bench/machine_run over policies that are made: what is fed before and behind, and what is
timed."""
from collections import namedtuple

from machine_fed import BARRIERS, NUMBERS, REMOVALS, from_line
from machine_made import LINK, LINKED, PLAIN, SHAPES
from openflow import (ADD, BARRIER_REQUEST, DELETE_STRICT, ECHO_REQUEST, FEATURES_REQUEST, MODIFY_STRICT, NONE,
                      PORT_MOD, SEND_FLOW_REM, TABLE, flow_request, message, output, packet_in, packet_out,
                      port_status)

# `ready` is done first. `timed` gives the lines that are timed, and of how many events they are. `back` puts all back;
# where `ends` holds, what was waiting, owed or outstanding went, and is made anew. How entries look is the form.
Kind = namedtuple("Kind", "timed ready back ends form", defaults=(None, None, False, PLAIN))
LATE = 20


def asked(kind, body=b""):
    """Messages of all members in turn."""
    def timed(world, count):
        return [it.line(message(kind, turn, body)) for it, turn in world.each(count)], count
    return timed


def add_spare(world, count):
    return [it.change(ADD, place) for it, place in world.spare(count)]


def delete_spare(world, count):
    return [it.change(DELETE_STRICT, place) for it, place in world.spare(count)]


def modify(world, count):
    return [it.change(MODIFY_STRICT, turn % world.entries) for it, turn in world.each(count)]


def counted(lines_of):
    def timed(world, count):
        lines = lines_of(world, count)
        return lines, len(lines)
    return timed


def settled(lines_of):
    return lambda world, count: world.fed.settle(lines_of(world, count))


def all_up(world, count=0):
    return [b"up " + it.name for it in world.members]


def held_barriers(world, count):
    world.fed.hold(BARRIERS)
    world.fed.settle(modify(world, count // 2))


def what_was_held(world, count):
    lines = world.fed.held()
    return lines, len(lines)


def refilled(**further):
    return lambda world, count: world.refill(world.members[0], **further)


def delete_told(world, count):
    return [world.members[0].delete_all()], world.entries


def held_removals(world, count):
    world.refill(world.members[0], flags=SEND_FLOW_REM)
    world.fed.hold(REMOVALS)
    world.fed.settle([world.members[0].delete_all()])


def tick_late(world, count):
    return [world.after(LATE)], world.entries


def hold_numbers(world, count):
    world.fed.hold(NUMBERS)


def idle(world, count):
    world.refill(world.members[0], idle=LATE // 2)
    hold_numbers(world, count)


def idle_asked(world, count):
    idle(world, count)
    world.fed.settle([world.after(LATE)])


def settles(world, count):
    return world.fed.held(), world.entries


def answer_and_refill(world, count):
    world.fed.settle(world.fed.held())
    world.refill(world.members[0])


def asks(world, count):
    """The first member's switch is asked for its entries until there are so many parts, eight times at most."""
    hold_numbers(world, count)
    for turn in range(8):
        world.fed.settle([world.members[0].line(flow_request(turn))])
        if sum(len(it.held) for it in world.fed.switches.values()) > count:
            break


def is_last(line):
    """Whether no part follows: of the flags, behind a header and the kind of statistics, none is set."""
    return line.rpartition(b" ")[2][20:24] == b"0000"


def split_parts(world):
    """The parts that others follow, and the last ones."""
    lines = world.fed.held()
    return [line for line in lines if not is_last(line)], [line for line in lines if is_last(line)]


def parts(world, count):
    lines, world.last = split_parts(world)
    return lines, len(lines)


def asks_and_parts(world, count):
    asks(world, count)
    lines, world.last = split_parts(world)
    world.fed.settle(lines)


def last_parts(world, count):
    lines, world.last = world.last, []
    return lines, len(lines) * world.entries


def rest_of_parts(world, count):
    world.fed.settle(world.last)


def flow(world, count):
    return [it.line(flow_request(turn)) for it, turn in world.each(count)], count


def drop_polls(world, count):
    world.fed.settle(all_up(world))
    world.fed.held()


def ports(world, count):
    switch, first = world.layout.places[0]
    return [from_line(world.names[switch], port_status(turn, first, turn % 2 == 0)) for turn in range(count)], count


def ports_back(world, count):
    switch, first = world.layout.places[0]
    world.fed.settle([from_line(world.names[switch], port_status(0, first, False))])


def packets_in(world, count):
    places = world.layout.places
    lines = []
    for turn in range(count):
        virtual = turn % len(places)
        switch, first = places[virtual]
        member = world.layout.members_of(virtual)[0]
        lines.append(from_line(world.names[switch], packet_in(turn, first, member.packet(turn % world.entries))))
    return lines, count


def packets_out(port):
    """Packets that members send. To TABLE they come in where the sender's entry doesn't send them to."""
    def timed(world, count):
        lines = []
        for it, turn in world.each(count):
            place = turn % world.entries
            ingress = 3 - it.port(place) if port == TABLE else NONE
            lines.append(it.line(packet_out(turn, ingress, output(port), it.packet(place))))
        return lines, count
    return timed


def up_members(world, count):
    return [b"up " + it.name for it, _ in world.each(count)], count


def up_switch(world, count):
    """Per entry that is put."""
    name = world.names[world.layout.places[0][0]]
    return [b"up " + name], max(1, len(world.fed.switches[name].entries))


def expressions(world, count):
    """Another expression and the first one again; per entry of the members."""
    members = [it.controller for it in world.layout.members_of(0)]
    lines = [f"expr v0 {join.join(members)}".encode() for join in ("|>", "+")]
    return lines, 2 * len(members) * world.entries


KINDS = {
    "echo": Kind(asked(ECHO_REQUEST, bytes(8))),
    "deny": Kind(asked(PORT_MOD, bytes(24))),
    "features": Kind(asked(FEATURES_REQUEST)),
    "barrier": Kind(asked(BARRIER_REQUEST), None, settled(all_up), True),
    "add": Kind(counted(add_spare), None, settled(delete_spare)),
    "modify": Kind(counted(modify)),
    "delete": Kind(counted(delete_spare), settled(add_spare)),
    "barrier_reply": Kind(what_was_held, held_barriers),
    "port_status": Kind(ports, None, ports_back),
    "packet_in": Kind(packets_in),
    "packet_in_64": Kind(packets_in, form=SHAPES),
    "packet_out": Kind(packets_out(1)),
    "packet_out_table": Kind(packets_out(TABLE)),
    "packet_out_link": Kind(packets_out(LINK), form=LINKED),
    "flow": Kind(flow, hold_numbers, drop_polls, True),
    "part": Kind(parts, asks, rest_of_parts),
    "last_part": Kind(last_parts, asks_and_parts),
    "tick_idle": Kind(lambda world, count: ([world.after(1) for _ in range(count)], count)),
    "hard": Kind(tick_late, refilled(hard=LATE // 2), refilled()),
    "idle_tick": Kind(tick_late, idle, answer_and_refill),
    "idle_settle": Kind(settles, idle_asked, refilled()),
    "delete_all": Kind(delete_told, refilled(flags=SEND_FLOW_REM), refilled()),
    "removal": Kind(what_was_held, held_removals, refilled()),
    "up_member": Kind(up_members, ends=True),
    "up_switch": Kind(up_switch, ends=True),
    "expr": Kind(expressions),
}
